"""What `status` finds, as Prometheus reads it (its text format, version 0.0.4)."""
from __future__ import annotations

from collections.abc import Iterator

from .trial import FILES

DAY = 86_400
# a metric's name, what it is, and its samples: labels and a value, or None where that can't be told
Metric = tuple[str, str, list[tuple[dict[str, object], object]]]


def of_shards(report) -> Iterator[Metric]:
    """The metrics of shards."""
    def each(value):
        return [({"shard": shard.shard}, value(shard)) for shard in report.shards]

    yield "pdpd_shard_up", "Whether its own program answers.", each(
        lambda shard: None if shard.state is None else int(shard.state == "up"))
    yield "pdpd_shard_domains", "Its domains.", each(lambda shard: shard.domains)
    yield "pdpd_shard_store_bytes", "The bytes of its files.", [
        ({"shard": shard.shard, "file": name}, size) for shard in report.shards
        for name, size in zip(FILES, (shard.file_bytes, shard.log_bytes))]
    yield "pdpd_shard_disk_free_bytes", "The bytes that are left on its disk.", each(
        lambda shard: shard.disk_free_bytes)
    yield "pdpd_shard_backup_age_seconds", "How old its newest backup is.", each(lambda shard: shard.backup_seconds)
    yield "pdpd_shard_program_info", "The SHA-256 of the program that it runs.", [
        ({"shard": shard.shard, "sha256": shard.program}, 1 if shard.program else None) for shard in report.shards]


def of_all(report) -> Iterator[Metric]:
    """Those of the whole deployment."""
    days = report.certificate_days()
    yield "pdpd_certificate_valid_seconds", "For how long the certificate is valid.", [
        ({}, None if days is None else days * DAY)]
    yield "pdpd_wrong", "How many things are wrong, the lines WRONG of pdpd-shards status.", [
        ({}, len(report.findings.wrong))]
    yield "pdpd_unknown", "How many things it can't tell.", [({}, len(report.findings.unknown))]


def text_of(report) -> str:
    """All of them. What can't be told isn't there."""
    lines = []
    for name, what, samples in (*of_all(report), *of_shards(report)):
        lines += [f"# HELP {name} {what}", f"# TYPE {name} gauge"]
        for labels, value in samples:
            if value is not None:
                named = ",".join(f'{label}="{its}"' for label, its in labels.items())
                lines.append(f"{name}{{{named}}} {value}" if named else f"{name} {value}")
    return "\n".join(lines)
