#!/usr/bin/env python3
"""Packs the proved program, what deploys it, the policy author's desk as one file, the pages and their checksums into
build/pdpd-VERSION.tar.gz.

Without more words it takes the program that is proved and built of these very sources.
"""
import argparse
import gzip
import hashlib
import io
import pathlib
import re
import subprocess
import sys
import tarfile
import tempfile

sys.dont_write_bytecode = True
TOP = pathlib.Path(__file__).resolve().parent.parent
sys.path[:0] = [str(TOP / "tests"), str(TOP / "tools" / "policy")]

import pack as policy_desk  # noqa: E402
import programs  # noqa: E402
from wheel import wheel, wheel_name  # noqa: E402

PAGES = ("README.md", "CHANGELOG.md", "SECURITY.md",
         *sorted(str(path.relative_to(TOP)) for path in (TOP / "docs").rglob("*")
                 if path.suffix in (".md", ".svg", ".yaml")),
         *(f"examples/ward/{name}.json" for name in ("policy", "rows", "request-alice")),
         *sorted(str(path.relative_to(TOP)) for path in (TOP / "clients").rglob("*")
                 if path.is_file() and "__pycache__" not in path.parts and ".mypy_cache" not in path.parts))
LEFT_OUT = ("deb.py", "debian", "dist.py", "draw.py", "wheel.py")


def program_of(named):
    """The program that is packed, and a line that says which one it is."""
    if named:
        return elf(named.resolve()), "This program was named by whoever made the archive: it isn't known to be proved."
    try:
        path = programs.proved_program("pdpd")
    except programs.NotBuilt as fault:
        raise SystemExit(f"deploy/dist.py: {fault}") from None
    if path is None:
        raise SystemExit("deploy/dist.py: pdpd isn't proved and built of these very sources: `make prove` or "
                         "`make pdpd` does it. Another one is named: `make dist PROGRAM=PATH`, or "
                         "`deploy/dist.py --program PATH`; the file PROGRAM then says so")
    return path, ("This program was proved and built of the sources of checksum "
                  f"{programs.fingerprint('pdpd')}\nby {first_line_of('rt', 'version')}.")


def elf(program):
    """The program, if it is an ELF file. A script, such as `make run` leaves without a proof, starts a program that
    is elsewhere and isn't packed with it."""
    try:
        held = program.read_bytes()
    except OSError as fault:
        raise SystemExit(f"deploy/dist.py: {program} can't be read: {fault.strerror}") from None
    if held[:4] == b"\x7fELF":
        return program
    starts = re.search(rb"(?m)^exec (\S+)", held)
    raise SystemExit(f"deploy/dist.py: {program} isn't a compiled program (ELF). A script of `make run` starts one: "
                     f"name that: {starts[1].decode(errors='replace') if starts else 'build/unproved/pdpd'}")


def first_line_of(*words):
    return subprocess.run(words, capture_output=True, text=True, check=True).stdout.split("\n")[0].strip()


def files(program, line):
    """Each file of the archive: its name, its bytes, and whether it is run."""
    yield "pdpd", program.read_bytes(), True
    line_of_program = f"{first_line_of(program, '--version')}, SHA-256 {programs.sum_of(program)}\n{line}\n"
    yield "PROGRAM", line_of_program.encode(), False
    yield "policy.pyz", policy_desk.packed(), True
    for page in PAGES:
        yield page, (TOP / page).read_bytes(), bool((TOP / page).stat().st_mode & 0o100)
    version = first_line_of(program, "--version").split()[1]
    yield f"clients/python/{wheel_name(version)}", wheel(version), False
    for path in sorted((TOP / "deploy").rglob("*")):
        if path.is_file() and not {*LEFT_OUT, "__pycache__"} & {*path.relative_to(TOP).parts}:
            yield str(path.relative_to(TOP)), path.read_bytes(), bool(path.stat().st_mode & 0o100)


def with_sums(program, line):
    """Each file of the archive, and behind them their checksums."""
    held = list(files(program, line))
    sums = "".join(f"{hashlib.sha256(data).hexdigest()}  {file}\n" for file, data, _ in held)
    return [*held, ("SHA256SUMS", sums.encode(), False)]


def pack(program, line, folder):
    """Writes the archive into the folder, and gives its path and the name of the folder in it."""
    name = "-".join(first_line_of(program, "--version").split())
    path = folder / f"{name}.tar.gz"
    folder.mkdir(exist_ok=True)
    # without the time at which it is packed: the same files give the same bytes
    with open(path, "wb") as made, gzip.GzipFile("", "wb", fileobj=made, mtime=0) as packed, \
            tarfile.open(fileobj=packed, mode="w") as archive:
        for file, data, is_run in with_sums(program, line):
            entry = tarfile.TarInfo(f"{name}/{file}")
            entry.size, entry.mode = len(data), 0o755 if is_run else 0o644
            archive.addfile(entry, io.BytesIO(data))
    return path, name


def tell(path):
    """Writes the checksum of what was made beside it, and tells it."""
    digest = programs.sum_of(path)
    path.with_name(f"{path.name}.sha256").write_text(f"{digest}  {path.name}\n")
    print(f"{path}: {path.stat().st_size:,} bytes, SHA-256 {digest}", flush=True)


def install(path, name, prefix):
    """Installs the archive, as whoever unpacks it does."""
    with tempfile.TemporaryDirectory() as made:
        with tarfile.open(path) as archive:
            archive.extractall(made)
        words = [pathlib.Path(made) / name / "deploy" / "install", prefix]
        return subprocess.run(words, check=False).returncode


def words_of(about):
    """The words that a script takes which packs the program."""
    words = argparse.ArgumentParser(description=about, formatter_class=argparse.RawDescriptionHelpFormatter)
    words.add_argument("--program", metavar="PATH", type=pathlib.Path,
                       help="another program; the file PROGRAM says that it isn't known to be proved")
    words.add_argument("--to", metavar="FOLDER", type=pathlib.Path, default=TOP / "build",
                       help="where it goes: build/")
    return words


def main():
    words = words_of(__doc__)
    words.add_argument("--install", metavar="PREFIX", help="installs it under this folder, too")
    given = words.parse_args()
    path, name = pack(*program_of(given.program), given.to)
    tell(path)
    return install(path, name, given.install) if given.install else 0


if __name__ == "__main__":
    sys.exit(main())
