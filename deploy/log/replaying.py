"""`pdpd replay`: replies worked out again."""
from __future__ import annotations

import os
import pathlib
import subprocess
import tempfile
import threading
from collections.abc import Iterable, Iterator
from typing import BinaryIO

from .pdpd import Reply

# the token of the operator in a replay, and one that a replay gives a domain for its own asks
OPERATOR, ASKER = "operator-of-the-replay", "asker-of-the-replay"


class Failed(Exception):
    """The program gave no replies, and why."""


def program() -> str:
    """The program that replays: what PDPD names, else the one that is installed beside this."""
    beside = pathlib.Path(__file__).resolve().parents[1] / "pdpd"
    return os.environ.get("PDPD") or (str(beside) if beside.exists() else "pdpd")


def replies_in(stream: BinaryIO) -> Iterator[Reply]:
    while line := stream.readline():
        data = stream.read(int(line.split()[1]))
        stream.read(1)
        yield Reply(int(data[9:12]), data)


class Writer(threading.Thread):
    """Writes a transcript while its replies are read; `fault` is what went wrong with it."""

    def __init__(self, parts: Iterable[tuple[int, bytes]], stream: BinaryIO):
        super().__init__(daemon=True)
        self.parts, self.stream, self.fault = parts, stream, None
        self.start()

    def run(self) -> None:
        try:
            with self.stream:
                for moment, message in self.parts:
                    self.stream.write(b"0 %d %d\n%s\n" % (moment, len(message), message))
        except BrokenPipeError:
            # the program has ended, and its status says why
            pass
        except Exception as fault:  # noqa: BLE001 (whoever reads the replies is told)
            self.fault = fault


def replay(parts: Iterable[tuple[int, bytes]]) -> Iterator[Reply]:
    """The reply to each message at its moment, of a program that has seen nothing before."""
    with tempfile.TemporaryFile() as said:
        try:
            process = subprocess.Popen([program(), "replay", OPERATOR], stdin=subprocess.PIPE, stdout=subprocess.PIPE,
                                       stderr=said)
        except OSError as fault:
            raise Failed(f"{program()} can't be started ({fault.strerror}): PDPD=PATH names another program") from None
        writer = Writer(parts, process.stdin)
        try:
            yield from replies_in(process.stdout)
            writer.join()
            if writer.fault:
                raise writer.fault
            if process.wait():
                said.seek(0)
                why = said.read().decode(errors="replace")[-500:].strip()
                raise Failed(f"pdpd replay ended with status {process.returncode}: {why}")
        finally:
            process.kill()
            process.wait()
            process.stdout.close()
            writer.join()
