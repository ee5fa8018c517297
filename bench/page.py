#!/usr/bin/env python3
"""The tables of docs/PERFORMANCE.md that benchmarks write, each between marks of its own, with the day, the commit, the
kit and the machine.

usage: bench/page.py NAME FILE [--write]     with `--write`, the lines of FILE are written between the marks of
                                             bench/NAME; without it nothing is

A benchmark in Python prints its table within `shown`.
"""
import contextlib
import io
import os
import pathlib
import re
import sys

sys.dont_write_bytecode = True
TOP = pathlib.Path(__file__).resolve().parent.parent
sys.path += [str(TOP / "bench"), str(TOP / "tests")]

from gate import version  # noqa: E402
from kit import machine  # noqa: E402

PAGE, WRITES = TOP / "docs" / "PERFORMANCE.md", "--write" in sys.argv[1:]


def words():
    """The words of the command line but for `--write`."""
    return [word for word in sys.argv[1:] if word != "--write"]


def marks(name):
    return f"<!-- bench/{name} -->", f"<!-- end of bench/{name} -->"


def heading():
    """When, of which commit and where the figures were measured."""
    found = machine()
    return (f"{version(found)}, on\n"
            f"{found['model']} with {found['processors']} processors and {found['memory']} GB:")


def with_table(text, name, head_lines, lines):
    """The text of a page, in which the table of that name is this one."""
    first, last = marks(name)
    block = "\n".join([first, head_lines, "", "```", *lines, "```", last])
    text, count = re.subn(f"{re.escape(first)}\n.*?{re.escape(last)}", lambda _: block, text, flags=re.S)
    if count != 1:
        sys.exit(f"docs/PERFORMANCE.md has {count} places between {first} and {last}")
    return text


def write(tables):
    """Writes the tables, by their names, into the page."""
    text, told = PAGE.read_text(encoding="utf-8"), heading()
    for name, lines in tables.items():
        text = with_table(text, name, told, lines)
    PAGE.write_text(text, encoding="utf-8")


class Machine:
    """What else took the machine's processors while something was measured."""

    def __init__(self):
        self.before, self.ticks = os.getloadavg()[0], self.taken()

    @staticmethod
    def taken():
        """The ticks of its processors that the host of a virtual machine has taken, and all of them (proc(5))."""
        with open("/proc/stat", encoding="ascii") as lines:
            ticks = [int(word) for word in lines.readline().split()[1:9]]
        return ticks[7], sum(ticks)

    def told(self):
        """The load of the machine before and now, and what the host took meanwhile."""
        stolen, every = (now - then for now, then in zip(self.taken(), self.ticks))
        return (f"{os.cpu_count()} processors, a load of {self.before:.1f} before and {os.getloadavg()[0]:.1f} behind; "
                f"the host took {100 * stolen / max(1, every):.0f} % of them")


class Copy(io.StringIO):
    """Keeps what is printed, which goes where it would have gone besides."""

    def __init__(self, output):
        super().__init__()
        self.output = output

    def write(self, text):
        self.output.write(text)
        return super().write(text)

    def flush(self):
        self.output.flush()


def shown(name, table):
    """Calls what prints the table of that name, and gives the status that it gives. If it is asked for, the table is
    written into the page too: also one with a missed aim, which its lines tell."""
    copy = Copy(sys.stdout)
    with contextlib.redirect_stdout(copy):
        status = table()
    if WRITES:
        write({name: copy.getvalue().splitlines()})
    return status


def main():
    if len(words()) != 2:
        print(__doc__, file=sys.stderr)
        return 2
    name, path = words()
    if WRITES:
        write({name: pathlib.Path(path).read_text(encoding="utf-8").splitlines()})
    return 0


if __name__ == "__main__":
    sys.exit(main())
