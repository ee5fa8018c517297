"""Text for people: at most 80 columns, and colours on a terminal alone."""
from __future__ import annotations

import contextlib
import io
import os
import re
import secrets
import sys
import textwrap
from collections.abc import Iterator
from typing import TextIO

from .faults import Remark

WIDTH = 80
# what steers a terminal, turns the order of letters, or can't be seen: controls but for tab and line feed, marks of
# direction, letters of no width, halves of surrogates (which names of files may have), tags
HIDDEN = re.compile("[\x00-\x08\x0b-\x1f\x7f-\x9f\u00ad\u061c\u115f\u1160\u17b4\u17b5\u180e\u200b-\u200f\u2028-\u202e"
                    "\u2060-\u206f\u3164\ufeff\uffa0\ufff9-\ufffb\ud800-\udfff\U000e0000-\U000e0fff]")
# stands for the escape character in the desk's own colours; no file can have it, since it is drawn anew each time
MARK = "".join(chr(0xF0000 + secrets.randbelow(0xFFFE)) for _ in range(2))
CODES = {"bold": "1", "dim": "2", "red": "31", "green": "32", "yellow": "33", "blue": "34"}
LEVELS = {"fault": "red", "warning": "yellow", "note": "blue"}
DECISIONS = {"Permit": "green", "Deny": "red", "NotApplicable": "yellow", "Indeterminate": "yellow"}


def is_coloured(stream: TextIO) -> bool:
    """Whether colours are wanted there."""
    return stream.isatty() and "NO_COLOR" not in os.environ and os.environ.get("TERM") != "dumb"


def painted(text: str, *styles: str) -> str:
    """The text in these styles, where standard output is a terminal."""
    if not text or not is_coloured(sys.stdout):
        return text
    return f"{MARK}[{';'.join(CODES[style] for style in styles)}m{text}{MARK}[0m"


def decided(decision: str) -> str:
    """A decision in its colour."""
    return painted(decision, "bold", DECISIONS.get(decision, "yellow"))


def escaped(found: re.Match) -> str:
    """A letter as JSON escapes it."""
    units = found.group().encode("utf-16-be", "surrogatepass").hex()
    return "".join(f"\\u{units[place:place + 4]}" for place in range(0, len(units), 4))


def harmless(text: str) -> str:
    """The text with escapes in place of what can't be seen or steers a terminal. In a text of JSON an escape means the
    same."""
    return HIDDEN.sub(escaped, text)


class Shown(io.TextIOBase):
    """Standard output or standard error behind the one filter through which all is written: nothing of a file, of its
    name or of a server steers the terminal, hides, or has a colour."""

    def __init__(self, under: TextIO):
        super().__init__()
        self.under = under

    def write(self, text: str) -> int:
        self.under.write(harmless(text).replace(MARK, "\033"))
        return len(text)

    def flush(self) -> None:
        self.under.flush()

    def isatty(self) -> bool:
        return self.under.isatty()

    def fileno(self) -> int:
        return self.under.fileno()


@contextlib.contextmanager
def filtered() -> Iterator[None]:
    """Puts the filter before standard output and standard error."""
    under = sys.stdout, sys.stderr
    sys.stdout, sys.stderr = map(Shown, under)
    try:
        yield
    finally:
        sys.stdout, sys.stderr = under


def write_file(held: str) -> None:
    """Writes the text of a file that is made to standard output: as it is, but on a terminal."""
    is_file = isinstance(sys.stdout, Shown) and not sys.stdout.isatty()
    (sys.stdout.under if is_file else sys.stdout).write(held)


def wrapped(text: str, indent: str = "", hanging: str | None = None) -> str:
    """The text in lines of at most 80 columns, behind an indent; words that are longer stand whole."""
    text = harmless(text)
    hanging = indent if hanging is None else hanging
    return "\n".join(textwrap.wrap(text, WIDTH, initial_indent=indent, subsequent_indent=hanging,
                                   break_long_words=False, break_on_hyphens=False)) or indent.rstrip()


def cut(text: str, room: int) -> str:
    """The text, cut to the room."""
    return text if len(text) <= room else text[:max(room - 3, 1)] + "..."


def broken(text: str, room: int) -> list[str]:
    """The text in pieces that fit the room, parted before slashes, or wherever it must be."""
    pieces = [""]
    for part in re.findall(r"/?[^/]*", harmless(text)):
        while len(part) > room:
            pieces, part = [*pieces, part[:room]], part[room:]
        if len(pieces[-1]) + len(part) > room:
            pieces.append("")
        pieces[-1] += part
    return [piece for piece in pieces if piece]


def labelled(label: str, text: str) -> str:
    """A line `label  text` of a remark."""
    return wrapped(text, f"    {label:9} ", " " * 14)


def of_server(code: str) -> str:
    """The code of an error that the server answers, which says less than the desk's."""
    return code.partition("(")[0]


def remark_shown(remark: Remark) -> str:
    """A remark: where, what it is, and what helps. A note is that sentence alone."""
    place = f"{remark.source.path}:{remark.place.line}:{remark.place.column}"
    head = painted(remark.level, "bold", LEVELS[remark.level]) + " " + painted(remark.code, "bold")
    lines = [f"{painted(place, 'bold')}: {head}", wrapped(remark.sentence, "    ")]
    for label, text in (("at", remark.pointer or "(the whole document)"), ("text", remark.text),
                        ("expected", remark.expected),
                        ("found", remark.found),
                        ("nearest", remark.nearest)) if remark.level != "note" else ():
        if text and label == "at":
            first, *others = broken(text, WIDTH - 14)
            lines.append(("\n" + " " * 14).join([f"    {label:9} {first}", *others]))
        elif text:
            lines.append(labelled(label, text))
    if remark.is_first:
        lines.append(labelled("server", f"answers this fault: {of_server(remark.code)}"))
    return "\n".join(lines)


def counted(count: int, name: str) -> str:
    """`1 fault`, `2 faults`."""
    plural = name[:-1] + "ies" if name.endswith("y") else name + "s"
    return f"{count} {name if count == 1 else plural}"


def listed(names: list[str], word: str = "or") -> str:
    """`a, b or c`."""
    return names[0] if len(names) == 1 else f"{', '.join(names[:-1])} {word} {names[-1]}" if names else "none"


def loud(message: str) -> None:
    """Says something on standard error that nobody should miss."""
    bar = "!" * WIDTH
    text = "\n".join([bar, wrapped(message, "! "), bar])
    print(f"{MARK}[1;31m{text}{MARK}[0m" if is_coloured(sys.stderr) else text, file=sys.stderr)


def warn(message: str) -> None:
    """Says something on standard error."""
    print(wrapped(message, "warning: ", "    "), file=sys.stderr)
