"""The rows of the program xa_trials as text: a row is a line of fields with a tab between, and so is its answer.

In a field a backslash begins an escape: \\n, \\r, \\t, \\\\, \\xHH for a byte, and \\{COUNT,TEXT\\} for COUNT times
the text, in which no other is repeated.

Sources may also write:
- \\u{HEX} for a character, and letters beyond ASCII as they are;
- \\(NAME) for a text that a line `define NAME TEXT` gave before, where `file:PATH` is the text of a file of the
  repository, and `rows:PATH` a field `row:..` for each source row in one;
- \\[COUNT,TEXT\\] for COUNT times the text;
- \\[FIRST-LAST,TEXT\\] for the text once with each of these numbers where it has \\#, and the one before where it
  has \\-;
- two spaces or more between fields;
- fields between `[COUNT` and `]`, which stand COUNT times;
- a field that begins with `(` or `<`, which is parted at spaces and before `)` and `>`.
"""
import json
import pathlib
import re

from identifiers import category
from values import read, to_text

TOP = pathlib.Path(__file__).resolve().parents[2]

TOKEN = re.compile(rb"\\u\{([0-9a-fA-F]+)\}|\\x([0-9a-fA-F]{2})|\\\{([0-9]+),|\\(.)|([^\\]+)", re.DOTALL)
LETTERS = {b"n": b"\n", b"r": b"\r", b"t": b"\t"}
SHORT = {9: "\\t", 10: "\\n", 13: "\\r", 92: "\\\\"}
WRITTEN = {byte: SHORT.get(byte) or (chr(byte) if 32 <= byte < 127 else f"\\x{byte:02x}") for byte in range(256)}


class BadField(ValueError):
    """A field in which a repeated text has no beginning, has no end, or stands in another."""


def decoded(field):
    """The bytes that the text of a field stands for."""
    done, repeated = bytearray(), None
    for found in TOKEN.finditer(field.encode()):
        letter, byte, times, escaped, plain = found.groups()
        if letter:
            done += chr(int(letter, 16)).encode()
        elif byte:
            done.append(int(byte, 16))
        elif times and repeated is None:
            repeated = len(done), int(times)
        elif escaped == b"}" and repeated is not None:
            (start, count), repeated = repeated, None
            done = done[:start] + done[start:] * count
        elif times or escaped in (b"{", b"}"):
            raise BadField(field)
        elif escaped:
            done += LETTERS.get(escaped, escaped)
        else:
            done += plain
    if repeated is not None:
        raise BadField(field)
    return bytes(done)


def encoded(held):
    """The text of the field that stands for the bytes or the text."""
    held = held.encode() if isinstance(held, str) else held
    return held.decode("latin-1").translate(WRITTEN)


def shortened(held):
    """The same, where a few bytes that stand there again and again are written once."""
    parts = re.split(rb"((?s:(.{1,8}?)\2{15,}))", held)
    texts = [encoded(part) for part in parts]
    # the parts are what stands alone, then by threes what is repeated, one of it, and what stands alone again
    repeats = ((len(parts[at]) // len(parts[at + 1]), texts[at + 1], texts[at + 2]) for at in range(1, len(parts), 3))
    return texts[0] + "".join(f"\\{{{count},{one}\\}}{plain}" for count, one, plain in repeats)


def text_of(field):
    """The text that the field stands for."""
    return decoded(field).decode()


def value_of(field):
    """The value of a field `TYPE:TEXT`."""
    data_type, text = field.split(":", 1)
    return read(data_type, text_of(text))


def shown(value):
    """The field of a value."""
    return f"{value[0]}:{encoded(to_text(value))}"


def bag_shown(bag):
    """The fields of a bag: its type, and each of its values."""
    return ["bag:" + bag[0]] + ["+" + encoded(to_text(value)) for value in bag[1]]


def as_input(field):
    """The field of a source as the program reads it: escapes of bytes alone."""
    written = ""
    for found in TOKEN.finditer(field.encode()):
        letter, _, _, _, plain = found.groups()
        held = chr(int(letter, 16)).encode() if letter else plain
        written += encoded(held) if held else found.group(0).decode()
    return written


def line(fields):
    """The line of the fields."""
    return "\t".join(fields) + "\n"


def repeated(fields):
    """The fields, where those between a field `[COUNT` and a field `]` stand so often."""
    if "]" not in fields:
        return fields
    end = fields.index("]")
    start = next(place for place, field in enumerate(fields) if re.fullmatch(r"\[\d+", field))
    return fields[:start] + fields[start + 1:end] * int(fields[start][1:]) + fields[end + 1:]


def numbered(found):
    """The text of a match of its first number, its last one and itself, once with each number."""
    first, last, text = found.groups()
    return "".join(text.replace("\\#", str(number)).replace("\\-", str(number - 1))
                   for number in range(int(first), int(last) + 1))


def parted(field):
    """The fields of an expression, or the field alone."""
    return re.findall(r"[)>]|[^ )>]+", field) if field.startswith(("(", "<")) else [field]


def row_field(row):
    """The field of a source row that stands in JSON."""
    place = [category(row["Category"]), row["Entity"], row["AttributeId"], row["DataType"]]
    return f"row:{'|'.join(place + ([row['Issuer']] if 'Issuer' in row else []))}={row['Value']}"


def given(held):
    """The text that a definition gives: its own, or that of a file."""
    if held.startswith("rows:"):
        rows = json.loads((TOP / held.removeprefix("rows:")).read_text())["Row"]
        return "  ".join(map(row_field, rows))
    if not held.startswith("file:"):
        return held
    return encoded((TOP / held.removeprefix("file:")).read_bytes()).replace(" ", "\\x20")


class Source:
    """The rows of a source, each with its answer: comments, definitions, and lines `FIELD FIELD => FIELD FIELD`."""

    def __init__(self, path):
        self.path, self.defined = path, {}
        self.rows = []
        with open(path, encoding="utf-8", newline="") as it:
            for number, text in enumerate(it.read().split("\n"), 1):
                self.take(number, text.strip())

    def take(self, number, text):
        """Takes the line of this number: a comment, a definition or a row."""
        if not text or text.startswith("#"):
            return
        text = re.sub(r"\\\((\w+)\)", lambda found: self.defined[found.group(1)], text)
        text = re.sub(r"\\\[(\d+)-(\d+),(.*?)\\\]", numbered, text)
        text = re.sub(r"\\\[(\d+),(.*?)\\\]", lambda found: found.group(2) * int(found.group(1)), text)
        if text.startswith("define "):
            _, name, held = text.split(None, 2)
            self.defined[name] = given(held)
            return
        fields = re.split(r"\t+| {2,}", text.rstrip())
        if "=>" not in fields:
            raise SystemExit(f"{self.path}:{number}: a row has no answer")
        fields = [part for field in repeated(fields) for part in parted(field)]
        at = fields.index("=>")
        self.rows.append((f"{self.path}:{number}", fields[:at], fields[at + 1:]))
