"""A reader of the part of YAML in which docs/guide/openapi.yaml is written.

The page is YAML, so that people can read and change it, and Python's library has no reader of YAML. So this reads the
part of YAML that the page uses, and refuses everything else: mappings and sequences by indentation, values of one line,
JSON (which is YAML as well), and literal blocks (`|`). The other ways were worse for whoever keeps the page: written as
JSON alone it has no text of several lines, and with its examples in a file beside it nobody sees them in place.
"""
import json
import re


class Wrong(Exception):
    """A page is not what it has to be."""


KEY = re.compile(r"('(?:[^']|'')+'|[A-Za-z$][\w.$/+-]*|/[^\s:]*):(?: (.*))?\Z", re.A)
PLAIN = re.compile(r"[A-Za-z/^(][^\t]*\Z")


class Yaml:
    """A reader of that part of YAML, of the text of a page of that name."""

    def __init__(self, text, name):
        self.lines, self.name = text.split("\n"), name
        self.at = 0

    def fail(self, said):
        raise Wrong(f"{self.name}:{self.at + 1}: {said}")

    def indent(self):
        """How far the next line that says something stands in, -1 at the end."""
        while self.at < len(self.lines) and re.fullmatch(r" *(#.*)?", self.lines[self.at]):
            self.at += 1
        if self.at == len(self.lines):
            return -1
        line = self.lines[self.at]
        if line != line.rstrip() or "\t" in line:
            self.fail("a tab, or a space at the end")
        return len(line) - len(line.lstrip(" "))

    def whole(self):
        value = self.block(0)
        if self.indent() != -1:
            self.fail("a line that belongs to nothing")
        return value

    def block(self, indent):
        """The mapping or the sequence whose lines stand in that far."""
        return self.sequence(indent) if self.lines[self.at][indent:].startswith("- ") else self.mapping(indent)

    def sequence(self, indent):
        items = []
        while self.indent() == indent and self.lines[self.at][indent:].startswith("- "):
            rest = self.lines[self.at][indent + 2:]
            if KEY.match(rest):
                # a mapping whose first member stands behind the dash
                self.lines[self.at] = " " * (indent + 2) + rest
                items.append(self.mapping(indent + 2))
            else:
                items.append(self.value(rest, indent))
        return items

    def mapping(self, indent):
        members = {}
        while self.indent() == indent:
            found = KEY.match(self.lines[self.at][indent:])
            if not found:
                self.fail("no member of a mapping")
            key = found[1][1:-1].replace("''", "'") if found[1].startswith("'") else found[1]
            if key in members:
                self.fail(f"a second {key}")
            members[key] = self.value(found[2], indent)
        return members

    def value(self, rest, indent):
        """The value that begins with the rest of a line, or on the next line where that is empty."""
        if not rest:
            self.at += 1
            inner = self.indent()
            if inner <= indent:
                self.fail("no value")
            text = self.lines[self.at][inner:]
            return self.json(text, indent) if text[0] in "{[" else self.block(inner)
        if rest in ("|", "|-"):
            return self.literal(indent) + ("\n" if rest == "|" else "")
        if rest[0] in "{[\"":
            return self.json(rest, indent)
        self.at += 1
        if re.fullmatch(r"'(?:[^']|'')*'", rest):
            return rest[1:-1].replace("''", "'")
        if rest in ("true", "false"):
            return rest == "true"
        if re.fullmatch(r"-?(0|[1-9][0-9]*)", rest):
            return int(rest)
        if (not PLAIN.match(rest) or ": " in rest or " #" in rest or rest.endswith(":")
                or rest.lower() in ("null", "yes", "no", "on", "off", "y", "n", "true", "false")):
            self.at -= 1
            self.fail("a value that needs quotes")
        return rest

    def literal(self, indent):
        self.at += 1
        inner, lines = self.indent(), []
        if inner <= indent:
            self.fail("no text")
        while self.at < len(self.lines) and (not self.lines[self.at] or self.lines[self.at].startswith(" " * inner)):
            lines.append(self.lines[self.at][inner:])
            self.at += 1
        while not lines[-1]:
            lines.pop()
        return "\n".join(lines)

    def json(self, text, indent):
        """A value in JSON, over as many lines as it takes."""
        while True:
            self.at += 1
            try:
                return json.loads(text, object_pairs_hook=self.once)
            except json.JSONDecodeError as fault:
                if (self.at == len(self.lines)
                    or len(self.lines[self.at]) - len(self.lines[self.at].lstrip(" ")) <= indent):
                    self.at -= 1
                    self.fail(f"JSON: {fault.msg}")
                text += "\n" + self.lines[self.at]

    def once(self, members):
        if len(dict(members)) < len(members):
            self.fail("a member that stands twice")
        return dict(members)


def read_yaml(top, name):
    """What the page of that name below a folder has."""
    return Yaml((top / name).read_text(encoding="utf-8"), name).whole()
