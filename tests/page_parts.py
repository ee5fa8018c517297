"""What is generated in the pages (*.md), between the comments `pages: ..` and `end of pages`.

Marks: `files PATTERN` is a table of the files with the first sentence of each; `definitions` the index of all
definitions, crate by crate (both with links to the files); `standing` the table of all crates, with links to their
pages; `lines` counts the lines of definitions that have to be read; `decisions ROOM,ROOM..` is the index of all
decisions in docs/design/decisions, each of which is a heading and a line that begins with its date; `kinds PATTERN`
an example of each kind of row; `tables FILE` the tables of SQL that a file of code makes; `said COMMAND,WORD..` what
a command writes; `functions` the functions that policies can call, by tests/model/names.py. `routes`, `route
METHOD:PATH`, `errors`, `objects FIRST`, `states` and `examples METHOD:PATH` are parts of docs/guide, of what
docs/guide/openapi.yaml has and the page doesn't write out.
"""
import ast
import collections
import functools
import json
import os
import pathlib
import re
import subprocess
import sys
import textwrap

TOP = pathlib.Path(__file__).resolve().parent.parent
sys.path.append(str(TOP / "tests" / "model"))

from api_parts.examples import OPENAPI, response_body  # noqa: E402
from api_parts.openapi import compact, operations  # noqa: E402
from names import NAMES, TAKEN  # noqa: E402
from programs import crates  # noqa: E402
from values import TYPES  # noqa: E402
from yaml_part import read_yaml  # noqa: E402

DECISIONS = TOP / "docs" / "design" / "decisions"
COLUMNS = 100
MARKED = re.compile(r"(<!-- pages: (\w+)(?: (\S+))? -->\n).*?(<!-- end of pages -->)", re.S)
ITEM = re.compile(r"(\s*)([-*] |\d+\. |> )")
EXAMPLE, GREATEST_EXAMPLE = 70, 110

# What docs/audit/AUDIT.md counts: the statement of the headline, and all definitions.
STATEMENT = [f"crates/xa_server/specs/{name}.antt" for name in "Machine Alone Owner World Isolation Served".split()]
STATEMENT += [f"crates/xa_records/specs/{name}.antt" for name in "Changes Readings Kept DomainState".split()]
COUNTED = {"the statement of the headline, files 1 to 4": STATEMENT, "all definitions": ["crates/*/specs/**/*.antt"]}


def wrapped(lines):
    """A paragraph or an item of a list, in lines of at most 100 columns; code spans and links aren't broken."""
    item = ITEM.match(lines[0])
    first = item[0] if item else ""
    behind = first if first.endswith("> ") else " " * len(first)
    parts = [line.strip() for line in [lines[0][len(first):], *lines[1:]]]
    text = " ".join(part.removeprefix("> ") if first.endswith("> ") else part for part in parts)
    text = re.sub(r"`[^`]+`|\[[^]]{1,50}\]\([^)]*\)", lambda span: span[0].replace(" ", "\0"), text)
    text = re.sub(r" (?=(?:[-+*#>|]|\d+\.) )", "\0", text)
    made = textwrap.wrap(text, COLUMNS, initial_indent=first, subsequent_indent=behind, break_long_words=False,
                         break_on_hyphens=False)
    return [line.replace("\0", " ") for line in made]


# ---- what is generated

def first_sentence(path):
    """The first sentence of a file's docstring, or of the comment at its head."""
    text = path.read_text(encoding="utf-8")
    if path.suffix == ".py":
        comment = ast.get_docstring(ast.parse(text)) or ""
    else:
        mark = {".antt": "--", ".c": "//"}.get(path.suffix, "#")
        comment = re.match(rf"(?:#!.*\n)?((?:{mark}.*\n)*)", text)[1]
        comment = "\n".join(line.removeprefix(mark) for line in comment.splitlines())
    paragraph = " ".join(comment.split("\n\n")[0].split())
    return re.split(r"(?<=[^.]\.) (?=[A-Z`<])", paragraph)[0].rstrip(".")


def cell(text):
    return text.replace("|", r"\|").replace("<", r"\<")


def link(name, path, folder):
    """A link to a file, from a page in that folder."""
    return f"[`{name}`]({os.path.relpath(path, folder)})"


def files(pattern, folder):
    found = [path for path in sorted(TOP.glob(pattern)) if path.is_file()]
    lines = [f"| {link(path.name, path, folder)} | {cell(first_sentence(path))} |\n" for path in found
             if path.name not in ("__init__.py", "README.md")]
    return "| File | What it is about |\n|---|---|\n" + "".join(lines)


def definitions(folder):
    text = ""
    for name in crates():
        specs = TOP / "crates" / name / "specs"
        rows = []
        for path in sorted(specs.rglob("*.antt")):
            within = path.relative_to(specs).with_suffix("").as_posix()
            if within != "Lib" and not within.startswith("declared") and (about := first_sentence(path)):
                rows.append(f"| {link(within, path, folder)} | {cell(about)} |\n")
        if rows:
            text += f"\n## {name}\n\n| Module | What it says |\n|---|---|\n" + "".join(rows)
    return text.lstrip("\n")


def standing(_):
    found = crates()
    text = "| Crate | Stands on, of this repository | Of the kit |\n|---|---|---|\n"
    for name, rest in found.items():
        ours, kit = ([f"`{each}`" for each in rest if (each in found) == own] for own in (True, False))
        page = f"../../crates/{name}"
        calls = f" ([calls]({page}/CALLING.md))" * (TOP / "crates" / name / "CALLING.md").exists()
        text += f"| [`{name}`]({page}/README.md){calls} | {', '.join(ours)} | {', '.join(kit)} |\n"
    return text


def lines(_):
    text = "| What | Lines | Without comments, imports and empty lines |\n|---|---|---|\n"
    for what, patterns in COUNTED.items():
        found = [line for pattern in patterns for path in TOP.glob(pattern) if "declared" not in path.parts
                 for line in path.read_text(encoding="utf-8").splitlines()]
        bare = [line for line in found if line.strip() and not line.startswith(("--", "use ", "pub mod ", "pub use "))]
        counts = [len(each) if len(each) < 1000 else f"some {round(len(each), -3):,}" for each in (found, bare)]
        text += f"| {what} | {counts[0]} | {counts[1]} |\n"
    return text


# ---- what commands say

def said(words):
    """What a command of the repository writes, as code: its path and its words, with commas between."""
    ran = subprocess.run(words.split(","), cwd=TOP, capture_output=True, text=True, check=False)
    return "```\n" + (ran.stdout or ran.stderr).strip("\n") + "\n```\n"


def tables(path):
    """The tables of SQL that a file of code makes, a line for each column."""
    text = (TOP / path).read_text(encoding="utf-8")
    found = re.findall(r'"(CREATE TABLE \w+) \((.*)\) (\w+)"', text)
    made = "\n".join(f"{name} (\n    " + re.sub(r", (?![^(]*\))", ",\n    ", columns) + f"\n) {kind};"
                     for name, columns, kind in found)
    return f"```sql\n{made}\n```\n"


# ---- rows

def kinds(pattern):
    """Each kind of row with how many lines of the files have it, and an example of some 70 characters."""
    found = {}
    for path in sorted(TOP.glob(pattern)):
        for line in path.read_text(encoding="utf-8").splitlines():
            asked = re.match(r"([a-z_]+)  ", line)
            if asked and "  =>  " in line:
                found.setdefault(asked[1], []).append(line)
    text = "| Kind | Lines | A row and its answer |\n|---|---|---|\n"
    for kind, lines in sorted(found.items()):
        line = min(lines, key=lambda line: ("=>  !" in line, "\\(" in line, abs(len(line) - EXAMPLE), line))
        example = line.replace("|", r"\|") if len(line) <= GREATEST_EXAMPLE else f"{kind}  ..  =>  .."
        text += f"| `{kind}` | {len(lines):,} | `{example}` |\n"
    return text


# ---- functions

# What stands behind the function in a call of a higher-order function (A.3.12), if it isn't one bag among values.
BEHIND = {"any-of-any": "values and bags", "all-of-any": "two bags", "all-of-all": "two bags"}


def shown_kind(kind, data_type):
    """A kind that a function takes or gives, as pages have it: `T` in place of that data type."""
    held = kind.rstrip("*").split(" ")[-1]
    return "bag of " * kind.startswith("bag ") + ("T" if held == data_type else held) + " .." * kind.endswith("*")


def families(name, takes, gives):
    """The families that a function may belong to (name, what it takes, what it gives), each with what its `T` is."""
    found = [((name, tuple(shown_kind(kind, "") for kind in takes), shown_kind(gives, "")), "")]
    for data_type in TYPES:
        taken = tuple(shown_kind(kind, data_type) for kind in takes)
        for old, new in ((f"{data_type}-", "T-"), (f"string-from-{data_type}", "string-from-T")):
            for given in sorted({shown_kind(gives, data_type), shown_kind(gives, "")}) if name.startswith(old) else ():
                found.append(((new + name.removeprefix(old), taken, given), data_type))
    return found


def functions(_):
    """The functions by their URIs; those that differ in a data type alone stand in one row, the largest there is."""
    parted = {name: re.fullmatch(r"urn:oasis:names:tc:xacml:(.*?):function:(.*)", name) for name in NAMES}
    named = [(*(found.groups() if found else ("", name)), *TAKEN.get(name, (None, None)))
             for name, found in parted.items()]
    found = [(version, families(name, takes, gives)) for version, name, takes, gives in named if takes is not None]
    sizes = collections.Counter((version, family) for version, choices in found for family, _ in choices)
    types, rows = {}, {}
    for version, choices in found:
        family, data_type = max(choices, key=lambda choice: sizes[version, choice[0]])
        types.setdefault((version, *family), []).append(data_type)
    for (version, name, takes, gives), held in types.items():
        rows.setdefault((version, tuple(held), ", ".join(takes), gives), []).append(name)
    for version, name in ((version, name) for version, name, takes, _ in named if takes is None):
        inner, gives = ("", "bag of what it gives") if name == "map" else (" that gives a boolean", "boolean")
        takes = f"a function of values{inner}, {BEHIND.get(name, 'values and one bag')}"
        rows.setdefault((version, ("",), takes, gives), []).append(name)
    text = "| Version | Functions | T | Takes | Gives |\n|---|---|---|---|---|\n"
    for (version, held, takes, gives), names in rows.items():
        shown = "each data type" if len(held) == len(TYPES) else ", ".join(held)
        text += f"| {version} | {', '.join(f'`{name}`' for name in names)} | {shown} | {takes} | {gives} |\n"
    return text


# ---- the tables of docs/guide/API.md

@functools.cache
def openapi():
    """What docs/guide/openapi.yaml has, as tests/api.py reads it."""
    return read_yaml(TOP, OPENAPI)


def roles(operation):
    return ", ".join(role for each in operation["security"] for names in each.values() for role in names)


def routes(_):
    page = openapi()
    return "| Route | Token | What it does |\n|---|---|---|\n" + "".join(
        f"| `{method} {path}` | {roles(operation)} | {operation['summary']} |\n"
        for method, path, operation in operations(page))


def route(name):
    """What a route does, as docs/guide/openapi.yaml says it."""
    page = openapi()
    description = next(operation["description"] for method, path, operation in operations(page)
                       if f"{method}:{path}" == name)
    return "".join("\n".join(wrapped(part.split("\n"))) + "\n\n"
                   for part in description.strip().split("\n\n")).strip("\n") + "\n"


def held_by(schema):
    """What a member holds: the object's name, `[..]` of an array, the values if they are few; nothing of a text."""
    if "items" in schema:
        return f"[{held_by(schema['items'])}]"
    if "properties" in schema:
        return "{" + ", ".join(f"{name}: {held_by(each)}" for name, each in schema["properties"].items()) + "}"
    name = schema.get("$ref", "").rpartition("/")[2]
    values = openapi()["components"]["schemas"][name].get("enum", ()) if name else ()
    return " or ".join(values) if 0 < len(values) < 4 else name or schema["type"].replace("string", "")


def member_cell(name, schema, needed):
    """A member, with what it holds if its name doesn't say it."""
    held = held_by(schema)
    return f"{name}{'' if name in needed else '?'}{f': {held}' if held not in ('', name) else ''}"


def objects(first):
    """The objects that an object of docs/guide/openapi.yaml leads to, each with its members."""
    schemas, order = openapi()["components"]["schemas"], [first]
    for name in order:
        order += [each for each in dict.fromkeys(re.findall(r"schemas/(\w+)", json.dumps(schemas[name])))
                  if each not in order and "properties" in schemas[each]]
    text = "| Object | Members | What it is |\n|---|---|---|\n"
    for name in order:
        schema, members = schemas[name], schemas[name]["properties"]
        is_one = schema.get("minProperties") == schema.get("maxProperties") == 1
        needed = list(members) if is_one else schema.get("required", ())
        listed = ", ".join(member_cell(member, each, needed) for member, each in members.items())
        text += f"| {name} | {'exactly one of ' * is_one}{listed} | {cell(schema['description'])} |\n"
    return text


def errors(_):
    text = "| Code | Status | What happened | What to do | What to run, to learn where |\n" + "|---" * 5 + "|\n"
    for code, each in openapi()["x-errors"].items():
        text += f"| `{code}` | {each['status']} | {' | '.join(cell(each[part]) for part in ('what', 'do', 'run'))} |\n"
    return text


def states(_):
    text = "| State | Messages before | What the server has then |\n|---|---|---|\n"
    for name, state in openapi()["x-states"].items():
        steps = [f"`{item['example']}` with `{item['replace']}` made `{item['by']}`, "
                 f"n from {item['from']} to {item['to']}"
                 if isinstance(item, dict) else f"`{item}`" for item in state["messages"]]
        text += f"| `{name}` | {', '.join(steps) or 'none'} | {state['description']} |\n"
    return text


def examples_of(route):
    """Each example of a route: its name, summary, state, target, body as it is written, status and reply."""
    page = openapi()
    for method, path, operation in operations(page):
        bodies = {name: each["value"] for content in operation.get("requestBody", {}).get("content", {}).values()
                  for name, each in content.get("examples", {}).items()}
        for status, response in operation["responses"].items() if f"{method} {path}" == route else ():
            for content in response.get("content", {}).values():
                for name, each in content.get("examples", {}).items():
                    request = each["x-request"]
                    body = compact(request.get("body", bodies.get(name, "")))
                    yield name, each["summary"], request["from"], request["target"], body, status, each["value"]


def body_cell(first, body):
    """How a body differs from that of the section's first example."""
    if not body:
        return "with an empty body"
    old, new = (re.findall(r'"[^"]*"|.', text) for text in (first, body))
    others = [pair for pair in zip(old, new) if pair[0] != pair[1]]
    if len(body) > 120 and len(old) == len(new) and len(others) == 1 and first.count(others[0][0]) == 1:
        return f"with `{others[0][1]}` in place of `{others[0][0]}`"
    return f"with `{body}`"


def reply_cell(status, value):
    if "Error" in value:
        return f"{status} `{value['Error']}`"
    body = compact(value)
    decision = re.fullmatch(r'.*"Decision":"(\w+)".*"urn:oasis:names:tc:xacml:1.0:status:([\w-]+)"}}}]}', body)
    if decision and body == response_body(*decision.groups()):
        return f"{status} {decision[1]} `{decision[2]}`"
    return f"{status} `{body}`"


def examples(route, page):
    """A table of the route's examples that the page doesn't write out."""
    written = re.findall(r"^Example `([\w-]+)`, from", page, re.M)
    found = list(examples_of(route.replace(":", " ", 1)))
    first = min((each for each in found if each[0] in written), key=lambda each: written.index(each[0]))
    text = "| Example | What | From | Request | Reply |\n" + "|---" * 5 + "|\n"
    for name, summary, state, target, body, status, value in found:
        if name not in written:
            parts = [f"to `{target}`"] if target != first[3] else []
            parts += [body_cell(first[4], body)] if body != first[4] else []
            asked = " and ".join(parts) or "the same"
            text += f"| `{name}` | {summary} | `{state}` | {asked} | {reply_cell(status, value)} |\n"
    return text


# ---- the index of decisions

def anchor_of(heading):
    return re.sub(r"[^\w\- ]", "", heading.lower()).replace(" ", "-")

def decided(room):
    """The decisions of a room: the heading of each, its date, and what is said behind the date."""
    text = (DECISIONS / f"{room}.md").read_text(encoding="utf-8")
    for heading, behind in re.findall(r"^## (.*)\n\n(.*)", text, re.M):
        found = re.match(r"\*(\d{4}-\d\d-\d\d)((?:, [^*]+)?)\.\*", behind)
        yield heading, *(found.groups() if found else ("no date", ""))


def decisions(rooms):
    text = ""
    for room in rooms.split(","):
        title = (DECISIONS / f"{room}.md").read_text(encoding="utf-8").partition("\n")[0].removeprefix("# ")
        text += f"\n## {title}\n\n| Decision | Date |\n|---|---|\n"
        for heading, date, more in decided(room):
            text += f"| [{cell(heading)}](design/decisions/{room}.md#{anchor_of(heading)}) | {date}{more} |\n"
    return text.lstrip("\n")


# ---- all

def generated(text, folder):
    """The text of a page in that folder, with what is generated made anew."""
    makers = {"files": lambda pattern: files(pattern, folder), "definitions": lambda _: definitions(folder),
              "standing": standing, "lines": lines, "states": states,
              "decisions": decisions, "kinds": kinds, "said": said, "tables": tables, "routes": routes, "route": route,
              "errors": errors, "objects": objects, "functions": functions,
              "examples": lambda route: examples(route, text)}
    return MARKED.sub(lambda found: found[1] + "\n" + makers[found[2]](found[3]) + "\n" + found[4], text)
