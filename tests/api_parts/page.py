"""The examples of docs/guide/API.md."""
import re

from .examples import (
    PAGE, Example, Pages, Step, by_name, bytes_of, error_reply, media_of_replies, need, reply_bytes, request_head,
    response_body, spread, token_in)
from .routes import CODES

FENCED = re.compile(r"^Example `([\w-]+)`, from `([\w-]+)`:\n\n```http\n(.*?)\n```\n\n```http\n(.*?)\n```$",
                    re.M | re.S)
ROUTE_HEADING = re.compile(r"^### `(\w+) (/\S*)`$", re.M)


def code_spans(cell):
    return re.findall(r"`([^`]+)`", cell)


def table_after(text, heading):
    """The cells of each row of the table whose first line begins like that."""
    rows = text[text.index("\n" + heading) + 1:].split("\n\n")[0].split("\n")
    return [[cell.strip() for cell in row.strip("|").split("|")] for row in rows[2:]]


def page_steps(cell, states):
    for item in re.findall(r"`([\w-]+)`(?: with `([^`]+)` made `([^`]+)`, n from (\d+) to (\d+))?", cell):
        name, old, new, first, last = item
        if old:
            yield from (Step(name, old, new.replace("{n}", str(number))) for number in range(int(first), int(last) + 1))
        elif name in states:
            yield from states[name]
        else:
            yield Step(name, "", "")


def cut_head(text):
    """The lines of the head of a message as the page shows it, and its body or None."""
    head, empty, body = text.partition("\n\n")
    return head.split("\n"), body if empty else None


def wire_example(found, route):
    name, state, request, reply = found.groups()
    head, body = cut_head(spread(request))
    lines, reply_body = cut_head(reply)
    return Example(name, route, state, head, body, bytes_of(lines, reply_body))


def row_example(cells, first, route):
    """The example of a table's row: the first example of its section, with what the row says is other."""
    name, state, request, reply = code_spans(cells[0])[0], code_spans(cells[2])[0], cells[3], cells[4]
    method, path = route.split(" ")
    body, target = first.body, first.head[0].split(" ")[1]
    if request != "the same":
        for part in re.split(r" and (?=to `|with )", request):
            if part.startswith("to "):
                target = code_spans(part)[0]
            else:
                need(part.startswith("with "), f"{PAGE}: the request of {name}")
                texts = code_spans(part)
                need(len(texts) < 2 or body.count(texts[1]) == 1,
                     f"{PAGE}: what the request of {name} has in place of another text")
                body = "" if not texts else spread(texts[0]) if len(texts) == 1 else body.replace(texts[1], texts[0])
    media = next((line.partition(": ")[2] for line in first.head if line.startswith("Content-Type: ")), None)
    head = request_head(method, target, token_in(first.head), media, body)
    status, said = int(reply[:3]), code_spans(reply)[0]
    if said in CODES:
        need(CODES[said] == status, f"{PAGE}: the status of {name}")
        return Example(name, route, state, head, body, error_reply(said))
    decision = re.match(r"200 (\w+) `([\w-]+)`", reply)
    written = response_body(*decision.groups()) if decision else said
    return Example(name, route, state, head, body, reply_bytes(status, media_of_replies(path), [], written))


def read_page(text):
    states, examples = {}, []
    for name, messages, _ in table_after(text, "| State |"):
        states[code_spans(name)[0]] = list(page_steps(messages, states))
    headings = list(ROUTE_HEADING.finditer(text))
    end = text.index("\n## ", headings[-1].end())
    ends = [heading.start() for heading in headings[1:]] + [end]
    for heading, behind in zip(headings, ends):
        route, section = f"{heading[1]} {heading[2]}", text[heading.end():behind]
        wires = [wire_example(found, route) for found in FENCED.finditer(section)]
        need(wires, f"{PAGE}: no example of {route}")
        examples += wires
        for table in re.findall(r"^\| Example \|.*\n\|[-|]+\|\n((?:\|.*\n)+)", section + "\n", re.M):
            examples += [row_example([cell.strip() for cell in row.strip("|").split("|")], wires[0], route)
                         for row in table.splitlines()]
    examples += [wire_example(found, None) for found in FENCED.finditer(text[:headings[0].start()] + text[end:])]
    need(text.count("```http\n") == 2 * len(FENCED.findall(text)), f"{PAGE}: a message that is in no example")
    return Pages(states, by_name(PAGE, states, examples)), [f"{heading[1]} {heading[2]}" for heading in headings]
