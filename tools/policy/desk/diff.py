"""Differences: requests whose answer changes from one set of documents to another, and why."""
from __future__ import annotations

import argparse
import json
import pathlib
from dataclasses import dataclass

from . import aimed, ask, changed_rules, explain, files, laid_out, made, names, setting, text
from .check import json_of
from .faults import Remarks
from .positions import Node, Source
from .program import Program

MOST_SHOWN = 40


@dataclass
class Request:
    """A request with its name, its bytes and its moment."""
    name: str
    held: bytes
    moment: int


def requests_of(path: str, at: int | None) -> list[Request]:
    """The requests of a file: one, an array of them, or those of a file of cases."""
    source, remarks = Source(path, files.held(path)), Remarks()
    node = json_of(source, remarks)
    if remarks.faults() or node is None:
        raise setting.Usage(f"{path} is no JSON: line {remarks.faults()[0].place.line}: {remarks.faults()[0].sentence}")
    is_cases = node.kind == "object" and node.at("Case") is not None
    items = node.at("Case").value if is_cases else node.value if node.kind == "array" else [node]
    return [request_of(item, number, path, at) for number, item in enumerate(items or [], 1)]


def request_of(node: Node, number: int, path: str, at: int | None) -> Request:
    """A request: its body, or an object with Request and perhaps Name and At."""
    inner = node.at("Request") if node.kind == "object" else None
    if inner is None:
        raise setting.Usage(f'{path}:{node.place.line}: a request is {{"Request": {{..}}}}')
    name, when = node.at("Name"), node.at("At")
    moment = setting.moment_of(when.value) if when is not None else at if at is not None else 0
    label = name.value if name is not None else f"{path}:{node.place.line}"
    if inner.kind == "string":
        return Request(label, files.held(pathlib.Path(path).parent / inner.value), moment)
    is_body = inner.kind != "object" or inner.at("Request") is None
    return Request(label, (node if is_body else inner).text.encode(), moment)


def told(held: bytes) -> str:
    """The attributes of a request in a few words."""
    try:
        asked = json.loads(held)["Request"]
        return ", ".join(f"{names.category_shown(one['CategoryId'])} {names.attribute_shown(attribute['AttributeId'])} "
                         f"{laid_out.value_shown(attribute['Value'])}"
                         for one in asked["Category"] for attribute in one["Attribute"])
    except (ValueError, KeyError, TypeError):
        return ""


def because(explained: list[dict] | None) -> list[str]:
    """Why each result is what it is, and by what it was settled down to the rule."""
    return [" / ".join(chain(result["tree"])) if "tree" in result else result.get("because", "")
            for result in explained or []]


def chain(part: dict) -> list[str]:
    """The reasons from the tree's top to the part that settled it."""
    found = [part.get("because", "")]
    settling = [child for child in part.get("children", [])
                if f"{child['element']} {child['id']}" in " ".join(part.get("settled_by", []))]
    return found + chain(settling[0]) if settling else found


def in_words(answer: ask.Answer) -> str:
    """The decisions of an answer, with status, and how many obligations and how much advice."""
    if answer.is_refused:
        return f"refused, {answer.body[1:]}"
    found = []
    for result in answer.results():
        status = names.short(result["Status"]["StatusCode"]["Value"])
        duties = [f"{word} {', '.join(duty['Id'] for duty in result[member])}" for word,
                  member in (("obligations", "Obligations"), ("advice", "AssociatedAdvice")) if member in result]
        found.append(result["Decision"] + (f" ({status})" if status != "ok" else "")
                     + (f" with {' and '.join(duties)}" if duties else ""))
    return "; ".join(found)


def print_change(request: Request, old: setting.Setting, new: setting.Setting, before: ask.Answer,
                 after: ask.Answer) -> None:
    """A request whose answer changes, with both answers and what settled them."""
    print(text.painted(request.name, "bold") + f" at {setting.moment_shown(request.moment)}")
    words = told(request.held)
    if words:
        print(text.wrapped(words, "    asked   ", " " * 12))
    for label, answer, held in (("before", before, old), ("after", after, new)):
        print(text.wrapped(in_words(answer), f"    {label:7} ", " " * 12))
        for reason in because(explain.explained(held, request.held, request.moment))[:3]:
            print(text.wrapped(reason, " " * 12, " " * 14))
    print()


def random_requests(rules: changed_rules.ChangedRules, options: argparse.Namespace, at: int | None) -> list[Request]:
    """The requests that are made: most are aimed at the rules that change, as they were and as they will be."""
    maker = made.Maker(made.pools_of([rules.old, rules.new]), options.seed, at)
    aiming = aimed.Aiming(maker, [way for one in rules.rules for way in one.both if way is not None])
    return [Request(f"random request {number + 1}", *aiming.request(number)) for number in range(options.random)]


def print_reached(rules: list[changed_rules.ChangedRule], others: list[str], count: int) -> None:
    """In how many requests each rule that changes was reached; and which of them, and what else, no answer shows."""
    for one in rules[:MOST_SHOWN]:
        print(text.wrapped(f"{one.told()} changes: reached in {one.reached} of {text.counted(count, 'request')}", "",
                           "    "))
    hidden = [one.told() for one in rules if not one.is_shown] + others
    if hidden:
        more = f" and {len(hidden) - MOST_SHOWN} more" if len(hidden) > MOST_SHOWN else ""
        text.warn(f"no answer shows what changes in {text.listed(hidden[:MOST_SHOWN], 'and')}{more}: ask for it by "
                  f"--requests, or make more by --random N")


def run(old: setting.Setting, new: setting.Setting, options: argparse.Namespace, program: Program | None) -> int:
    """Compares the answers; the exit status."""
    at = setting.moment_of(options.at) if options.at is not None else None
    asked = requests_of(options.requests, at) if options.requests else []
    rules = changed_rules.ChangedRules(old, new) if options.random else None
    if rules is not None:
        asked += random_requests(rules, options, at)
    if not asked:
        raise setting.Usage("diff needs --requests FILE or --random N")
    pairs = [(request.held, request.moment) for request in asked]
    before, after = ask.answered(old, pairs, program), ask.answered(new, pairs, program)
    changed = [place for place in range(len(asked)) if before[place].body != after[place].body]
    for place in changed[:MOST_SHOWN]:
        print_change(asked[place], old, new, before[place], after[place])
    if len(changed) > MOST_SHOWN:
        print(f"and {len(changed) - MOST_SHOWN} more\n")
    print(f"{len(changed)} of {text.counted(len(asked), 'answer')} change, by "
          + ("the model alone" if program is None else "model and program"))
    if rules is not None:
        is_changed = set(changed)
        for place, request in enumerate(asked):
            rules.reckon(request.held, request.moment, place in is_changed)
        print_reached(rules.rules, [] if changed else rules.others, len(asked))
    disagreeing = [asked[place].name
                   for place in range(len(asked)) if not (before[place].agrees and after[place].agrees)]
    if disagreeing:
        text.loud(f"MODEL AND PROGRAM DISAGREE on {text.listed(disagreeing[:5], 'and')}. One of them is wrong: "
                  "please report this with the files.")
        return 3
    return 1 if changed and options.strict else 0
