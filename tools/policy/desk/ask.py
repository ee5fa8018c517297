"""Questions: the response of the model and of the program, and what is said of both."""
from __future__ import annotations

import json
from dataclasses import dataclass

from .model import decisions, json_texts, rows
from .program import Program
from .setting import Setting


@dataclass
class Answer:
    """The body of a response, or the code of the refusal; by the model, and by the program where there is one."""
    by_model: str
    by_program: str | None

    @property
    def agrees(self) -> bool:
        return self.by_program in (None, self.by_model)

    @property
    def body(self) -> str:
        """The program's word where there is one."""
        return self.by_model if self.by_program is None else self.by_program

    @property
    def is_refused(self) -> bool:
        return self.by_model.startswith("!")

    @property
    def refusal(self) -> str:
        """What the server answers in place of a response."""
        return f'400 Bad Request: {{"Error":"{self.body[1:]}"}}'

    def results(self) -> list[dict]:
        """The results by the model, which are the program's too where the two agree."""
        return [] if self.is_refused else json.loads(self.by_model)["Response"]


def by_model(setting: Setting, held: bytes, moment: int) -> str:
    """The model's answer; `!NotJson` where the server refuses the request."""
    try:
        return decisions.response(setting.view(), held, moment)
    except json_texts.NotJson:
        return "!NotJson"


def row_of(setting: Setting, held: bytes, moment: int) -> list[str]:
    """The row that asks the program the same."""
    return ["decide", *setting.fields(), f"moment:{moment}", rows.encoded(held)]


def answered(setting: Setting, asked: list[tuple[bytes, int]], program: Program | None) -> list[Answer]:
    """The answers to requests, each with its moment."""
    models = [by_model(setting, held, moment) for held, moment in asked]
    if program is None:
        return [Answer(model, None) for model in models]
    written = program.answers([row_of(setting, held, moment) for held, moment in asked])
    return [Answer(model, rows.decoded(fields[0]).decode("utf-8", "replace")) for model, fields in zip(models, written)]


def plain_decision(result: dict) -> tuple[str, str]:
    """Decision and status of a result of an explanation, as a response has them."""
    return result["decision"].partition("{")[0], result["status"]


def named(result: dict) -> list[str]:
    """The policies and then the sets that a result names, each in their order, as an explanation has them."""
    found = result.get("PolicyIdentifierList", {})
    return [f"{word} {held['Id']} {held['Version']}"
            for word, name in (("policy", "PolicyIdReference"), ("policy set", "PolicySetIdReference"))
            for held in found.get(name, [])]


def in_kinds(names: list[str]) -> list[str]:
    """The policies of an explanation, and then its sets."""
    return sorted(names, key=lambda name: name.startswith("policy set "))


def is_explained(results: list[dict], shown: list[dict] | None) -> bool:
    """Whether an explanation comes to the decisions and statuses of the response, and to the policies where it names
    some; none belongs to a request that isn't decided at all."""
    given = [(result["Decision"], result["Status"]["StatusCode"]["Value"].rsplit(":", 1)[1]) for result in results]
    if shown is None:
        return len(given) < 2 and all(one in (("Indeterminate", "syntax-error"), ("Indeterminate", "processing-error"))
                                      for one in given)
    return given == [plain_decision(result) for result in shown] and all(
        named(result) in ([], in_kinds(other.get("names", []))) for result, other in zip(results, shown))
