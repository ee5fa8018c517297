"""Random documents, written in ALFA and imported: the same documents."""
from __future__ import annotations

import json
import unittest
from unittest import mock

from .test_random_documents import shares

import agree  # noqa: E402
from desk import alfa_importing, exchange, names  # noqa: E402
from desk.alfa_importing import imported_alfa  # noqa: E402
from desk.alfa_names import ALGORITHMS, CATEGORIES, FUNCTIONS, camel  # noqa: E402
from desk.importing import DUTIES  # noqa: E402
from desk.model import documents, expressions, identifiers  # noqa: E402
from drafts import Drafts  # noqa: E402

COUNT, SHARE = 1000, 50
CATEGORY_NAMES = {identifiers.SHORTHANDS[name]: word for word, name in CATEGORIES.items()}
REFERENCES = {"PolicyIdReference": "policy", "PolicySetIdReference": "policyset"}
ALGORITHM_NAMES = {kind: {uri: name for name, uri in known.items()} for kind, known in ALGORITHMS.items()}


def without(held: object) -> object:
    """The document without what ALFA has no place for: descriptions, variables, versions, issuers of
    assignments; each assignment has a category, and a bag function of durations its older name."""
    if isinstance(held, list):
        return [without(one) for one in held]
    if not isinstance(held, dict):
        return held
    found = {name: without(inner) for name, inner in held.items()
             if name not in ("Description", "VariableDefinition", "EarliestVersion", "LatestVersion")}
    if "Id" in found:
        found.pop("Version", None)
    elif "Version" in found:
        found["Version"] = "1.0"
    if "AttributeId" in found and "Expression" in found:
        found.pop("Issuer", None)
        found.setdefault("Category", "Action")
    if "FunctionId" in found:
        found["FunctionId"] = FUNCTIONS.get(camel(names.short(found["FunctionId"])), found["FunctionId"])
    return found


class Writer:
    """Writes a document in ALFA; attributes, categories and what is referred to are declared before it."""

    def __init__(self) -> None:
        self.declared: dict[tuple, str] = {}

    def declaration(self, kind: str, text: str) -> str:
        """A name for what is declared, the same for the same."""
        number = len(self.declared)
        return self.declared.setdefault((kind, text), f"{kind}{number}")

    def declarations(self) -> str:
        """All that is declared."""
        return "".join(f"{text.replace('NAME', name, 1)}\n" for (_, text), name in self.declared.items())

    def attribute(self, category: str, name: str, data_type: str) -> str:
        category = identifiers.category(category)
        word = CATEGORY_NAMES.get(category) or self.declaration(
            "c", f"category NAME = {json.dumps(category)}")
        data_type = identifiers.DATA_TYPES[data_type]
        return self.declaration("a", f"attribute NAME {{ id = {json.dumps(name)} type = {data_type} "
                                     f"category = {word} }}")

    def designator(self, held: dict) -> str:
        options = ["mustbepresent"] * held["MustBePresent"]
        options += [f"issuer = {json.dumps(held['Issuer'])}"] if "Issuer" in held else []
        name = self.attribute(held["Category"], held["AttributeId"], held["DataType"])
        return name + (f"[{' '.join(options)}]" if options else "")

    def value(self, held: dict) -> str:
        data_type = identifiers.DATA_TYPES[held["DataType"]]
        if not isinstance(held["Value"], str):
            return json.dumps(held["Value"])
        return json.dumps(held["Value"]) + (f":{data_type}" if data_type != "string" else "")

    def expression(self, held: dict) -> str:
        (form, inner), = held.items()
        if form == "AttributeValue":
            return self.value(inner)
        if form == "AttributeDesignator":
            return self.designator(inner)
        name = camel(names.short(inner["FunctionId"]))
        if form == "Function":
            return f"function[{name}]"
        return f"{name}({', '.join(map(self.expression, inner.get('Expression', [])))})"

    def match(self, held: dict) -> str:
        return (f"{camel(names.short(held['MatchId']))}({self.value(held['AttributeValue'])}, "
                f"{self.designator(held['AttributeDesignator'])})")

    def target(self, held: dict) -> str:
        clauses = [" or ".join(" and ".join(map(self.match, all_of["Match"])) for all_of in any_of["AllOf"])
                   for any_of in held.get("Target", {}).get("AnyOf", [])]
        return "target " + " ".join(f"clause {clause}" for clause in clauses) + "\n" if clauses else ""

    def assignment(self, held: dict) -> str:
        kind = expressions.check(documents.expression(held["Expression"]), expressions.Variables())
        name = self.attribute(held["Category"], held["AttributeId"], kind.removeprefix("bag "))
        return f"{name} = {self.expression(held['Expression'])}\n"

    def duties(self, held: dict) -> str:
        found = ""
        for group, _, id_name, decision in DUTIES:
            kind = "advice" if id_name == "AdviceId" else "obligation"
            for one in held.get(group, []):
                name = self.declaration(kind[:1], f"{kind} NAME = {json.dumps(one[id_name])}")
                inner = "".join(map(self.assignment, one.get("AttributeAssignmentExpression", [])))
                found += f"on {one[decision].lower()} {{ {kind} {name} {{ {inner} }} }}\n"
        return found

    def rule(self, held: dict) -> str:
        condition = f"condition {self.expression(held['Condition'])}\n" if "Condition" in held else ""
        return (f"rule = {json.dumps(held['RuleId'])} {{ {held['Effect'].lower()}\n"
                f"{self.target(held)}{condition}{self.duties(held)} }}\n")

    def child(self, held: dict, name: str = "") -> str:
        (form, inner), = held.items()
        if form in REFERENCES:
            kind = REFERENCES[form]
            return self.declaration(kind[6:7] + "r", f"{kind} NAME = {json.dumps(inner['Id'])} "
                                                     f"{{ apply denyOverrides }}") + "\n"
        kind = "policy" if form == "Policy" else "policyset"
        of = "Rule" if form == "Policy" else "Policy"
        parts = [*map(self.rule, inner.get("Rule", [])), *map(self.child, inner.get("Children", []))]
        return (f"{kind} {name} = {json.dumps(inner[form + 'Id'])} {{ "
                f"apply {ALGORITHM_NAMES[kind][inner[of + 'CombiningAlgId']]}\n"
                f"{self.target(inner)}{''.join(parts)}{self.duties(inner)} }}\n")


def drawn(source: Drafts) -> dict:
    """A random document that ALFA can say."""
    while True:
        held = json.loads(source.text(source.document()).encode("utf-8", "surrogatepass"))
        found = without(held)
        text = json.dumps(found)
        try:
            documents.document_of(text.encode())
        except documents.DocumentFault:
            continue
        # half of a pair of surrogates is no character
        if "VariableReference" not in text and not any("\ud800" <= one <= "\udfff" for one in str(found)):
            return found


def share(seed: int, count: int = SHARE) -> list[tuple[bytes, str, bytes | None]]:
    """Random documents of a seed, each as it is, in ALFA, and as that is imported."""
    source, found = Drafts(agree.Rows(seed)), []
    for _ in range(count):
        held, writer = drawn(source), Writer()
        written = writer.child(held, "top")
        alfa = f"namespace n {{\n{writer.declarations()}{written}}}\n"
        _, made = imported_alfa([("random.alfa", alfa.encode())], "1.0")
        text = next((one.text for one in made if one.name == "n.top"), None)
        found.append((json.dumps(held).encode(), alfa, text))
    return found


class InAlfa(unittest.TestCase):
    """Written in ALFA and imported."""

    def test_random_documents(self) -> None:
        found = shares(share, COUNT, SHARE)
        self.assertEqual(len(found), COUNT)
        for held, alfa, text in found:
            self.assertTrue(exchange.is_same(held, text), f"{alfa}\n{held!r}\n{text!r}")
        for word in ("target clause", " or ", " and ", "condition", "on permit", "advice", "mustbepresent",
                     "issuer", "function[", "policyset", "category"):
            self.assertGreater(sum(word in alfa for _, alfa, _ in found), COUNT // 50, word)

    def test_it_fails_where_the_import_is_broken(self) -> None:
        self.assertTrue(all(exchange.is_same(held, text) for held, _, text in share(3, 20)))
        for name in ("duties", "target"):
            with mock.patch.object(alfa_importing.Translating, name, lambda *_: {}):
                self.assertFalse(all(exchange.is_same(held, text) for held, _, text in share(3, 20)), name)


if __name__ == "__main__":
    unittest.main()
