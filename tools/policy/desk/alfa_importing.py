"""Policies and policy sets of ALFA as documents of the notation: one document for each that stands in a
namespace."""
from __future__ import annotations

from dataclasses import dataclass

from . import names
from .alfa_names import ALGORITHMS, FUNCTIONS, Entry, Names, in_alfa, meant, plain
from .alfa_parts import Attribute, Call, Duty, File, Literal, Name, Part
from .alfa_reading import file_of
from .alfa_typed import TURNED, Expressions
from .drafted import Draft, document_text
from .faults import Remarks
from .model import values
from .xml_reading import Spot

NO_MATCH = ("A match compares an attribute with a value, as user.role == \"nurse\", or is a function of a "
            "value and an attribute, as stringStartsWith(\"ward-\", resource.id). Write anything else as the "
            "condition of a rule.")
# members of the notation: of obligations and advice the group, the id, and the decision
DUTIES = {"obligation": ("ObligationExpressions", "ObligationId", "FulfillOn"),
          "advice": ("AdviceExpressions", "AdviceId", "AppliesTo")}


@dataclass
class Document:
    """What became of a policy or a set: its full name, and its bytes where no fault is said."""
    name: str
    file: File
    remarks: Remarks
    text: bytes | None


class Translating(Expressions):
    """Makes the draft of a document."""

    def __init__(self, known: Names, entry: Entry, remarks: Remarks, version: str, is_pinned: bool):
        super().__init__(known, entry, remarks)
        self.version, self.is_pinned = version, is_pinned

    # Targets.

    def match(self, held: object) -> Draft:
        """A match: a function of a value and an attribute, in this order."""
        sides = held.arguments if isinstance(held, Call) else []
        literals = [one for one in sides if isinstance(one, Literal)]
        attributes = [one for one in sides if isinstance(one, Attribute)]
        if len(sides) != 2 or len(literals) != 1 or len(attributes) != 1:
            asks = isinstance(held, Attribute)
            self.fault("NotAlfa", held.spot, "An attribute alone is no match: compare it with a value, as "
                       f"{held.name.text} == .., a boolean with true." if asks else NO_MATCH)
            return self.no_match(held.spot)
        value, kind = self.literal(literals[0])
        designator, its_kind = self.designator(attributes[0])
        uri = self.match_function(held, sides[0] is literals[0], [kind, its_kind])
        if not uri or designator is None or kind is None:
            return self.no_match(held.spot)
        members = {"MatchId": Draft(uri, held.name.spot), **value.value, "AttributeDesignator": designator}
        return Draft(members, held.spot)

    def match_function(self, held: Call, is_value_first: bool, kinds: list[str | None]) -> str | None:
        """The function of a match of a value and an attribute of these kinds; an operator is turned where the
        attribute stands first."""
        if held.is_operator and held.name.text in (*TURNED, "~"):
            written = kinds if is_value_first else kinds[::-1]
            return self.operator_function(held, written, not is_value_first)
        if held.is_operator:
            self.fault("NotAlfa", held.spot, NO_MATCH)
            return None
        uri = self.function(held.name)
        if uri is not None and not is_value_first and not uri.endswith("-equal"):
            self.fault("NotAlfa", held.spot,
                       f"In a match the value is the first argument of {held.name.text}, and the attribute "
                       f"the second. The other way round it is the condition of a rule.")
            return None
        return uri

    def target(self, held: list[list[list]] | None, spot: Spot) -> dict[str, Draft]:
        """The member Target."""
        if held is None:
            return {}
        clauses = []
        for clause in held:
            alternatives = []
            for matches in clause:
                found = [self.match(one) for one in matches]
                alternatives.append(Draft({"Match": Draft(found, found[0].spot)}, found[0].spot))
            where = alternatives[0].spot
            clauses.append(Draft({"AllOf": Draft(alternatives, where)}, where))
        return {"Target": Draft({"AnyOf": Draft(clauses, spot)}, spot)}

    # Duties.

    def duty(self, held: Duty) -> Draft:
        """An obligation, or advice."""
        _, id_name, decision = DUTIES[held.kind]
        entry = self.known.one(held.kind, held.name, self.namespace, self.remarks)
        members = {id_name: Draft(entry.id if entry else "", held.name.spot),
                   decision: Draft(held.decision, held.spot)}
        assigned = [self.assignment(*one) for one in held.assignments]
        if assigned:
            members["AttributeAssignmentExpression"] = Draft(assigned, held.spot)
        return Draft(members, held.spot)

    def assignment(self, name: Name, held: object) -> Draft:
        """What is assigned to an attribute, by its id and its category."""
        entry = self.known.one("attribute", name, self.namespace, self.remarks)
        expression, kind = self.expression(held)
        if entry is None:
            return Draft({"Expression": expression}, name.spot)
        wanted = plain(entry.held.members["type"])
        if not self.known.category(entry):
            self.placeholders.add((name.spot.start, name.spot.end))
        if kind is not None and wanted in values.TYPES and kind.removeprefix("bag ") != wanted:
            self.fault("IllTyped(WrongType)", held.spot,
                       f"{name.text} is of the type {wanted}, and this is {names.kind_shown(kind)}.")
        return Draft({"AttributeId": Draft(entry.id, name.spot),
                      "Category": Draft(self.known.category(entry), name.spot), "Expression": expression},
                     name.spot)

    def duties(self, held: list[Duty], spot: Spot) -> dict[str, Draft]:
        """The members with obligations and advice."""
        made: dict[str, list[Draft]] = {}
        for one in held:
            made.setdefault(DUTIES[one.kind][0], []).append(self.duty(one))
        return {group: Draft(made[group], spot) for group, _, _ in DUTIES.values() if group in made}

    # Rules, policies and sets.

    def described(self, held: Part) -> dict[str, Draft]:
        """The member Description: the comments about the part."""
        return {"Description": Draft("\n".join(held.comments), held.spot)} if held.comments else {}

    def id(self, held: Part, name: str) -> Draft:
        return Draft(held.id.text, held.id.spot) if held.id else Draft(name, held.spot)

    def rule(self, held: Part, name: str) -> dict[str, Draft]:
        if held.effect is None and not held.is_cut:
            self.fault("NotAlfa", held.spot, "This rule says neither permit nor deny.")
        members = {"RuleId": self.id(held, name), "Effect": Draft(held.effect or "Deny", held.spot)}
        members |= self.described(held) | self.target(held.target, held.spot)
        if held.condition is not None:
            members["Condition"] = self.expression(held.condition)[0]
        return members | self.duties(held.duties, held.spot)

    def algorithm(self, held: Part) -> Draft:
        """The combining algorithm."""
        name = held.algorithm
        if name is None and held.is_cut:
            self.placeholders.add((held.spot.start, held.spot.end))
            return Draft("", held.spot)
        if name is None:
            what = "rules" if held.kind == "policy" else "policies"
            self.fault("NotAlfa", held.spot, f"This {held.kind} doesn't say how its {what} are combined: "
                                             f"apply denyOverrides, say.")
            return Draft("", held.spot)
        known, others = ALGORITHMS[held.kind], {**ALGORITHMS["policy"], **ALGORITHMS["policyset"]}
        if plain(name) in known:
            return Draft(known[plain(name)], name.spot)
        nearest = "" if plain(name) in others else names.nearest(plain(name), known)
        sentence = ("combines policies, and no rules" if plain(name) in others
                    else "is no combining algorithm of this server")
        self.fault("UnknownAlgorithm", name.spot, f"{name.text} {sentence}." + meant(nearest),
                   expected=", ".join(known), found=name.text, nearest=nearest)
        return Draft("", name.spot)

    def part(self, held: Part, name: str) -> Draft:
        """A policy or a set, with its name around it."""
        kind, of = ("Policy", "Rule") if held.kind == "policy" else ("PolicySet", "Policy")
        members = {f"{kind}Id": self.id(held, name), "Version": Draft(self.version, held.spot),
                   f"{of}CombiningAlgId": self.algorithm(held)}
        members |= self.described(held) | self.target(held.target, held.spot)
        inner = [self.inner(one, name, number) for number, one in enumerate(held.inner, 1)]
        if inner:
            members["Rule" if of == "Rule" else "Children"] = Draft(inner, held.spot)
        return Draft({kind: Draft(members | self.duties(held.duties, held.spot), held.spot)}, held.spot)

    def inner(self, held: Part | Name, around: str, number: int) -> Draft:
        """A rule, a child, or a reference to one."""
        if isinstance(held, Name):
            return self.reference(held)
        name = f"{around}.{held.name.text if held.name else held.kind + str(number)}"
        return Draft(self.rule(held, name), held.spot) if held.kind == "rule" else self.part(held, name)

    def reference(self, name: Name) -> Draft:
        """A reference to a policy or a set by its name, in the version of all of them where that is
        wanted."""
        entry = self.known.one("part", name, self.namespace, self.remarks)
        form = "PolicySetIdReference" if entry and entry.held.kind == "policyset" else "PolicyIdReference"
        members = {"Id": Draft(entry.id if entry else "", name.spot)}
        if self.is_pinned:
            members["Version"] = Draft(self.version, name.spot)
        return Draft({form: Draft(members, name.spot)}, name.spot)

    def document(self, entry: Entry) -> Draft:
        """The document of a policy or a set that stands in a namespace."""
        return self.part(entry.held, entry.full)


def translated(entry: Entry, known: Names, version: str, is_pinned: bool) -> Document:
    """The document of a policy or a set. What the server would say besides is said too, but not of what
    stands in place of something else."""
    remarks = Remarks()
    translating = Translating(known, entry, remarks, version, is_pinned)
    draft = translating.document(entry)
    own = len(remarks.found)
    text = document_text(draft, remarks)
    remarks.found[own:] = [one for one in remarks.found[own:]
                           if (one.start, one.end) not in translating.placeholders]
    for one in remarks.found:
        one.sentence, one.found, one.expected = map(in_alfa, (one.sentence, one.found, one.expected))
        if one.nearest in FUNCTIONS.values():
            one.nearest = in_alfa(names.short(one.nearest))
    return Document(entry.full, entry.file, remarks, None if remarks.faults() else text)


def imported_alfa(files: list[tuple[str, bytes]], version: str,
                  is_pinned: bool = False) -> tuple[list[File], list[Document]]:
    """The files as they were read, and their documents, of which there are none where a declaration or a
    file as a whole has a fault: names of one file stand for what another declares. Then what is wrong with the
    documents is said of the files. All documents are of the version, to which references are pinned where that is
    wanted."""
    read = [file_of(path, held) for path, held in files]
    if any(file.whole is None for file in read):
        return read, []
    known = Names(read)
    if read and not any([known.tables["part"], *(file.remarks.faults() for file in read)]):
        read[0].remarks.fault("NotAlfa", Spot(read[0].source, "the file", 0, 0),
                              "No policy and no policyset stands here: there is nothing to make a document "
                              "of.")
    is_faulty = any(file.remarks.faults() for file in read)
    found = [translated(entry, known, version, is_pinned) for entry in known.parts]
    for one in found if is_faulty else ():
        one.file.remarks.found += one.remarks.found
    return read, [] if is_faulty else found
