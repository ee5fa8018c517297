"""Names: which ones there are, the nearest to one that is none, and how a name is said to people."""
from __future__ import annotations

import difflib
import itertools
import re
from collections.abc import Iterable

from .model import documents, functions, identifiers, values

LEAST_LIKENESS = 0.6
# how like one another two attributes' ids are of which one may be a slip
MOST_ALIKE = 0.9
# with how many names one is compared, and how long it may be: a file of very many names is read in time all the same
MOST_KNOWN, MOST_LETTERS = 400, 200
STANDARD = "urn:oasis:names:tc:xacml:1.0:"
# what a file of an author's is by its members, and which word takes it
FILES = {
    "Case": "These are cases: `policy test FILE`.", "Server": "This makes its folder a domain: name the folder.",
    "Row": "These are rows: `--rows FILE`.", "Request": "This is a request: `--request FILE`.",
    "Policy": "This is a document: `policy check FILE`.", "PolicySet": "This is a document: `policy check FILE`.",
}


def other_file(members: Iterable[str]) -> str:
    """What a file with these members is, in a sentence with a blank before it; the empty text where that isn't
    known."""
    return next((f" {sentence}" for name, sentence in FILES.items() if name in members), "")


def function_names() -> list[str]:
    """The URIs of all functions."""
    found = [*functions.FUNCTIONS, *functions.HIGHER_ORDER]
    for data_type in values.TYPES:
        for beginning in (functions.V1, functions.V3) if data_type in functions.DURATIONS else (functions.V1,):
            found += [f"{beginning}{data_type}-{verb}" for verb in functions.BAG_FUNCTIONS]
    return found


def short(name: str) -> str:
    """What people call it: the part behind the last colon or the last number sign."""
    return name.rsplit("#", 1)[-1] if name.startswith(identifiers.NAMESPACE) else name.rsplit(":", 1)[-1] or name


def likeness(name: str, other: str) -> float:
    """How like one another two names are, from 0 to 1."""
    return difflib.SequenceMatcher(None, name.lower(), other.lower()).ratio()


def may_be_meant(held: str, wanted: str) -> bool:
    """Whether an attribute's id may stand where another is wanted: it ends as that one does, as `subject-id` or one of
    another namespace, or is very like it."""
    last, of_wanted = (re.split("[:/#]", name)[-1] for name in (held, wanted))
    return bool(last) and last == of_wanted or likeness(held, wanted) >= MOST_ALIKE


def nearest(name: str, known: Iterable[str]) -> str:
    """The known name that is most like it, of so many that are looked at; the empty text where none is."""
    if len(name) > MOST_LETTERS:
        return ""
    best, found = LEAST_LIKENESS, ""
    matcher = difflib.SequenceMatcher()
    for other in itertools.islice(known, MOST_KNOWN):
        # b is what the matcher keeps, so the two stand the other way about
        matcher.set_seqs(name.lower(), other.lower())
        if matcher.real_quick_ratio() < best or matcher.quick_ratio() < best:
            continue
        ratio = matcher.ratio()
        if ratio > best or ratio == best and not found:
            best, found = ratio, other
    return found


def nearest_by_end(name: str, known: Iterable[str]) -> str:
    """The known URI whose last part is most like the last part of the name, and of such the one that is most
    like it as a whole."""
    end = short(name)
    best = nearest(end, sorted({short(other) for other in known}))
    alike = [other for other in known if short(other) == best]
    return max(alike, key=lambda other: likeness(name, other)) if best and alike else ""


def unknown_algorithm(name: str, known: dict[str, str], of_others: dict[str, str], what: str) -> tuple[str, str]:
    """A sentence on a combining algorithm that is none here, and the nearest name."""
    if name in of_others:
        found = next((uri for uri, its in known.items() if its == of_others[name]), "")
        sentence = (f"This algorithm doesn't combine {what}: "
                    + (f"write {found}." if found else f"no algorithm of {what} does what it does."))
        return sentence, found
    found = nearest_by_end(name, known)
    same = f' "{short(found)}" is there under this name: {found}.' if found and short(found) == short(name) else ""
    ask = same or (f' Did you mean "{short(found)}"?' if found else "")
    return f"This names no algorithm that combines {what}.{ask}", found


def category_nearest(name: str) -> str:
    """The shorthand of a category that is nearest to the name, or the known URI."""
    return (nearest(name, identifiers.SHORTHANDS)
            or ("" if ":" not in name else nearest(name, identifiers.SHORTHANDS.values())) or containing(name))


def containing(name: str) -> str:
    """The first shorthand in which the name stands, where it is a word that could be meant."""
    word = name.lower()
    return next((known for known in identifiers.SHORTHANDS if len(word) >= 4 and word in known.lower()), "")


def is_known_category(name: str) -> bool:
    """Whether the name is a shorthand or a URI of a category of the standard."""
    return name in identifiers.SHORTHANDS or name in identifiers.SHORTHANDS.values()


def category_shown(uri: str) -> str:
    """The shorthand of a category that has one, else its URI."""
    return next((name for name, its in identifiers.SHORTHANDS.items() if its == uri), uri)


def attribute_shown(name: str) -> str:
    """An attribute's id, without the beginning that all ids of the standard have."""
    return name.rsplit(":", 1)[1] if name.startswith(STANDARD) and name.count(":") == STANDARD.count(":") + 1 else name


def kind_shown(kind: str) -> str:
    """`a bag of string`, `a string`, `an integer`."""
    if kind.startswith("bag "):
        return "a bag of " + kind.removeprefix("bag ")
    return ("an " if kind[0] in "aeiou" else "a ") + kind


def table_of(name: str) -> list[str]:
    """The members of an object, `?` behind those that may be left out."""
    return documents.TABLES[name].split()
