"""Versions, patterns of versions, and references (XACML 3.0, core, sections 5.10 to 5.13), by the standard's regular
expressions."""
import collections
import re

from rows import encoded, text_of

VERSION, PATTERN = r"(\d+\.)*\d+", r"((\d+|\*)\.)*(\d+|\*|\+)"
MAX_NUMBERS, MAX_DIGITS = 8, 9
# what a part of a pattern stands for, where each number of a version stands with a dot before it
STANDS_FOR = {"*": r"\.\d+", "+": r"(\.\d+)+"}

# A reference to a policy or a set; what it doesn't say is None. A pattern is its parts, a version the list of its
# numbers.
Reference = collections.namedtuple("Reference", "kind id pattern earliest latest")


class NoVersion(Exception):
    """Why a text is no version."""


def parts(shape, text):
    """The parts of a text of that shape, without leading zeros (5.12, 5.13)."""
    if not re.fullmatch(shape, text, re.ASCII):
        raise NoVersion("BadText")
    found = text.split(".")
    if len(found) > MAX_NUMBERS or any(len(part) > MAX_DIGITS for part in found):
        raise NoVersion("TooLong")
    return [str(int(part)) if part.isdigit() else part for part in found]


def numbered(found):
    """The numbers of the parts of a version."""
    return [int(part) for part in found]


def numbers(text):
    """The numbers of a version (5.12)."""
    return numbered(parts(VERSION, text))


def fits(pattern, version):
    """Whether the version is one of those that the pattern means (5.13)."""
    shape = "".join(STANDS_FOR.get(part, r"\." + part) for part in pattern)
    return re.fullmatch(shape, "".join(f".{number}" for number in version)) is not None


def is_within(reference, version):
    """Whether the version lies within the reference's bounds, EarliestVersion and LatestVersion (5.10)."""
    return ((reference.earliest is None or reference.earliest <= version)
            and (reference.latest is None or version <= reference.latest))


def is_for(reference, kind, name, version):
    """Whether the reference may stand for the document of that kind, id and version (5.10, 5.11)."""
    return ((reference.kind, reference.id) == (kind, name)
            and (reference.pattern is None or fits(reference.pattern, version)) and is_within(reference, version))


def resolved(reference, documents):
    """The place of the latest of the documents, each a kind, an id and a version, for which the reference may stand
    (5.10); None without one."""
    found = [(version, -place) for place, (kind, name, version) in enumerate(documents)
             if is_for(reference, kind, name, version)]
    return -max(found)[1] if found else None


def reference_of(field):
    """The reference of a field `KIND|ID|PATTERN|EARLIEST|LATEST`."""
    kind, name, pattern, earliest, latest = field.split("|")
    return Reference(kind, text_of(name), parts(PATTERN, pattern) if pattern else None,
                     numbers(earliest) if earliest else None, numbers(latest) if latest else None)


# ---- rows


def read_as(shape, field):
    """The answer to a row of a text that may have the shape."""
    try:
        return [encoded(".".join(parts(shape, text_of(field))))]
    except NoVersion as fault:
        return ["!" + str(fault)]


def version(field):
    """The answer to a row of a version."""
    return read_as(VERSION, field)


def pattern(field):
    """The answer to a row of a pattern."""
    return read_as(PATTERN, field)


def matches(wanted, found):
    """The answer to a row of a pattern and a version."""
    return ["true" if fits(parts(PATTERN, wanted), numbers(found)) else "false"]


def versions(left, right):
    """The answer to a row of two versions: their order."""
    left, right = numbers(left), numbers(right)
    return ["Less" if left < right else "Greater" if left > right else "Equal"]


def resolve(reference, *documents):
    """The answer to a row of a reference and fields `KIND|ID|VERSION`: the place of the document for which it
    stands."""
    found = []
    for document in documents:
        kind, name, version = document.split("|")
        found.append((kind, text_of(name), numbers(version)))
    place = resolved(reference_of(reference), found)
    return ["!None" if place is None else str(place)]
