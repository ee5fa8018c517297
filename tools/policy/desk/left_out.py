"""What XACML has and this server hasn't: what it means for a policy, and what to write instead.

Names that mean the same as a newer one are RENAMED: the newer one is written in their place.
"""
from __future__ import annotations

import re
from collections.abc import Iterable

from . import names
from .model import identifiers, values
from .text import listed

V1, V2, V3 = (f"urn:oasis:names:tc:xacml:{version}:function:" for version in ("1.0", "2.0", "3.0"))
OLD_DURATIONS = "http://www.w3.org/TR/2002/WD-xquery-operators-20020816#"
DURATIONS = ("dayTimeDuration", "yearMonthDuration")

RENAMED_TYPES = {OLD_DURATIONS + name: identifiers.NAMESPACE + name for name in DURATIONS}
RENAMED_FUNCTIONS = {V1 + name: V3 + name for name in (
    "any-of", "all-of", "any-of-any", "map", *(f"{name}-equal" for name in DURATIONS),
    *(f"{moved}-{verb}-{name}" for verb in ("add", "subtract")
      for moved, name in (("dateTime", DURATIONS[0]), ("dateTime", DURATIONS[1]), ("date", DURATIONS[1]))))}
ELEMENTS = {
    "AttributeSelector": "An <AttributeSelector> finds values in the request's XML by XPath, which is left "
                         "out: the server takes no XML. "
                         "Let whoever makes requests give the value as an attribute, and write an "
                         "<AttributeDesignator> of it.",
    "PolicyIssuer": "Policy issuers are left out, with delegation and administration: every policy is taken "
                    "as trusted, as one without an issuer is. "
                    "Where that is meant, take the element out.",
    "CombinerParameters": "Combiner parameters are left out: no algorithm of this server reads any, and "
                          "none of the standard's does. "
                          "Take them out where the algorithm is one of the standard's.",
    "Content": "XML content is left out: nothing of it can be reached by a policy. Give what the policies "
               "ask for as attributes.",
    "PolicyIdentifierList": "The server names policies by a rule of its own, "
                            "so a list that is expected isn't compared.",
}
ELEMENTS |= {f"{of}CombinerParameters": ELEMENTS["CombinerParameters"]
             for of in ("Rule", "Policy", "PolicySet")}
# what means nothing here, and is taken out
DEFAULTS = ("PolicyDefaults", "PolicySetDefaults", "RequestDefaults", "XPathVersion")
NO_XPATH = "XPath is left out, so the version of XPath means nothing, and isn't kept."
DEPTH = ("Delegation is left out: no administrative request is ever made, so the depth means nothing. Take "
         "the attribute out.")
PATTERN = ("A bound is a plain version here: patterns are left out of EarliestVersion and LatestVersion. "
           "Write the least or the greatest version "
           "that the pattern has, or a pattern in Version.")
TYPES = {
    "double": "Floating numbers are left out. Count in a smaller unit, as cents, and write integers.",
    "rfc822Name": "Names of mail addresses are left out. Write strings, and compare the domain by "
                  "string-ends-with (\"@example.org\" first); "
                  "here letter case counts in the domain too.",
    "x500Name": "Names of directories are left out. Write strings in one spelling, and compare by "
                "string-equal or string-ends-with.",
    "ipAddress": "Network addresses are left out. Write strings, and compare by string-equal or "
                 "string-starts-with.",
    "dnsName": "Names of hosts are left out. Write strings, and compare by string-equal or string-ends-with.",
    "xpathExpression": "XPath is left out: the server takes no XML. Give what the expression would find as "
                       "an attribute.",
}
FUNCTIONS = [
    (r"string-normalize-to-lower-case|string-equal-ignore-case",
     "Letter case always counts here. Let requests and source rows give the text in small letters and write "
     "string-equal; or name each spelling: "
     "string-is-in of the text and a string-bag."),
    (r".*regexp-match", "Regular expressions are left out. A plain beginning, end or part is "
                        "string-starts-with, string-ends-with or "
                        "string-contains, whose FIRST argument is the part that is looked for."),
    (r"anyURI-substring", "It is string-substring of string-from-anyURI of the URI."),
    (r"any-of-all", "It is not(all-of-any(G, A, B)), where G is true where the inner function is false, as "
                    "integer-less-than-or-equal is for "
                    "integer-greater-than."),
    (r"access-permitted", "No request is asked within another. Where the other decision is one of the same "
                          "policies, refer to them by a "
                          "PolicyIdReference and combine them."),
    (r"ur[il]-string-concatenate", "It is anyURI-from-string of string-concatenate of the texts, the first of "
                                "them by string-from-anyURI."),
    (r"xpath-.*|xpathExpression-.*", "XPath is left out: the server takes no XML. Give what it would find "
                                     "as an attribute."),
    (r"round|floor|.*double.*", TYPES["double"]),
    (r".*rfc822Name.*", TYPES["rfc822Name"]), (r".*x500Name.*", TYPES["x500Name"]),
    (r".*ipAddress.*", TYPES["ipAddress"]), (r".*dnsName.*", TYPES["dnsName"]),
]
# letters of a regular expression that stand for themselves
PLAIN = r"(?:[^\\.*+?|(){}\[\]^$]|\\[\\.*+?|(){}\[\]^$-])+"
LEGACY = ("The legacy {name} is left out, which doesn't tell a Deny that may have been from a Permit that "
          "may have been.")
OF_RULES = (" Its decisions are those of {new}, but that inside a set an Indeterminate counts as one that "
            "might be either. Where no set "
            "combines this policy, or that is meant, write {new}.")
OF_SETS = {"deny-overrides": " It gives Deny wherever a child is Indeterminate. The nearest, {new}, is "
                             "Indeterminate there, or Permit where that "
                             "child could have been a Permit alone and another one is. Where that is meant, "
                             "write it.",
           "permit-overrides": " The nearest is {new}: it is Indeterminate where a child is Indeterminate "
                               "that could have been a Permit and "
                               "another one is Deny, which the old one answers with Deny. Where that is "
                               "meant, write it."}


def legacy_of(uri: str) -> tuple[str, str] | None:
    """What a legacy algorithm combines, `rule` or `policy`, and its name; None where it is none."""
    found = re.fullmatch(r"urn:oasis:names:tc:xacml:1\.[01]:(rule|policy)-combining-algorithm:"
                         r"((?:ordered-)?(?:deny|permit)-overrides)", uri)
    return (found[1], found[2]) if found else None


def algorithm(uri: str) -> str:
    """What is to be said of a legacy algorithm; the empty text where it is none."""
    found = legacy_of(uri)
    if found is None:
        return ""
    kind, name = found
    new = f"urn:oasis:names:tc:xacml:3.0:{kind}-combining-algorithm:{name}"
    rest = OF_RULES if kind == "rule" else OF_SETS[name.removeprefix("ordered-")]
    return LEGACY.format(name=name) + rest.format(new=new)


def function(uri: str) -> str:
    """What is to be said of a function that the standard has and the server hasn't; the empty text where it
    is none."""
    if not re.match(r"urn:oasis:names:tc:xacml:\d\.\d:function:", uri) or uri in KNOWN_FUNCTIONS:
        return ""
    name = names.short(uri)
    if any(names.short(known) == name for known in KNOWN_FUNCTIONS):
        return ""
    said = next((said for shape, said in FUNCTIONS if re.fullmatch(shape, name)), "")
    return f'This server has no function "{name}". {said}' if said else ""


def regular(pattern: str) -> str:
    """What a regular expression without anything special in it comes to, or one of several such; the empty
    text where it isn't one."""
    several = re.fullmatch(rf"\^\(({PLAIN}(?:\|{PLAIN})+)\)\$", pattern)
    if several is not None:
        named = [f'"{plain(one)}"' for one in re.findall(PLAIN, several[1])]
        return (f"This one is string-equal with {listed(named)}: alternatives in a target, and in a condition "
                f"string-is-in and a string-bag.")
    found = re.fullmatch(rf"(\^?)((?:\.\*)?)({PLAIN})((?:\.\*)?)(\$?)", pattern)
    if found is None:
        return ""
    is_begun, is_ended = bool(found[1]) and not found[2], bool(found[5]) and not found[4]
    name = {(True, True): "string-equal", (True, False): "string-starts-with",
            (False, True): "string-ends-with",
            (False, False): "string-contains"}[is_begun, is_ended]
    return f'This one is {name} with "{plain(found[3])}".'


def plain(pattern: str) -> str:
    """The text that a pattern of plain letters stands for, some of them behind a backslash."""
    return re.sub(r"\\(.)", r"\1", pattern)


def data_type(uri: str) -> str:
    """What is to be said of a data type that the standard has and the server hasn't; the empty text where it
    is none."""
    name = re.split(r"[#:]", uri)[-1]
    if name not in TYPES or uri in identifiers.DATA_TYPES:
        return ""
    return f'This server has no data type "{name}". {TYPES[name]}'


def unknown_function(uri: str, known: Iterable[str] | None = None) -> tuple[str, str]:
    """A sentence on a function's name that is none, and the nearest name."""
    known, name = list(known or names.function_names()), names.short(uri)
    same = [other for other in known if names.short(other) == name]
    if same:
        return f'"{name}" is there, but under another beginning: write {same[0]}.', same[0]
    said = function(V1 + name)
    if said:
        return said, ""
    found = names.nearest_by_end(uri, known)
    return (f'There is no function "{name}". Did you mean "{names.short(found)}"?',
            found) if found else (f'There is no function "{uri}".', "")


def unknown_type(uri: str) -> tuple[str, str]:
    """A sentence on a data type that is none, and the nearest name."""
    said = data_type(uri)
    if said:
        return said, ""
    found = names.nearest(names.short(uri), values.TYPES)
    asked = f' Did you mean "{found}"?' if found else ""
    return f'There is no data type "{uri}".{asked}', found


KNOWN_FUNCTIONS = frozenset(names.function_names())
