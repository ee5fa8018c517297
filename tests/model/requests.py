"""Requests of the JSON Profile of XACML 3.0, version 1.1 (section 4.2), and the individual requests of one (Multiple
Decision Profile, section 2)."""
import collections
import itertools

from identifiers import DATA_TYPES, SHORTHANDS, category
from json_texts import NotJson, json_of
from rows import decoded, encoded, shown
from values import Fault, read

MOST_INDIVIDUALS = 64


class NotProfile(Exception):
    """The JSON is no request."""


CategoryObject = collections.namedtuple("CategoryObject", "category id attributes")
Attribute = collections.namedtuple("Attribute", "id issuer is_included data_type values")


def of_kind(kind, found):
    """The JSON, which is of this kind."""
    if type(found) is not kind:
        raise NotProfile
    return found


def at(found, name, kind, absent):
    """A member that may be left out."""
    return of_kind(kind, found[name]) if name in found else absent


def needed(found, name, kind):
    """A member that has to be there."""
    if name not in found:
        raise NotProfile
    return of_kind(kind, found[name])


def listed(found):
    """The items of an array, or what stands alone in its place."""
    return found if type(found) is list else [found]


def objects(found, name):
    """The objects of a member: an array of them, or one alone."""
    return [of_kind(dict, item) for item in listed(found[name])] if name in found else []


def type_of(name):
    """The data type of that name (4.2; core, B.3)."""
    if name not in DATA_TYPES:
        raise NotProfile
    return DATA_TYPES[name]


def value(data_type, held):
    """The value of a text, a boolean or a whole number under the type."""
    if type(held) is not str and data_type != {bool: "boolean", int: "integer"}[type(held)]:
        raise NotProfile
    try:
        return read(data_type, held if type(held) is str else str(held).lower())
    except Fault:
        raise NotProfile from None


def attribute(found):
    """An attribute (4.2), whose type is that of its JSON if it names none."""
    name, issuer = needed(found, "AttributeId", str), at(found, "Issuer", str, None)
    included, named = at(found, "IncludeInResult", bool, False), at(found, "DataType", str, None)
    held = listed(found["Value"]) if "Value" in found else []
    kinds = {type(item) for item in held}
    if len(kinds) > 1 or kinds - {str, bool, int}:
        raise NotProfile
    data_type = (type_of(named)
                 if named is not None else {bool: "boolean", int: "integer"}.get(next(iter(kinds), str), "string"))
    return Attribute(name, issuer, included, data_type, [value(data_type, item) for item in held])


def category_object(found, named):
    """A Category object, of the category named, or else of the one that it names itself."""
    named = named or category(needed(found, "CategoryId", str))
    return CategoryObject(named, at(found, "Id", str, None), [attribute(item) for item in objects(found, "Attribute")])


def references(found):
    """The ids of objects that each reference of MultiRequests names (4.2; Multiple Decision Profile, section 2)."""
    if "MultiRequests" not in found:
        return []
    group = of_kind(dict, found["MultiRequests"])
    if "RequestReference" not in group:
        raise NotProfile
    named = []
    for item in objects(group, "RequestReference"):
        if "ReferenceId" not in item:
            raise NotProfile
        named.append([of_kind(str, one) for one in listed(item["ReferenceId"])])
    return named


def request_of(body):
    """Of the bytes of a request whether a combined decision and the ids of policies are asked for, the Category
    objects, and the references."""
    whole = of_kind(dict, json_of(body))
    asked = needed(whole, "Request", dict)
    flags = at(asked, "CombinedDecision", bool, False), at(asked, "ReturnPolicyIdList", bool, False)
    found = [category_object(item, None) for item in objects(asked, "Category")]
    for name, uri in SHORTHANDS.items():
        found += [category_object(item, uri) for item in objects(asked, name)]
    ids = [name for _, name, _ in found if name is not None]
    if len(ids) > len(set(ids)):
        raise NotProfile
    return flags, found, references(asked)


def referred(found, ids):
    """The places of the objects of these ids; None where one is unknown, or two are of one category."""
    places = set()
    for name in ids:
        place = next((place for place, (_, its, _) in enumerate(found) if its == name), None)
        if place is None:
            return None
        places.add(place)
    categories = [found[place][0] for place in places]
    return sorted(places) if len(categories) == len(set(categories)) else None


def individuals_of(found, named):
    """To each individual request the places of its objects; None where there are too many."""
    if named:
        return [referred(found, ids) for ids in named] if len(named) <= MOST_INDIVIDUALS else None
    places = {}
    for place, (category, _, _) in enumerate(found):
        places.setdefault(category, []).append(place)
    count = 1
    for group in places.values():
        count *= len(group)
    return [sorted(chosen) for chosen in itertools.product(*places.values())] if count <= MOST_INDIVIDUALS else None


def request(body):
    """The answer to a row: what the request asks for."""
    try:
        (combined, identified), found, _ = request_of(decoded(body))
    except (NotJson, NotProfile) as fault:
        return ["!" + type(fault).__name__]
    fields = ["combined"] * combined + ["identified"] * identified
    for category, name, attributes in found:
        fields += ["object:" + encoded(category)] + (["id:" + encoded(name)] if name is not None else [])
        for its, issuer, included, data_type, values in attributes:
            fields += ["attribute:" + encoded(its)] + (["issuer:" + encoded(issuer)] if issuer is not None else [])
            fields += ["included"] * included + ["of:" + data_type] + [shown(one) for one in values]
    return fields + ["."]


def individuals(body):
    """The answer to a row: the places of each individual request's objects."""
    try:
        _, found, named = request_of(decoded(body))
    except (NotJson, NotProfile):
        return ["!Malformed"]
    all_of_them = individuals_of(found, named)
    if all_of_them is None:
        return ["!TooMany"]
    return ["!BadReference" if places is None else "at" + "".join(f",{place}" for place in places)
            for places in all_of_them]
