"""What the model answers to a row, as the program writes it; None for a kind of row that the model doesn't know."""
import hashlib
import inspect

import combining
import decisions
import documents
import drives
import fronts
import linking
import messages
import questions
import records
import requests
import route_bodies
import routes
import servers
import stores
import tripping
import versions
from contexts import FIRST_MOMENT, LAST_MOMENT, moment_as
from functions import BAG_FUNCTIONS, BAG_SIGNATURES, FUNCTIONS, HIGHER_ORDER, bag_function_named, fits, higher_order
from identifiers import DATA_TYPES, NAMESPACE, SHORTHANDS, STATUS, SUBJECTS, category
from names import NAMES
from rows import BadField, bag_shown, decoded, shown, text_of, value_of
from values import MAX_DAY_TIME, MAX_MONTHS, TYPES, Fault, key, read

ORDERED = ("integer", "string", "time", "date", "dateTime")


def arguments_of(fields):
    """The arguments, each a value or a bag: its type and the list of its values."""
    arguments = []
    for field in fields:
        if field.startswith("+"):
            data_type, held = arguments[-1]
            held.append(read(data_type, text_of(field[1:])))
        elif field.startswith("bag:"):
            arguments.append((field[4:], []))
        else:
            arguments.append(value_of(field))
    return arguments


def is_bag(argument):
    return isinstance(argument[1], list)


def kind_of(argument):
    return ("bag " if is_bag(argument) else "") + argument[0]


def lists(arguments):
    """Of each argument its values."""
    return [argument[1] if is_bag(argument) else [argument] for argument in arguments]


def given(meaning, data_type):
    """The answer that shows what the meaning gives, with bags of the type, or its fault with its status."""
    try:
        found = meaning()
    except Fault as fault:
        code = "syntax-error" if str(fault) == "BadText" else "processing-error"
        return ["!" + str(fault), STATUS + code]
    if isinstance(found, list):
        return bag_shown((data_type, found))
    return [shown(found)]


def apply(name, *fields):
    """What a function of values or of bags gives (XACML 3.0, core, appendix A.3.1 to A.3.11)."""
    arguments = arguments_of(fields)
    kinds = [kind_of(argument) for argument in arguments]
    if name in FUNCTIONS:
        takes, _, meaning = FUNCTIONS[name]
        return given(lambda: meaning(*arguments), None) if fits(takes, kinds) else ["!NotTaken"]
    found = bag_function_named(name)
    if found is None:
        return ["!NotTaken"]
    verb, data_type = found
    if not fits([kind.replace("T", data_type) for kind in BAG_SIGNATURES[verb][0]], kinds):
        return ["!NotTaken"]
    return given(lambda: BAG_FUNCTIONS[verb](*lists(arguments)), data_type)


def higher(name, inner, *fields):
    """What a higher-order function gives (A.3.12)."""
    arguments = arguments_of(fields)
    if name not in HIGHER_ORDER or inner not in FUNCTIONS:
        return ["!NotTaken"]
    verb, (takes, gives, meaning) = HIGHER_ORDER[name], FUNCTIONS[inner]
    if not fits(takes, [argument[0] for argument in arguments]):
        return ["!NotTaken"]
    if verb.startswith("all-of-") and [is_bag(argument) for argument in arguments] != [True, True]:
        return ["!NotOne", STATUS + "processing-error"]
    return given(lambda: higher_order(verb, meaning, lists(arguments)), gives)


def read_row(data_type, text):
    """The value of a text under a type (A.2)."""
    try:
        return [shown(read(data_type, text_of(text)))]
    except Fault as fault:
        return ["!" + str(fault)]


def type_row(name=""):
    """A data type by its URI or its short name, and its place (B.3)."""
    short = DATA_TYPES.get(name)
    return [short, NAMESPACE + short, str(TYPES.index(short))] if short else ["!None"]


def category_row(name=""):
    """A category by its shorthand, and whether it is one of subjects (JSON Profile, section 4.2)."""
    if name not in SHORTHANDS:
        return [name]
    return [category(name), "true" if category(name).startswith(SUBJECTS) else "false"]


def numbered(number):
    """The data type of a place."""
    return [TYPES[int(number)] if int(number) < len(TYPES) else "!None"]


def plain(data_type, member):
    """The value of a member of JSON under a type, and how JSON writes it: as a text, a boolean or an integer."""
    word, text = member.split(":", 1)
    if word != "text" and word != data_type:
        return ["!NotThisType"]
    found = read_row(data_type, text)
    if found[0].startswith("!"):
        return found
    written = found[0].split(":", 1)[1]
    form = data_type if data_type in ("boolean", "integer") else "text"
    return found + [f"plain:{form}:{written}"]


def same(left, right):
    """Whether two values are equal (A.3.1)."""
    left, right = value_of(left), value_of(right)
    return ["true" if left[0] == right[0] and key(left) == key(right) else "false"]


def order(left, right):
    """The order of two values of a type that has one (A.3.6, A.3.8)."""
    left, right = value_of(left), value_of(right)
    if left[0] != right[0] or left[0] not in ORDERED:
        return ["!None"]
    return ["Less" if key(left) < key(right) else "Equal" if key(left) == key(right) else "Greater"]


def moment(seconds):
    """The values of the clock (10.2.5)."""
    seconds = int(seconds)
    if not FIRST_MOMENT <= seconds <= LAST_MOMENT:
        return ["!None"]
    return [shown(moment_as(data_type, seconds)) for data_type in ("date", "time", "dateTime")]


def function(name=""):
    """The function of a URI, and its signature (A.3)."""
    return list(NAMES.get(name, ["!None"]))


def token(text=""):
    """Whether the bytes have the shape of a token."""
    return ["true" if route_bodies.is_token(decoded(text)) else "false"]


def domain(text=""):
    """Whether the bytes may name a domain."""
    return ["true" if routes.is_domain_name(decoded(text)) else "false"]


def number(most, text=""):
    """The number that digits are, up to the greatest that may be."""
    held = decoded(text)
    digits = held and all(byte in b"0123456789" for byte in held)
    return [str(int(held))] if digits and int(held) <= int(most) else ["!None"]


def months(number):
    """The yearMonthDuration of so many months (A.2)."""
    return [shown(("yearMonthDuration", int(number)))] if abs(int(number)) <= MAX_MONTHS else ["!None"]


def nanoseconds(number):
    """The dayTimeDuration of so many nanoseconds (A.2)."""
    return [shown(("dayTimeDuration", int(number)))] if abs(int(number)) <= MAX_DAY_TIME else ["!None"]


def held(field):
    """A value as it is held."""
    return [shown(value_of(field))]


def digest(text, field):
    """Whether bytes are the SHA-256 of a text."""
    return ["true" if hashlib.sha256(decoded(text)).digest() == decoded(field) else "false"]


# in the order of crates/xa_trials/src/kinds.rt; at the end those that are asked by other rows (asked.py)
KINDS = {
    "type": type_row,
    "numbered": numbered,
    "category": category_row,
    "version": versions.version,
    "pattern": versions.pattern,
    "months": months,
    "nanoseconds": nanoseconds,
    "read": read_row,
    "same": same,
    "order": order,
    "number": number,
    "plain": plain,
    "function": function,
    "apply": apply,
    "higher": higher,
    "combine": combining.combine,
    "resolve": versions.resolve,
    "link": linking.link,
    "document": documents.document,
    "request": requests.request,
    "individuals": requests.individuals,
    "new_token": route_bodies.new_token,
    "old_token": route_bodies.old_token,
    "root": route_bodies.root,
    "rows": route_bodies.rows,
    "token": token,
    "domain": domain,
    "digest": digest,
    "route": routes.route,
    "stream": messages.stream,
    "front": fronts.front,
    "played": fronts.front,
    "driven": drives.driven,
    "decide": decisions.decide,
    "server": servers.server,
    "run": servers.run,
    "reopened": servers.run,
    "stored": stores.stored,
    "keeper": records.keeper,
    "keeper_with": records.keeper_with,
    "opened": stores.opening,
    "tripped": tripping.tripped,
    "tripped_after": tripping.tripped_after,
    "loopback": servers.loopback,
    "moment": moment,
    "held": held,
    "matches": versions.matches,
    "versions": versions.versions,
    "evaluate": questions.evaluate,
    "target": questions.target,
}


def has_its_fields(meaning, fields):
    """Whether a row of that meaning may have so many fields."""
    try:
        inspect.signature(meaning).bind(*fields)
        return True
    except TypeError:
        return False


def answer(fields):
    """The answer to a row; None for a kind of row that the model doesn't know."""
    meaning, fields = KINDS.get(fields[0]), fields[1:]
    if meaning is None:
        return None
    if not has_its_fields(meaning, fields):
        return ["!FieldCount"]
    try:
        return meaning(*fields)
    except BadField:
        return ["!Malformed"]
