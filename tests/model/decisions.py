"""Decisions on a request: its individual requests, each by the tree of the root (XACML 3.0, core, section 7.17;
Multiple Decision Profile)."""
import collections
import json

from charges import Refused
from contexts import FIRST_MOMENT, LAST_MOMENT, Context, SourceRow
from documents import DocumentFault
from identifiers import STATUS, category as category_named
from json_texts import NotJson
from linking import TooLarge, active_of, linked
from policies import PROCESSING_ERROR, tree_value, without_duties
from requests import NotProfile, individuals_of, request_of
from responses import body, result
from rows import decoded, encoded, text_of, value_of
from versions import reference_of
from work import spent

SYNTAX_ERROR = STATUS + "syntax-error"
View = collections.namedtuple("View", "active root source")


class NoMoment(Exception):
    """The clock never stands there."""


class TooLong(Exception):
    """The response has more bytes than it may have."""


def indeterminate(status):
    """Indeterminate for any decision, with that status (7.10)."""
    return without_duties("{DP}", status)


def decider(view, moment):
    """What gives to the Category objects of an individual request what the view decides on it."""
    if view.root is None:
        return lambda objects: without_duties("NotApplicable")
    try:
        tree = linked(view.active, view.root)
    except TooLarge:
        return lambda objects: indeterminate(PROCESSING_ERROR)
    return lambda objects: tree_value(Context(objects, view.source, moment).values_of, tree)


def results(view, held, moment):
    """The results to the bytes of a request; NotJson where they are no JSON."""
    try:
        (combined, identified), found, named = request_of(held)
    except NotProfile:
        return [result(indeterminate(SYNTAX_ERROR))]
    individuals = individuals_of(found, named)
    if combined or individuals is None:
        return [result(indeterminate(PROCESSING_ERROR))]
    decide, made = decider(view, moment), []
    for places in individuals:
        objects = [] if places is None else [found[place] for place in places]
        evaluated = indeterminate(SYNTAX_ERROR) if places is None else decide(objects)
        made.append(result(evaluated if identified else evaluated._replace(ids=()), objects))
    return made


def texts_in(shown):
    """The bytes of the ids, issuers, categories and values of type string or anyURI that stand in a result, or in a
    part of one, as JSON has them (RFC 8259, section 7)."""
    if isinstance(shown, str):
        return len(json.dumps(shown, ensure_ascii=False).encode()) - 2
    if isinstance(shown, list):
        return sum(map(texts_in, shown))
    if isinstance(shown, dict):
        return sum(texts_in(held) for name, held in shown.items() if name not in ("DataType", "Decision", "Status"))
    return 0


def counting(most):
    """A function that is shown results, one after another: TooLong once their texts have more bytes than that."""
    texts = 0

    def show(one):
        nonlocal texts
        texts += texts_in(one)
        if most is not None and texts > most:
            raise TooLong("Results")
    return show


def response(view, held, moment, most=None):
    """The text of the response; TooLong where it has more bytes than that, which may be known by the texts of its
    first results alone."""
    made, show = results(view, held, moment), counting(most)
    for one in made:
        show(one)
    text = body(made)
    if most is not None and len(text.encode()) > most:
        raise TooLong("Reply")
    return text


def row_of(field):
    """The source row of a field `CATEGORY|ENTITY|ID|TYPE=TEXT` or `CATEGORY|ENTITY|ID|TYPE|ISSUER=TEXT`."""
    place, held = field.split("=", 1)
    category, entity, attribute_id, data_type, *issuer = place.split("|")
    return SourceRow(category_named(text_of(category)), text_of(entity), text_of(attribute_id),
                     value_of(f"{data_type}:{held}"), *map(text_of, issuer))


def given(fields):
    """What decides, the moment, how long the response may be, and its work, by fields `active:TEXT`, `root:REFERENCE`,
    `row:..`, `moment:SECONDS`, `reply:BYTES` and `work:UNITS`."""
    view, moment, most, units = View([], None, []), 0, None, None
    for field in fields:
        word, text = field.split(":", 1)
        if word == "active":
            view.active.append(active_of(text))
        elif word == "root":
            view = view._replace(root=reference_of(text))
        elif word == "row":
            view.source.append(row_of(text))
        elif word == "moment":
            moment = int(text)
            if not FIRST_MOMENT <= moment <= LAST_MOMENT:
                raise NoMoment
        elif word == "reply":
            most = int(text)
        elif word == "work":
            units = int(text)
    return view, moment, most, units


def decide(*fields):
    """The answer to a row: the response to the bytes of the last field, by what the others give."""
    if not fields:
        return ["!FieldCount"]
    try:
        view, moment, most, units = given(fields[:-1])
        if units is not None:
            spent(view, decoded(fields[-1]), moment, units, lambda: counting(most))
        return [encoded(response(view, decoded(fields[-1]), moment, most))]
    except NotJson:
        return ["!NotJson"]
    except Refused:
        return ["!Work"]
    except TooLong as limit:
        return ["!" + str(limit)]
    except (DocumentFault, NoMoment):
        return ["!Malformed"]
