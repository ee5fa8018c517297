"""How much work a message asks for, in units, by the rules of charging (docs/PERFORMANCE.md, "What a unit is"): what is
decided is gone through step by step, and each step is charged before it is taken.

It goes by the definitions' own functions for what a step comes to, and charges nothing that these don't do: where an
algorithm goes no further, nor does this.
"""
from charged_contexts import ChargedContext
from charged_decisions import ChargedDecision
from charges import (
    LARGE, MEMBERS, NAME, NUMBER, ORDERED, STEP, WantsOrder, Work, escaped, of_search, units, written)
from json_texts import NotJson
from linking import TooLarge, linked
from policies import PROCESSING_ERROR, without_duties
from requests import NotProfile, individuals_of, request_of
from responses import result

# ---- what is written of a result (JSON Profile, section 5)


def attribute_written(attribute):
    """An attribute that is included (5.2)."""
    return MEMBERS + escaped(attribute.id) + escaped(attribute.issuer) + sum(map(written, attribute.values))


def objects_written(objects):
    """The Category objects with the attributes that are included."""
    whole = 0
    for held in objects:
        included = [attribute_written(one) for one in held.attributes if one.is_included]
        whole += MEMBERS + sum(included) + escaped(held.category) if included else 0
    return whole


def assignment_written(assigned):
    """An assignment of an obligation or of advice (5.2)."""
    texts = escaped(assigned.attribute_id) + escaped(assigned.category) + escaped(assigned.issuer)
    return MEMBERS + texts + written(assigned.value)


def duties_written(duties):
    """Obligations or advice."""
    return sum(MEMBERS + escaped(duty.id) + sum(map(assignment_written, duty.assignments)) for duty in duties)


def names_written(ids):
    """The policies and the sets that a result names."""
    return sum(NAME + escaped(one.id) + NUMBER * len(one.version.split(".")) for one in ids)


def result_written(evaluated, objects):
    """A whole result (5.2)."""
    duties = duties_written(evaluated.obligations) + duties_written(evaluated.advice)
    return MEMBERS + objects_written(objects) + duties + names_written(evaluated.ids)


# ---- a request

def of_individual(view, is_identified, objects, moment, work):
    """The result for an individual request of these Category objects."""
    work.spend(len(objects) * (STEP + of_search(len(objects)) // 2))
    if view.root is None:
        evaluated = without_duties("NotApplicable")
    else:
        try:
            tree = linked(view.active, view.root)
            evaluated = ChargedDecision(ChargedContext(objects, view.source, moment, work)).of(tree)
        except TooLarge:
            evaluated = without_duties("{DP}", PROCESSING_ERROR)
    if not is_identified:
        evaluated = evaluated._replace(ids=())
    work.spend(result_written(evaluated, objects))
    return result(evaluated, objects)


def large_attributes(found):
    """The attributes of Category objects whose bags are large."""
    return [attribute for held in found for attribute in held.attributes if len(attribute.values) >= LARGE]


def results(view, is_identified, found, individuals, moment, work, shown=None):
    """The results for the individual requests, each the places of its objects among those found; None for one that
    refers to what isn't there. Each is shown to the function, if there is one, before the next is decided."""
    if work.is_ordered:
        for attribute in large_attributes(found):
            work.spend(ORDERED * units(attribute.values))
    made = []
    for places in individuals:
        work.spend(STEP)
        if places is None:
            made.append(None)
        else:
            made.append(of_individual(view, is_identified, [found[place] for place in places], moment, work))
            if shown is not None:
                shown(made[-1])
    return made


def spent(view, held, moment, limit, begun=None):
    """The units of the work on the bytes of a request; Refused where they are more than the limit. `begun` gives, each
    time that the results are begun, the function to which they are shown."""
    try:
        (is_combined, is_identified), found, named = request_of(held)
    except (NotProfile, NotJson):
        return 0
    individuals = individuals_of(found, named)
    if is_combined or individuals is None:
        return 0
    work = Work(limit, sum(len(attribute.values) for attribute in large_attributes(found)))
    try:
        results(view, is_identified, found, individuals, moment, work, begun and begun())
    except WantsOrder:
        # what was spent until then stays spent
        work.is_ordered = True
        results(view, is_identified, found, individuals, moment, work, begun and begun())
    return limit - work.left
