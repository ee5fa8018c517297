"""Responses of the JSON Profile of XACML 3.0, version 1.1 (section 5), as compact JSON with the members in the
order of their names."""
import json

from identifiers import NAMESPACE
from values import to_text


def plain(value):
    """The value in JSON."""
    return value[1] if value[0] in ("boolean", "integer") else to_text(value)


def without_absent(members):
    """The members that have a value."""
    return {name: held for name, held in members.items() if held is not None}


def duties_shown(duties):
    """Obligations or advice."""
    return [without_absent({"Id": duty.id, "AttributeAssignment": [assignment_shown(one) for one in duty.assignments]
                            or None}) for duty in duties]


def assignment_shown(assigned):
    """An assignment of an obligation or of advice (5)."""
    return without_absent({"AttributeId": assigned.attribute_id, "Category": assigned.category, "DataType": NAMESPACE
                           + assigned.value[0], "Issuer": assigned.issuer, "Value": plain(assigned.value)})


def attribute_shown(attribute):
    """An attribute that is included in the result (5): one value alone, or an array."""
    values = [plain(value) for value in attribute.values]
    return without_absent({"AttributeId": attribute.id, "DataType": NAMESPACE + attribute.data_type,
                           "Issuer": attribute.issuer, "Value": values[0] if len(values) == 1 else values})


def categories_shown(objects):
    """The Category objects that have attributes to include, with these."""
    found = [{"CategoryId": held.category,
              "Attribute": [attribute_shown(one) for one in held.attributes if one.is_included]} for held in objects]
    return [held for held in found if held["Attribute"]]


def identifiers_shown(ids):
    """The policies and the sets that are told of; nothing of a kind of which there are none."""
    found = {name: [{"Id": one.id, "Version": one.version} for one in ids if one.form == form]
             for name, form in (("PolicyIdReference", "Policy"), ("PolicySetIdReference", "PolicySet"))}
    return {name: held for name, held in found.items() if held}


def result(evaluated, objects=()):
    """The result of what a tree comes to, where the individual request has these Category objects."""
    decision = "Indeterminate" if evaluated.decision.startswith("{") else evaluated.decision
    lists = {"AssociatedAdvice": duties_shown(evaluated.advice), "Obligations": duties_shown(evaluated.obligations),
             "Category": categories_shown(objects), "PolicyIdentifierList": identifiers_shown(evaluated.ids)}
    return {"Decision": decision, "Status": {"StatusCode": {"Value": evaluated.status}},
            **{name: held for name, held in lists.items() if held}}


def body(results):
    """The text of the response."""
    return json.dumps({"Response": results}, ensure_ascii=False, sort_keys=True, separators=(",", ":"))
