"""Combining algorithms (XACML 3.0, appendix C) over the decisions Permit, Deny, NotApplicable, {P}, {D} and
{DP} of the children."""

DECISIONS = ["Permit", "Deny", "NotApplicable", "{P}", "{D}", "{DP}"]
MIRROR = {"Permit": "Deny", "Deny": "Permit", "{P}": "{D}", "{D}": "{P}"}


def mirrored(decision):
    """The decision with Permit and Deny exchanged."""
    return MIRROR.get(decision, decision)


def deny_overrides(found):
    """Deny-overrides (C.2, C.3): the first line that fits."""
    if "Deny" in found:
        return "Deny"
    if "{DP}" in found or "{D}" in found and ("{P}" in found or "Permit" in found):
        return "{DP}"
    return next((it for it in ("{D}", "Permit", "{P}") if it in found), "NotApplicable")


def permit_overrides(found):
    """Permit-overrides (C.4, C.5), which is deny-overrides with Permit and Deny exchanged."""
    return mirrored(deny_overrides([mirrored(it) for it in found]))


def deny_unless_permit(found):
    """Deny-unless-permit (C.6)."""
    return "Permit" if "Permit" in found else "Deny"


def permit_unless_deny(found):
    """Permit-unless-deny (C.7)."""
    return "Deny" if "Deny" in found else "Permit"


def first_applicable(found):
    """First-applicable (C.8): the first decision but NotApplicable."""
    for it in found:
        if it != "NotApplicable":
            return "{DP}" if it.startswith("{") else it
    return "NotApplicable"


def ending(targets):
    """The place of the first Indeterminate target, or of the second Match, if that comes before."""
    matching = [place for place, target in enumerate(targets) if target == "Match"]
    return min([place for place, target in enumerate(targets) if target == "Indeterminate"] + matching[1:2],
               default=None)


def only_one_applicable(children):
    """The targets are asked in order: the first Indeterminate one, or the second applicable child, ends it."""
    if ending([target for _, target in children]) is not None:
        return "{DP}"
    return next((decision for decision, target in children if target == "Match"), "NotApplicable")


BY_DECISIONS = {
    "deny-overrides": deny_overrides, "ordered-deny-overrides": deny_overrides, "permit-overrides": permit_overrides,
    "ordered-permit-overrides": permit_overrides, "deny-unless-permit": deny_unless_permit,
    "permit-unless-deny": permit_unless_deny, "first-applicable": first_applicable,
}
ALGORITHMS = [*BY_DECISIONS, "only-one-applicable"]


def combine(algorithm, *fields):
    """The answer to a row; a child is DECISION, or DECISION/TARGET where its target isn't Match."""
    children = [field.split("/") if "/" in field else [field, "Match"] for field in fields]
    if algorithm == "only-one-applicable":
        return [only_one_applicable(children)]
    return [BY_DECISIONS[algorithm]([decision for decision, _ in children])]
