"""Identifiers of data types, of categories with their shorthands, and of status codes (XACML 3.0, core, appendix B;
JSON Profile, section 4.2)."""
from values import TYPES

NAMESPACE = "http://www.w3.org/2001/XMLSchema#"
STATUS = "urn:oasis:names:tc:xacml:1.0:status:"
SUBJECTS = "urn:oasis:names:tc:xacml:1.0:subject-category:"
OTHERS = "urn:oasis:names:tc:xacml:3.0:attribute-category:"
# the shorthands of categories, in the JSON Profile's order
SHORTHANDS = {
    "AccessSubject": SUBJECTS + "access-subject", "RecipientSubject": SUBJECTS + "recipient-subject",
    "IntermediarySubject": SUBJECTS + "intermediary-subject", "Codebase": SUBJECTS + "codebase",
    "RequestingMachine": SUBJECTS + "requesting-machine", "Resource": OTHERS + "resource", "Action": OTHERS + "action",
    "Environment": OTHERS + "environment",
}
# each name of a data type, with the name of the type
DATA_TYPES = {beginning + name: name for name in TYPES for beginning in ("", NAMESPACE)}


def category(name):
    """The category that the name or the shorthand names."""
    return SHORTHANDS.get(name, name)
