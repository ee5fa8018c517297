"""The bodies of routes in JSON: a token with its role, a token alone, a root, and the rows of a source of attributes.

Their shape is checked by tables of members, as that of documents is (documents.py).
"""
from contexts import SourceRow
from documents import DocumentFault, among, array, category, kept, members, optional, reference, text, typed_value
from identifiers import NAMESPACE
from json_texts import NotJson, json_of
from replies import compact
from responses import plain
from rows import decoded, encoded

ROLES = {"ask": "Ask", "admin": "Admin"}
ROOTS = {"PolicyIdReference": "policy", "PolicySetIdReference": "set"}


def json_in(held):
    """The JSON that the body is."""
    try:
        return json_of(held)
    except NotJson:
        raise DocumentFault("NotJson") from None


def is_token(held):
    """Whether the bytes have the shape of a token: 8 to 64 visible characters of ASCII."""
    return 8 <= len(held) <= 64 and all(0x21 <= byte <= 0x7E for byte in held)


def token(value):
    """A text that has the shape of a token."""
    return kept(is_token(text(value).encode()), value)


def new_token_of(held):
    """The role and the token of a body."""
    found = members("NewToken", json_in(held))
    return among(ROLES)(found["Role"]), token(found["Token"])


def old_token_of(held):
    """The token of a body."""
    return token(members("OldToken", json_in(held))["Token"])


def root_of(held):
    """The reference of a body, or None."""
    found = json_in(held)
    kept(isinstance(found, dict), found)
    kept(set(found) <= set(ROOTS) and len(found) <= 1, found, "UnknownMember")
    for name, inner in found.items():
        return reference(ROOTS[name], inner)
    return None


def source_row(value):
    """A row of a source of attributes."""
    found = members("SourceRow", value)
    return SourceRow(category(found["Category"]), text(found["Entity"]), text(found["AttributeId"]), typed_value(found),
                     optional(text, found, "Issuer"))


def rows_of(held):
    """The rows of a body, in order."""
    return [source_row(item) for item in array(members("Source", json_in(held))["Row"])]


def row_shown(row):
    """A row in JSON, as it is listed."""
    shown = {"AttributeId": row.attribute_id, "Category": row.category, "DataType": NAMESPACE + row.value[0],
             "Entity": row.entity, "Value": plain(row.value)}
    return shown if row.issuer is None else {**shown, "Issuer": row.issuer}


def rows_shown(found):
    """The body that lists the rows."""
    return compact({"Row": [row_shown(row) for row in found]})


def reference_shown(reference):
    """The reference as a field `KIND|ID|PATTERN|EARLIEST|LATEST` has it."""
    kind, name, pattern, earliest, latest = reference
    return "|".join([kind, encoded(name), ".".join(pattern or []),
                     *(".".join(map(str, version or [])) for version in (earliest, latest))])


def read_as(reads, shows):
    """Answers a row by the fields that show what is read of its body, or by its first fault."""
    def answer(field=""):
        try:
            return shows(reads(decoded(field)))
        except DocumentFault as fault:
            return ["!" + str(fault)]
    return answer


new_token = read_as(new_token_of, lambda found: [found[0], encoded(found[1])])
old_token = read_as(old_token_of, lambda found: [encoded(found)])
root = read_as(root_of, lambda found: ["!None" if found is None else reference_shown(found)])
rows = read_as(rows_of, lambda found: [encoded(rows_shown(found))])
