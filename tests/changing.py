"""Random messages that change what is kept of four domains, and what they are made of; a row of each text."""
import json
import random
from urllib.parse import quote

from serving import OPERATOR, message, policy

SEED = 14
VALUES = {
    "string": ["", "a", " a ", "é\U0001f600", "\"\\\n", "x" * 3_000],
    "boolean": ["true", "0", " 1 "],
    "integer": ["7", "-0", "+12", "9223372036854775807", "-9223372036854775808"],
    "date": ["2026-11-24", "0001-01-01Z", "9999-12-31+14:00", "2024-02-29-05:30"],
    "time": ["00:00:00", "23:59:59.999999999Z", "12:30:00.100+01:00"],
    "dateTime": ["2026-11-24T10:00:00Z", "2026-11-24T10:00:00.5-14:00"],
    "dayTimeDuration": ["P1DT24H", "-PT90M", "PT0.5S", "P0D"],
    "yearMonthDuration": ["P13M", "-P1Y", "P0M"],
    "anyURI": ["urn:x", " urn:y ", ""],
    "hexBinary": ["0a", "", "DEADbeef"],
    "base64Binary": ["", "AA==", "QUJD", " Q U I = "],
}
CATEGORIES = ["AccessSubject", "Resource", "Action", "Environment", "urn:other",
              "urn:oasis:names:tc:xacml:1.0:subject-category:codebase"]
ISSUERS = ("hr", "", "é\"\\\n", "i" * 3_000)
ALGORITHM = "urn:oasis:names:tc:xacml:3.0:policy-combining-algorithm:deny-overrides"
POLICY_IDS = ("urn:p", "urn:q", "é/1", "x" * 512)
FIRST_TOKEN, OTHER_TOKENS = "first-token-1", ("second-token-1", "third-token-1")
chance = random.Random(SEED)


def row():
    issuer = chance.choice((None, None, "hr", "", "é"))
    data_type = chance.choice(list(VALUES))
    return {"Category": chance.choice(CATEGORIES), "Entity": chance.choice(("", "alice", "é")),
            "AttributeId": chance.choice(("urn:a", "", "b")), "DataType": data_type,
            "Value": chance.choice(VALUES[data_type]), **({} if issuer is None else {"Issuer": issuer})}


def resource_row(data_type, text, **more):
    return {"Category": "Resource", "Entity": "e", "AttributeId": "a", "DataType": data_type, "Value": text,
            **more}


def all_rows():
    """A row of each text, without an issuer."""
    return [resource_row(data_type, text) for data_type, texts in VALUES.items() for text in texts]


def issued_rows():
    """The same, and a row by each of some issuers."""
    return all_rows() + [resource_row("string", "x", Issuer=issuer) for issuer in ISSUERS]


def policy_set(policy_id, version):
    return json.dumps({"PolicySet": {"PolicySetId": policy_id, "Version": version,
                                     "PolicyCombiningAlgId": ALGORITHM,
                                     "Children": [{"PolicyIdReference": {"Id": "urn:p", "Version": "1.+"}}]}})


def document():
    policy_id = chance.choice(POLICY_IDS)
    version = chance.choice(("1", "1.0", "01.0", "1.9", "1.10", "2.0.0", "999999999"))
    if chance.random() < 0.3:
        return policy_set(policy_id, version)
    description = chance.choice((None, "é", "y" * 9_000))
    return policy(chance.choice(("Permit", "Deny")), policy_id, version, description)


def reference():
    texts_of = {"Version": ("1.+", "+", "01.*", "1.0", "*"), "EarliestVersion": ("1", "01.2"),
                "LatestVersion": ("2.0.0", "007")}
    found = {"Id": chance.choice(("urn:p", "", "é"))}
    found.update({name: chance.choice(texts) for name, texts in texts_of.items() if chance.random() < 0.5})
    return {chance.choice(("PolicyIdReference", "PolicySetIdReference")): found}


def path_of(name):
    kind, policy_id = chance.choice(("policy", "policyset")), chance.choice(POLICY_IDS)
    version = chance.choice(("1", "1.0", "1.9", "1.10", "2.0.0"))
    return f"/domains/{name}/pap/{kind}/{quote(policy_id, safe='')}/{version}"


def of_operator(name):
    """Messages of the operator about the domain, any of which is as likely."""
    at = f"/operator/domains/{name}"
    token = json.dumps({"Role": chance.choice(("admin", "ask")), "Token": chance.choice(OTHER_TOKENS)})
    first = json.dumps({"Role": "admin", "Token": FIRST_TOKEN})
    put = message("PUT", at, OPERATOR)
    return [put, put, message("DELETE", at, OPERATOR) if chance.random() < 0.15 else put,
            message("POST", f"{at}/tokens", OPERATOR, token),
            message("POST", f"{at}/tokens", OPERATOR, first),
            message("DELETE", f"{at}/tokens", OPERATOR, json.dumps({"Token": chance.choice(OTHER_TOKENS)})),
            message("GET", "/operator/domains", OPERATOR)]


def of_admin(name):
    """Messages of the domain's admin, of which those that change most are the likeliest."""
    def send(method, path, body=None):
        return message(method, path, FIRST_TOKEN, body)

    at = f"/domains/{name}"
    rows = [row() for _ in range(chance.choice((0, 1, 3, 20)))]
    return [*[send("POST", f"{at}/pap/policies", document())] * 5,
            *[send("PUT", f"{path_of(name)}/active")] * 3,
            send("DELETE", f"{path_of(name)}/active"), send("DELETE", path_of(name)),
            *[send("PUT", f"{at}/pap/root", json.dumps(chance.choice((reference(), reference(), {}))))] * 3,
            *[send("PUT", f"{at}/pip", json.dumps({"Row": rows}))] * 3,
            send("GET", f"{at}/pip"), send("GET", f"{at}/pap/policies")]


def random_message():
    """A message that changes what is kept of one of four domains, or asks for what isn't there."""
    name = chance.choice(("acme", "beta", "a", "z-9" + "x" * 29))
    return chance.choice(of_operator(name) + of_admin(name))
