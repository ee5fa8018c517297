"""What the parts of tests/client.py share: the client, its checks, and a domain on the real program."""
import os
import pathlib
import sys
import tempfile

TOP = pathlib.Path(__file__).resolve().parent.parent.parent
sys.path.insert(0, str(TOP / "clients" / "python"))

import pdp_client  # noqa: E402
from checks import Checks, program_named  # noqa: E402
from serving import OPERATOR, Served  # noqa: E402

PROGRAM = program_named(sys.argv[1:])
ADMIN, ASKS = "acme-admin-1", "acme-asks-1"
checks = Checks("tests/client.py")
expect = checks.expect
untried = []


def raised(call, *given, **named):
    """The name of the error that a call raises, and what it says; nothing and what it gives, if it raises none."""
    try:
        return "", call(*given, **named)
    except pdp_client.PdpError as fault:
        return type(fault).__name__.strip("_"), str(fault)


class Acme:
    """The real program with a domain `acme` that has a token of each role, and nothing else. It ends a connection
    that is idle for so many seconds."""

    def __init__(self, idle=1):
        self.idle = idle

    def __enter__(self):
        self.made = tempfile.TemporaryDirectory(prefix="pdpd-client-")
        token = pathlib.Path(self.made.name) / "token"
        token.write_text(OPERATOR + "\n")
        self.served = Served(PROGRAM, str(pathlib.Path(self.made.name) / "store"), str(token),
                             env={**os.environ, "PDPD_IDLE": str(self.idle)})
        self.url = f"http://127.0.0.1:{self.served.port}"
        self.operator = pdp_client.Operator(self.url, OPERATOR)
        self.operator.create("acme")
        for role, shown in (("admin", ADMIN), ("ask", ASKS)):
            self.operator.give_token("acme", role, shown)
        self.admin = pdp_client.Domain(self.url, "acme", ADMIN)
        return self

    def domain(self, url=None, **more):
        """The domain by its token of the role ask."""
        return pdp_client.Domain(url or self.url, "acme", ASKS, **more)

    def decides_by(self, document):
        """Makes a policy the root."""
        held = document["Policy"]
        self.admin.upload(document)
        self.admin.activate("policy", held["PolicyId"], held["Version"])
        self.admin.set_root("policy", held["PolicyId"], Version=held["Version"])

    def __exit__(self, *_):
        self.served.kill()
        self.made.cleanup()


# ---- policies

ALGORITHM = "urn:oasis:names:tc:xacml:3.0:rule-combining-algorithm:deny-unless-permit"
IDS = {"AccessSubject": "urn:oasis:names:tc:xacml:1.0:subject:subject-id",
       "Resource": "urn:oasis:names:tc:xacml:1.0:resource:resource-id",
       "Action": "urn:oasis:names:tc:xacml:1.0:action:action-id"}


def match(category, value, attribute=None, data_type="string", function="urn:oasis:names:tc:xacml:1.0:function"):
    """A match of one value of an attribute."""
    return {"MatchId": f"{function}:{data_type}-equal", "AttributeValue": {"DataType": data_type, "Value": value},
            "AttributeDesignator": {"Category": category, "AttributeId": attribute or IDS[category],
                                    "DataType": data_type, "MustBePresent": False}}


def rule(name, *matches):
    return {"RuleId": name, "Effect": "Permit", "Target": {"AnyOf": [{"AllOf": [{"Match": list(matches)}]}]}}


def policy_of(version, *rules, obligations=()):
    """A policy that permits by these rules, with obligations of a Permit and of a Deny: (id, effect)."""
    shown = {"AttributeId": "urn:example:who",
             "Expression": {"AttributeDesignator": {"Category": "AccessSubject", "AttributeId": IDS["AccessSubject"],
                                                    "DataType": "string", "MustBePresent": False}}}
    held = [{"ObligationId": name, "FulfillOn": effect, "AttributeAssignmentExpression": [shown]}
            for name, effect in obligations]
    return {"Policy": {"PolicyId": "urn:example:p", "Version": version, "RuleCombiningAlgId": ALGORITHM,
                       "Rule": list(rules), **({"ObligationExpressions": held} if held else {})}}
