"""Worked examples of all routes, answered by the model: one conversation after another, each with a server
that has no domain yet.

usage: worked.py
"""
import sys

import folders  # noqa: F401
from machines import Server
from messages import Stream
from replies import error_reply, reply
from servers import OPERATOR_TOKEN

DONE, CREATED, UNAUTHORIZED = (reply(200, b"{}"), reply(201, b"{}"),
                               error_reply("Unauthorized", "WWW-Authenticate: Bearer\r\n"))
ADMIN, OPERATOR = b"acme-token-1", OPERATOR_TOKEN
POLICY = (b'{"Policy":{"PolicyId":"urn:p","Version":"1.0",'
          b'"RuleCombiningAlgId":"urn:oasis:names:tc:xacml:3.0:rule-combining-algorithm:deny-overrides",'
          b'"Rule":[{"RuleId":"r","Effect":"Permit"}]}}')
CURRENT_TIME, TIME_IN_RANGE = ('"urn:oasis:names:tc:xacml:1.0:environment:current-time"',
                               '"urn:oasis:names:tc:xacml:2.0:function:time-in-range"')
SUBJECT, SUBJECTS = ("urn:oasis:names:tc:xacml:1.0:subject:subject-id",
                     "urn:oasis:names:tc:xacml:1.0:subject-category:access-subject")
FIRST, DENY_UNLESS = ("1.0:policy-combining-algorithm:first-applicable",
                      "3.0:policy-combining-algorithm:deny-unless-permit")
ROOT = b'{"PolicyIdReference":{"Id":"urn:p"}}'
NOTHING = b'{"Request":{}}'


def decided(decision, status="ok"):
    """The reply to an ask with one result and nothing else."""
    body = (f'{{"Response":[{{"Decision":"{decision}",'
            f'"Status":{{"StatusCode":{{"Value":"urn:oasis:names:tc:xacml:1.0:status:{status}"}}}}}}]}}')
    return reply(200, body.encode(), "xacml+json")


PERMIT, DENY, NONE = decided("Permit"), decided("Deny"), decided("NotApplicable")
FAULT, MISSING = decided("Indeterminate", "processing-error"), decided("Indeterminate", "missing-attribute")


class Conversation:
    """Messages to a server, each with the reply that is wanted."""

    def __init__(self, what):
        self.what, self.server, self.count, self.faults = what, Server(OPERATOR), 0, 0

    def say(self, wanted, line, token=ADMIN, body=b"", moment=0):
        stream = Stream()
        fields = b"Authorization: Bearer %b\r\nContent-Length: %d\r\n\r\n" % (token, len(body))
        stream.held = line.encode() + b" HTTP/1.1\r\n" + fields + body
        found = self.server.answer(stream.next(), moment)
        self.count += 1
        if found != wanted:
            self.faults += 1
            print(f"{self.what}: {line} is answered\n  {found}\nand not\n  {wanted}")

    def make(self, domain="acme", token=ADMIN):
        self.say(CREATED, f"PUT /operator/domains/{domain}", OPERATOR)
        self.say(DONE, f"POST /operator/domains/{domain}/tokens", OPERATOR, b'{"Role":"admin","Token":"%b"}' % token)

    def keep(self, text, path="/pap/policy/urn:p/1.0/active", domain="acme", token=ADMIN):
        """Uploads a document and makes it active."""
        self.say(CREATED, f"POST /domains/{domain}/pap/policies", token, text)
        self.say(DONE, f"PUT /domains/{domain}{path}", token)

    def root(self, body=ROOT, domain="acme", token=ADMIN):
        self.say(DONE, f"PUT /domains/{domain}/pap/root", token, body)

    def permit(self, domain="acme", token=ADMIN, text=POLICY):
        """The domain with one policy, active and root."""
        self.make(domain, token)
        self.keep(text, domain=domain, token=token)
        self.root(domain=domain, token=token)

    def ask(self, wanted, body=NOTHING, domain="acme", token=ADMIN, moment=0):
        self.say(wanted, f"POST /domains/{domain}/pdp", token, body, moment)


def targeted(must_be_present):
    """The policy with a target on the subject's id."""
    designator = (f'{{"Category":"AccessSubject","AttributeId":"{SUBJECT}","DataType":"string",'
                  f'"MustBePresent":{must_be_present}}}')
    match = ('{"MatchId":"urn:oasis:names:tc:xacml:1.0:function:string-equal",'
             '"AttributeValue":{"DataType":"string","Value":"alice"},"AttributeDesignator":%s}')
    return POLICY.replace(b'"Permit"',
                          b'"Permit","Target":{"AnyOf":[{"AllOf":[{"Match":[%b]}]}]}' % (match % designator).encode())


def returned(issuer=""):
    """The policy with an obligation that returns the roles of the subject."""
    designator = ('{"Category":"AccessSubject","AttributeId":"urn:role","DataType":"string",'
                  f'"MustBePresent":false{issuer}}}')
    assignment = f'{{"AttributeId":"urn:a","Expression":{{"AttributeDesignator":{designator}}}}}'
    duty = ('"ObligationExpressions":[{"ObligationId":"urn:o","FulfillOn":"Permit",'
            f'"AttributeAssignmentExpression":[{assignment}]}}]')
    return POLICY[:-2] + b"," + duty.encode() + b"}}"


def roles(texts):
    """The reply to an ask whose obligation returns these roles."""
    each = [f'{{"AttributeId":"urn:a","DataType":"http://www.w3.org/2001/XMLSchema#string","Value":"{text}"}}'
            for text in texts]
    assignment = f'"AttributeAssignment":[{",".join(each)}],' if each else ""
    obligations = f'"Obligations":[{{{assignment}"Id":"urn:o"}}],'.encode()
    return reply(200, PERMIT.split(b"\r\n\r\n")[1].replace(b'"Status"', obligations + b'"Status"', 1), "xacml+json")


def policy_set(algorithm, reference, name="urn:s"):
    held = (f'"PolicySetId":"{name}","Version":"1.0",'
            f'"PolicyCombiningAlgId":"urn:oasis:names:tc:xacml:{algorithm}","Children":[{reference}]')
    return f'{{"PolicySet":{{{held}}}}}'.encode()


def first_decision(it):
    it.permit()
    it.ask(PERMIT)


def tokens(it):
    it.make("acme", b"acme-token-1")
    it.make("beta", b"beta-token-1")
    for name in ("acme", "beta"):
        it.say(DONE, f"POST /operator/domains/{name}/tokens", OPERATOR, b'{"Role":"ask","Token":"same-token"}')
    it.ask(NONE, domain="acme", token=b"same-token")
    it.ask(NONE, domain="beta", token=b"same-token")
    it.ask(UNAUTHORIZED, domain="acme", token=b"beta-token-1")
    it.ask(UNAUTHORIZED, domain="zeta")
    it.ask(UNAUTHORIZED, domain="zeta", token=OPERATOR)


def same_and_other_text(it):
    it.permit()
    it.say(DONE, "POST /domains/acme/pap/policies", body=POLICY)
    it.say(error_reply("SameVersionOtherText"), "POST /domains/acme/pap/policies", body=POLICY.replace(b'"r"', b'"s"'))
    it.ask(PERMIT)


def roots(it):
    it.make()
    it.ask(NONE)
    it.keep(POLICY)
    it.root()
    it.say(DONE, "DELETE /domains/acme/pap/policy/urn:p/1.0/active")
    it.ask(FAULT)


def missing_attributes(it):
    it.permit(text=targeted("true"))
    it.ask(MISSING)
    it.permit("beta", text=targeted("false"))
    it.ask(NONE, domain="beta")


def greatest_versions(it):
    it.make()
    for version, effect in (("1.9", "Permit"), ("1.10", "Deny"), ("2.0", "Permit")):
        text = POLICY.replace(b"urn:p", b"urn:q").replace(b'"1.0"', f'"{version}"'.encode())
        text = text.replace(b"Permit", effect.encode())
        it.say(CREATED, "POST /domains/acme/pap/policies", body=text)
    it.say(DONE, "PUT /domains/acme/pap/policy/urn:q/1.9/active")
    it.say(DONE, "PUT /domains/acme/pap/policy/urn:q/1.10/active")
    for pattern in ("1.+", "+"):
        it.root(f'{{"PolicyIdReference":{{"Id":"urn:q","Version":"{pattern}"}}}}'.encode())
        it.ask(DENY)


def source(it):
    row = f'{{"Category":"{SUBJECTS}","Entity":"alice","AttributeId":"urn:role","DataType":"string","Value":"staff"}}'
    shown = (f'{{"AttributeId":"urn:role","Category":"{SUBJECTS}",'
             '"DataType":"http://www.w3.org/2001/XMLSchema#string","Entity":"alice","Value":"staff"}')
    alice = f'{{"AttributeId":"{SUBJECT}","Value":"alice"}}'
    guest = f'{alice},{{"AttributeId":"urn:role","Value":"guest"}}'
    for name, text in (("acme", returned()), ("beta", returned(',"Issuer":"hr"'))):
        it.permit(name, text=text)
        it.say(DONE, f"PUT /domains/{name}/pip", body=f'{{"Row":[{row}]}}'.encode())
    it.ask(roles(["staff"]), f'{{"Request":{{"AccessSubject":{{"Attribute":[{alice}]}}}}}}'.encode())
    it.ask(roles(["guest"]), f'{{"Request":{{"AccessSubject":{{"Attribute":[{guest}]}}}}}}'.encode())
    it.ask(roles([]), f'{{"Request":{{"AccessSubject":{{"Attribute":[{alice}]}}}}}}'.encode(), domain="beta")
    it.say(reply(200, f'{{"Row":[{shown}]}}'.encode()), "GET /domains/acme/pip")


def issuers(it):
    """Rows of two kinds: a designator without issuer sees both, one with an issuer the rows by that one."""
    row = f'{{"Category":"{SUBJECTS}","Entity":"alice","AttributeId":"urn:role","DataType":"string"'
    boss = (b'{"Row":[{"AttributeId":"urn:role",'
            b'"Category":"urn:oasis:names:tc:xacml:1.0:subject-category:access-subject",'
            b'"DataType":"http://www.w3.org/2001/XMLSchema#string","Entity":"alice","Issuer":"hr","Value":"boss"}]}')
    alice = f'{{"AttributeId":"{SUBJECT}","Value":"alice"}}'
    guest = f'{alice},{{"AttributeId":"urn:role","Value":"guest"}}'
    for name, issuer, plain, other in (("acme", "", ("staff", "boss"), ("guest",)),
                                       ("beta", ',"Issuer":"hr"', ("boss",), ("boss",)),
                                       ("gamma", ',"Issuer":"it"', (), ())):
        it.permit(name, text=returned(issuer))
        it.say(DONE, f"PUT /domains/{name}/pip",
               body=f'{{"Row":[{row},"Value":"staff"}},{row},"Issuer":"hr","Value":"boss"}}]}}'.encode())
        for asked, values in ((alice, plain), (guest, other)):
            it.ask(roles(values), f'{{"Request":{{"AccessSubject":{{"Attribute":[{asked}]}}}}}}'.encode(), domain=name)
    it.say(DONE, "PUT /domains/acme/pip", body=f'{{"Row":[{row},"Issuer":"hr","Value":"boss"}}]}}'.encode())
    it.say(reply(200, boss), "GET /domains/acme/pip")
    it.say(DONE, "PUT /domains/acme/pip", body=boss)
    it.say(error_reply("BadValue"), "PUT /domains/acme/pip",
           body=f'{{"Row":[{row},"Issuer":null,"Value":"boss"}}]}}'.encode())
    it.say(reply(200, boss), "GET /domains/acme/pip")


def two_domains(it):
    it.permit()
    it.permit("beta", text=POLICY.replace(b"Permit", b"Deny"))
    for _ in range(3):
        it.ask(PERMIT)
        it.ask(DENY, domain="beta")


def other_version(it):
    it.permit()
    it.ask(PERMIT)
    it.say(DONE, "DELETE /domains/acme/pap/policy/urn:p/1.0/active")
    it.keep(POLICY.replace(b'"1.0"', b'"1.1"').replace(b"Permit", b"Deny"), "/pap/policy/urn:p/1.1/active")
    it.ask(DENY)


def domain_made_anew(it):
    it.permit()
    it.ask(PERMIT)
    it.say(DONE, "DELETE /operator/domains/acme", OPERATOR)
    it.ask(UNAUTHORIZED)
    it.permit(text=POLICY.replace(b"Permit", b"Deny"))
    it.ask(DENY)


def moments(it):
    clock = (f'{{"AttributeDesignator":{{"Category":"Environment","AttributeId":{CURRENT_TIME},'
             '"DataType":"time","MustBePresent":true}}')
    one = ('{"Apply":{"FunctionId":"urn:oasis:names:tc:xacml:1.0:function:time-one-and-only",'
           f'"Expression":[{clock}]}}}}')
    ends = ",".join(f'{{"AttributeValue":{{"DataType":"time","Value":"{text}"}}}}'
                    for text in ("22:00:00Z", "06:00:00Z"))
    expression = f'"Condition":{{"Apply":{{"FunctionId":{TIME_IN_RANGE},"Expression":[{one},{ends}]}}}}'
    it.permit(text=POLICY.replace(b'"Permit"', b'"Permit",' + expression.encode()))
    it.ask(PERMIT, moment=82800)
    it.ask(NONE, moment=111600)


def circles(it):
    it.make()
    for algorithm, wanted in ((FIRST, FAULT), (DENY_UNLESS, DENY)):
        it.keep(policy_set(algorithm, '{"PolicySetIdReference":{"Id":"urn:s"}}'), "/pap/policyset/urn:s/1.0/active")
        it.root(b'{"PolicySetIdReference":{"Id":"urn:s"}}')
        it.ask(wanted)
        it.say(DONE, "DELETE /domains/acme/pap/policyset/urn:s/1.0/active")
        it.say(DONE, "DELETE /domains/acme/pap/policyset/urn:s/1.0")


def bodies_of_asks(it):
    it.permit()
    it.ask(error_reply("NotJson"), b"")
    it.ask(decided("Indeterminate", "syntax-error"), b"[]")
    it.ask(FAULT, b'{"Request":{"CombinedDecision":true}}')


def most_documents(it):
    it.make("acme")
    it.make("beta")
    for place in range(1025):
        text = POLICY.replace(b'"1.0"', b'"1.%d"' % place)
        it.say(CREATED if place < 1024 else error_reply("Quota"), "POST /domains/acme/pap/policies", body=text)
    it.say(CREATED, "POST /domains/beta/pap/policies", body=POLICY)
    it.say(DONE, "POST /domains/acme/pap/policies", body=POLICY)


def still_active(it):
    it.permit()
    it.say(error_reply("StillActive"), "DELETE /domains/acme/pap/policy/urn:p/1.0")
    it.say(error_reply("NoRoute"), "GET /nowhere")


def bodies_of_routes(it):
    it.make()
    it.say(error_reply("MissingMember"), "POST /operator/domains/acme/tokens", OPERATOR, b'{"Token":"same-token"}')
    it.say(error_reply("BadDomain"), "PUT /operator/domains/Acme", OPERATOR)
    it.say(UNAUTHORIZED, "PUT /operator/domains/Acme")
    it.say(DONE, "POST /operator/domains/acme/tokens", OPERATOR, b'{"Role":"ask","Token":"asks-alone"}')
    it.say(error_reply("Forbidden"), "PUT /domains/acme/pap/root", b"asks-alone", ROOT)
    it.say(error_reply("BadMethod", "Allow: POST\r\n"), "GET /domains/acme/pdp")


def listings(it):
    for name in ("b", "a"):
        it.say(CREATED, f"PUT /operator/domains/{name}", OPERATOR)
    it.say(reply(200, b'{"Domain":["a","b"]}'), "GET /operator/domains", OPERATOR)
    it.permit()
    it.say(reply(200, b'{"Policy":[{"Active":true,"Id":"urn:p","Kind":"policy","Version":"1.0"}]}'),
           "GET /domains/acme/pap/policies")
    it.say(reply(200, POLICY), "GET /domains/acme/pap/policy/urn:p/1.0")
    it.say(DONE, "DELETE /domains/acme/pap/policy/urn:p/1.0/active")
    it.say(DONE, "DELETE /domains/acme/pap/policy/urn:p/1.0")
    it.say(error_reply("Absent"), "GET /domains/acme/pap/policy/urn:p/1.0")
    it.say(reply(200, b'{"Row":[]}'), "GET /domains/acme/pip")
    it.say(DONE, "DELETE /operator/domains/acme/tokens", OPERATOR, b'{"Token":"acme-token-1"}')
    it.say(UNAUTHORIZED, "GET /domains/acme/pip")


CONVERSATIONS = [first_decision, tokens, same_and_other_text, roots, missing_attributes, greatest_versions, source,
                 issuers, two_domains, other_version, domain_made_anew, moments, circles, bodies_of_asks,
                 most_documents, still_active, bodies_of_routes, listings]


def main():
    found = []
    for conversation in CONVERSATIONS:
        found.append(Conversation(conversation.__name__.replace("_", " ")))
        conversation(found[-1])
    faults = sum(it.faults for it in found)
    print(f"{sum(it.count for it in found)} messages in {len(found)} conversations, {faults} answered otherwise")
    return 1 if faults else 0


if __name__ == "__main__":
    sys.exit(main())
