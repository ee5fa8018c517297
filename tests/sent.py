"""Messages and replies as bytes, and what makes a domain of one policy: what tests and benchmarks send and expect."""
import json


OPERATOR = "operator-token-1"
JOIN = "urn:oasis:names:tc:xacml:2.0:function:string-concatenate"


def message(method, path, token, body=None, more=""):
    """The bytes of a message that shows that token."""
    data = body if isinstance(body, bytes) else (body or "").encode()
    length = "" if body is None else f"Content-Length: {len(data)}\r\n"
    return f"{method} {path} HTTP/1.1\r\nAuthorization: Bearer {token}\r\n{more}{length}\r\n".encode() + data


def reply(status, body, media="json", more=""):
    return (f"HTTP/1.1 {status}\r\nContent-Type: application/{media}\r\nContent-Length: {len(body.encode())}\r\n"
            f"{more}\r\n{body}".encode())


def fault(status, code, more=""):
    return reply(status, f'{{"Error":"{code}"}}', more=more)


def decided(decision, status="ok"):
    code = f'{{"StatusCode":{{"Value":"urn:oasis:names:tc:xacml:1.0:status:{status}"}}}}'
    return reply("200 OK", f'{{"Response":[{{"Decision":"{decision}","Status":{code}}}]}}', "xacml+json")


CREATED, DONE = reply("201 Created", "{}"), reply("200 OK", "{}")
UNAUTHORIZED = fault("401 Unauthorized", "Unauthorized", "WWW-Authenticate: Bearer\r\n")
BAD_HEAD, HEAD_TOO_LARGE = (fault("400 Bad Request", "BadHead"),
                            fault("431 Request Header Fields Too Large", "HeadTooLarge"))
EXISTS, ABSENT = fault("409 Conflict", "Exists"), fault("404 Not Found", "Absent")
UNAVAILABLE = fault("503 Service Unavailable", "Unavailable")


def policy_of(rules, policy_id="urn:p", version="1.0", description=None):
    """A policy of these rules, which are JSON with commas between."""
    described = "" if description is None else f'"Description":"{description}",'
    return (f'{{"Policy":{{"PolicyId":"{policy_id}","Version":"{version}",{described}"RuleCombiningAlgId":'
            f'"urn:oasis:names:tc:xacml:3.0:rule-combining-algorithm:deny-overrides","Rule":[{rules}]}}}}')


def policy(effect="Permit", policy_id="urn:p", version="1.0", description=None):
    """A policy of one rule, with that effect."""
    return policy_of(f'{{"RuleId":"r","Effect":"{effect}"}}', policy_id, version, description)


def written(value):
    return json.dumps(value, separators=(",", ":"))


def growing_policy(assignments, first="\x01" * 1_000, doublings=9):
    """The text of a policy that permits, with so many assignments of a text that is doubled so often: of one of
    512,000 bytes, each of which is six in a response."""
    def variable(number):
        return {"VariableReference": {"VariableId": f"v{number}"}}

    steps = [{"AttributeValue": {"DataType": "string", "Value": first}}]
    steps += [{"Apply": {"FunctionId": JOIN, "Expression": [variable(number)] * 2}} for number in range(doublings)]
    assigned = {"AttributeId": "a", "Expression": variable(doublings)}
    duty = {"ObligationId": "o", "FulfillOn": "Permit", "AttributeAssignmentExpression": [assigned] * assignments}
    held = json.loads(policy("Permit", f"urn:p{assignments}"))
    held["Policy"] |= {"VariableDefinition": [{"VariableId": f"v{number}", "Expression": expression}
                                              for number, expression in enumerate(steps)],
                       "ObligationExpressions": [duty]}
    return written(held)


def making(name, token, text=None, operator=OPERATOR):
    """Messages that make a domain whose root is that policy, each with its reply."""
    at = f"/domains/{name}/pap"
    return [(message("PUT", f"/operator/domains/{name}", operator), CREATED),
            (message("POST", f"/operator/domains/{name}/tokens", operator, f'{{"Role":"admin","Token":"{token}"}}'),
             DONE), (message("POST", f"{at}/policies", token, text or policy()), CREATED),
            (message("PUT", f"{at}/policy/urn:p/1.0/active", token), DONE),
            (message("PUT", f"{at}/root", token, '{"PolicyIdReference":{"Id":"urn:p"}}'), DONE)]


# ---- rows of the attribute source

SOURCE_ROW = ('{"AttributeId":"a","Category":"urn:c","DataType":"http://www.w3.org/2001/XMLSchema#string",'
              '"Entity":"e","Value":"%s"}')


def rows_of(*values):
    """The body that has a row with each of these values."""
    return '{"Row":[%s]}' % ",".join(SOURCE_ROW % value for value in values)


def rows_body(length):
    """A body of so many bytes: rows with 1,800 letters each, and behind them one that takes the rest."""
    values = ["x" * 1_800] * (length // 2_000)
    body = rows_of(*values, "y" * (length - len(rows_of(*values, ""))))
    assert len(body) == length
    return body
