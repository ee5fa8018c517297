"""What the two pages have to cover: every route, status and error code, by the same examples."""
import collections
import json
import pathlib
import re

from yaml_part import Wrong

from .examples import OPENAPI, PAGE, error_reply, need
from .openapi import operations
from .page import code_spans, table_after
from .routes import CODES, ROUTES, SUCCESSES, methods_of, name_of, shared_codes

CRATES = pathlib.Path(__file__).resolve().parent.parent.parent / "crates"


def definitions(path):
    return (CRATES / path).read_text(encoding="utf-8")


def check_tables():
    """The lists of routes and codes are those of the definitions."""
    of_definitions = "of crates/{} are others than those of tests/api_parts/routes.py"
    table = definitions("xa_http/specs/Table.antt")
    patterns = re.findall(r'\(codes "(/[^"]*)",\s+place\.', table)
    need(sorted(patterns) == sorted({route.path for route in ROUTES}),
         "the paths " + of_definitions.format("xa_http/specs/Table.antt"))
    # a row goes on in the lines that are indented
    commands = re.findall(r"^commands place\.\w+ =(.*(?:\n +.*)*)", table, re.M)
    methods = [[method.upper() for method in re.findall(r"\((\w+),\s+asks\.", row)] for row in commands]
    need(sorted(methods) == sorted(methods_of(path) for path in set(patterns)),
         "the methods " + of_definitions.format("xa_http/specs/Table.antt"))
    codes = re.findall(r'row \(codes "(\w+)"\)', definitions("xa_server/specs/ErrorCode.antt"))
    need(sorted(codes + ["Unavailable"]) == sorted(CODES),
         "the codes " + of_definitions.format("xa_server/specs/ErrorCode.antt"))


def codes_by_status(route):
    """The statuses that a route has, each with its codes."""
    found = collections.defaultdict(set)
    for code in (*route.codes, *shared_codes(route)):
        found[CODES[code]].add(code)
    for status in SUCCESSES.get(name_of(route), {200}):
        found[status] = set()
    return found


def check_operation(operation, route):
    """An operation has the roles, the body, the statuses and the codes of its route."""
    name, wanted = name_of(route), codes_by_status(route)
    need([list(each.values()) for each in operation["security"]] == [[[role]] for role in route.roles],
         f"{OPENAPI}: the roles of {name}")
    need(("requestBody" in operation) == route.reads_body, f"{OPENAPI}: the body of {name}")
    need(sorted(operation["responses"]) == sorted(map(str, wanted)),
         f"{OPENAPI}: the statuses of {name}: {sorted(operation['responses'])}")
    for status, codes in wanted.items():
        response = operation["responses"][str(status)]
        if "$ref" in response:
            need({f"#/components/responses/{code}" for code in codes} == {response["$ref"]},
                 f"{OPENAPI}: {status} of {name}")
        elif codes:
            listed = response["content"]["application/json"]["schema"]["properties"]["Error"]["enum"]
            need(sorted(listed) == sorted(codes), f"{OPENAPI}: the codes of {status} of {name}: {listed}")


def check_examples(examples, route):
    """A route has an example of each code that is its own, and of each success."""
    name = name_of(route)
    replies = [example.reply for example in examples.values() if example.route == name]
    for code in route.codes:
        need(error_reply(code) in replies, f"{name} has no example of {code}")
    for status in SUCCESSES.get(name, {200}):
        need(any(reply.startswith(b"HTTP/1.1 %d " % status) for reply in replies),
             f"{name} has no example of {status}")


def check_shared(components):
    """The replies that routes share are those of their codes, each with an example; and the schema of errors has all
    codes."""
    shared = components["responses"]
    need(sorted(shared) == sorted({code for route in ROUTES for code in shared_codes(route)}
                                  | {"NoRoute", "BadMethod"}), f"{OPENAPI}: shared replies")
    for code, response in shared.items():
        content = response["content"]["application/json"]
        need(content["schema"]["properties"]["Error"]["enum"] == [code], f"{OPENAPI}: the codes of the reply {code}")
        need([example["value"] for example in content["examples"].values()] == [{"Error": code}],
             f"{OPENAPI}: one example of the reply {code}")
    need(sorted(components["schemas"]["Error"]["properties"]["Error"]["enum"]) == sorted(CODES),
         f"{OPENAPI}: the codes of the schema Error")


def check_openapi(page, examples):
    """Each route, its roles, each status and each code that it has, and an example of each that is its own."""
    found = {f"{method} {path}": operation for method, path, operation in operations(page)}
    need(list(found) == [name_of(route) for route in ROUTES], f"{OPENAPI}: the operations are {list(found)}")
    for route in ROUTES:
        check_operation(found[name_of(route)], route)
        check_examples(examples, route)
    check_shared(page["components"])


def check_page(text, routes):
    need(routes == [name_of(route) for route in ROUTES], f"{PAGE}: the routes are {routes}")
    listed = [(code_spans(row[0])[0], row[1].split(", ")) for row in table_after(text, "| Route |")]
    need(listed == [(name_of(route), route.roles) for route in ROUTES], f"{PAGE}: the table of routes")
    rows = {code_spans(row[0])[0]: int(row[1]) for row in table_after(text, "| Code | Status |")}
    need(rows == CODES,
         f"{PAGE}: the table of error codes has other codes or statuses: {set(rows.items()) ^ set(CODES.items())}")


def value_of(body):
    """A body as a value; as it is, where it is no JSON."""
    try:
        return json.loads(body)
    except (TypeError, ValueError):
        return body


def without_length(head):
    return [line for line in head if not line.startswith("Content-Length: ")]


def compared(example):
    """What both pages have alike of an example: a page lays out JSON as it likes, so bodies are values, and heads have
    no lengths."""
    head, _, body = example.reply.decode().partition("\r\n\r\n")
    return (example.route, example.state, without_length(example.head), value_of(example.body),
            without_length(head.split("\r\n")), value_of(body))


def check_same(one, other):
    """Both pages have the same states and the same examples."""
    need(one.states == other.states, f"the states of {OPENAPI} and {PAGE} differ: "
                                     f"{[name for name in one.states if one.states[name] != other.states.get(name)]}")
    for name in sorted(one.examples.keys() ^ other.examples.keys()):
        raise Wrong(f"the example {name} is in {OPENAPI if name in one.examples else PAGE} alone")
    for name, example in one.examples.items():
        first, second = compared(example), compared(other.examples[name])
        need(first == second, f"the example {name} differs:\n  {first}\n  {second}")
