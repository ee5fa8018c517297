"""The examples of docs/guide/openapi.yaml."""
import json

from .examples import OPENAPI, Example, Pages, Step, by_name, fits, need, reply_bytes, request_head, spread
from .routes import CODES


def compact(value):
    """A value as the server writes it; a text stands for itself."""
    return value if isinstance(value, str) else json.dumps(value, separators=(",", ":"), ensure_ascii=False)


def openapi_steps(items, states):
    """The steps of a state: those of another, an example, or an example several times with numbers."""
    for item in items:
        if isinstance(item, dict):
            for number in range(item["from"], item["to"] + 1):
                yield Step(item["example"], item["replace"], item["by"].replace("{n}", str(number)))
        elif item in states:
            yield from states[item]
        else:
            yield Step(item, "", "")


def openapi_example(name, example, operation, method, path, status, media, fields):
    """The example of a reply, with the request that it names; where that names no body, it has the operation's request
    example of the same name."""
    need("x-request" in example, f"{OPENAPI}: the example {name} has no x-request")
    request = example["x-request"]
    if "head" in request:
        head, body = [spread(line) for line in request["head"]], request.get("body")
        body = body if body is None else spread(body)
    else:
        asked = next(iter(operation.get("requestBody", {}).get("content", {}).items()), (None, {}))
        body = request["body"] if "body" in request else asked[1].get("examples", {}).get(name, {}).get("value")
        body = body if body is None else spread(compact(body))
        head = request_head(method, request["target"], request["token"], asked[0], body)
        need(fits(request["target"], path), f"{OPENAPI}: the example {name} isn't of {path}")
    route = f"{method} {path}" if path else None
    return Example(name, route, request["from"], head, body,
                   reply_bytes(status, media, fields, compact(example["value"])))


def openapi_examples(responses, operation, method, path):
    """The examples of these replies, each with its status."""
    for status, response in responses:
        fields = [f"{field}: {header['example']}"
                  for field, header in response.get("headers", {}).items() if "example" in header]
        for media, content in response.get("content", {}).items():
            for name, example in content.get("examples", {}).items():
                yield openapi_example(name, example, operation, method, path, int(status), media, fields)


def operations(page):
    """Each operation with its method and its path."""
    for path, item in page["paths"].items():
        for method, operation in item.items():
            if method in ("get", "put", "post", "delete"):
                yield method.upper(), path, operation


def read_openapi(page):
    states, examples = {}, []
    for name, state in page["x-states"].items():
        states[name] = list(openapi_steps(state["messages"], states))
    for method, path, operation in operations(page):
        own = [(status, response) for status, response in operation["responses"].items() if "$ref" not in response]
        examples += openapi_examples(own, operation, method, path)
    shared = page["components"]["responses"]
    examples += openapi_examples([(CODES[code], response) for code, response in shared.items()], {}, None, None)
    return Pages(states, by_name(OPENAPI, states, examples))
