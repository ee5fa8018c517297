"""Examples of messages with their replies, as docs/guide/openapi.yaml and docs/guide/API.md have them."""
import collections
import re

from yaml_part import Wrong

from .routes import CODES, DECISIONS, PHRASES

OPENAPI, PAGE = "docs/guide/openapi.yaml", "docs/guide/API.md"

# `route` is the method and the path's template, or nothing where the path or the method is not served; `head` are the
# lines of the request's head; `body` is None where there is none. `reply` is all bytes that come back.
Example = collections.namedtuple("Example", "name route state head body reply")
# A step of a state: an example, with this text in place of that one.
Step = collections.namedtuple("Step", "example old new")
# The states by their names, each a list of steps, and the examples by theirs.
Pages = collections.namedtuple("Pages", "states examples")


def need(holds, said):
    if not holds:
        raise Wrong(said)


def spread(text):
    """The text with what stands there for a repetition: `(x repeated 3 times)` is `xxx`."""
    return re.sub(r"\((.+?) repeated (\d+) times\)", lambda found: found[1] * int(found[2]), text)


def request_head(method, target, token, media, body):
    """The lines of the head that an example's request has, where the pages don't write it out."""
    lines = [f"{method} {target} HTTP/1.1", "Host: pdp.example"]
    if token is not None:
        lines.append(f"Authorization: Bearer {token}")
    if body is not None:
        lines += [f"Content-Type: {media}", f"Content-Length: {len(body.encode())}"]
    return lines


def reply_bytes(status, media, fields, body):
    lines = [f"HTTP/1.1 {status} {PHRASES[status]}", f"Content-Type: {media}",
             f"Content-Length: {len(body.encode())}", *fields]
    return ("\r\n".join(lines) + "\r\n\r\n" + body).encode()


def error_body(code):
    return f'{{"Error":"{code}"}}'


def error_reply(code, fields=()):
    return reply_bytes(CODES[code], "application/json", fields, error_body(code))


def response_body(decision, status):
    """The response of one result without obligations, advice and attributes."""
    code = f'{{"StatusCode":{{"Value":"urn:oasis:names:tc:xacml:1.0:status:{status}"}}}}'
    return f'{{"Response":[{{"Decision":"{decision}","Status":{code}}}]}}'


def bytes_of(head, body):
    return ("\r\n".join(head) + "\r\n\r\n" + (body or "")).encode()


def media_of_replies(path):
    return "application/xacml+json" if path == DECISIONS else "application/json"


def fits(target, path):
    """Whether the target is one of the path's template."""
    return re.fullmatch(re.sub(r"\{\w+\}", "[^/?]+", path), target) is not None


def token_in(head):
    return next((line.rpartition(" ")[2] for line in head if line.startswith("Authorization: ")), None)


def by_name(page, states, examples):
    named = {example.name: example for example in examples}
    need(len(named) == len(examples), f"{page}: two examples of one name")
    for example in examples:
        need(example.state in states, f"{page}: the state of {example.name}")
    for name, steps in states.items():
        need(all(step.example in named for step in steps), f"{page}: a message of the state {name}")
    return named
