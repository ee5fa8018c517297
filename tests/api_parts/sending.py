"""How the examples are sent, each to a fresh server, and beside them the errors that routes share."""
import re
import resource
import subprocess
import sys

from checks import Checks, program_named

from .examples import bytes_of, error_body, error_reply, need, request_head, token_in
from .routes import CODES, FIELDS, ROUTES, methods_of, name_of

PROGRAM = program_named(sys.argv[1:])
OPERATOR_TOKEN, ADMIN_TOKEN, ASK_TOKEN = "operator-token-1", "acme-admin-1", "acme-asks-1"
WHOSE = {OPERATOR_TOKEN: "operator", ADMIN_TOKEN: "admin", ASK_TOKEN: "ask"}
# The moment at which all examples are sent, as it stands in replies.
MOMENT, MOMENT_TEXT = 1795428000, "2026-11-23T10:00:00Z"


# ---- how messages are sent: the one place that knows the program. A transport over a socket to `pdpd serve` has the
# same two attributes.

class Replay:
    """`pdpd replay`: all messages are entries of one transcript on standard input."""

    # whether the moment of a message is ours to say; where it isn't, a moment in an expected reply stands for any
    says_the_moment = True

    def exchange(self, messages, memory=None):
        """What a fresh server replies to these messages, sent one after another on one connection; with at most that
        many bytes of memory."""
        transcript = b"".join(b"0 %d %d\n%s\n" % (MOMENT, len(message), message) for message in messages)
        limited = memory and (lambda: resource.setrlimit(resource.RLIMIT_AS, (memory, memory)))
        ran = subprocess.run([PROGRAM, "replay", OPERATOR_TOKEN], input=transcript, capture_output=True, timeout=60,
                             preexec_fn=limited)
        replies, at = [], 0
        while ran.returncode == 0 and at < len(ran.stdout):
            found = re.compile(rb"0 (\d+)\n").match(ran.stdout, at)
            end = found.end() + int(found[1])
            replies.append(ran.stdout[found.end():end])
            at = end + 1
        return replies


TRANSPORT = Replay()
checks = Checks("tests/api.py")


def is_reply(found, wanted):
    """Whether that is the reply, but for what the clock decides."""
    if TRANSPORT.says_the_moment:
        return found == wanted
    pattern = re.escape(wanted).replace(re.escape(MOMENT_TEXT.encode()), rb"\d{4}-\d\d-\d\dT\d\d:\d\d:\d\dZ")
    return re.fullmatch(pattern, found, re.S) is not None


def expect(what, messages, wanted):
    """A fresh server gives these replies to these messages."""
    found = TRANSPORT.exchange(messages)
    if len(found) == len(wanted) and all(map(is_reply, found, wanted)):
        checks.count += 1
        return
    place = next((place for place, pair in enumerate(zip(found, wanted)) if not is_reply(*pair)),
                 min(len(found), len(wanted)))
    # (either has no reply at that place, where there is one more of the other)
    checks.expect(f"{what}, message {place + 1} of {len(messages)}", found[place:place + 1], wanted[place:place + 1])


def stepped(pages, step):
    """The message of a step of a state, and its reply."""
    example = pages.examples[step.example]
    body = example.body
    if step.old:
        need(body.count(step.old) == 1, f"{step.old} doesn't stand once in {step.example}")
        body = body.replace(step.old, step.new)
    method, target, _ = example.head[0].split(" ")
    media = next((line.partition(": ")[2] for line in example.head if line.startswith("Content-Type: ")), None)
    return bytes_of(request_head(method, target, token_in(example.head), media, body), body), example.reply


def sent(what, pages, state, head, body, reply, behind=()):
    """Sends a message from that state; the messages before it have their replies as well, and those behind it none."""
    before = [stepped(pages, step) for step in pages.states[state]]
    messages = [message for message, _ in before] + [bytes_of(head, body), *behind]
    expect(what, messages, [reply for _, reply in before] + [reply])


# ---- what is sent

def send_examples(page, pages):
    for example in pages.examples.values():
        if error_body("Unavailable").encode() not in example.reply:
            sent(f"{page}: {example.name}", pages, example.state, example.head, example.body, example.reply)


def without_field(head, name):
    return [line for line in head if not line.startswith(name + ": ")]


def with_field(head, line):
    return without_field(head, line.partition(":")[0]) + [line]


class First:
    """The first example of a route, and how it is sent with changes."""

    def __init__(self, pages, route):
        self.pages, self.route = pages, route
        self.example = next(example for example in pages.examples.values() if example.route == name_of(route))
        self.head, self.body = self.example.head, self.example.body
        need(WHOSE[token_in(self.head)] in route.roles, f"whose token the examples of {name_of(route)} show")

    def answers(self, what, head):
        """With this head, it is answered as ever."""
        sent(f"{what} at {name_of(self.route)}", self.pages, self.example.state, head, self.body, self.example.reply)

    def fails(self, code, head, state=None, fields=None):
        """With this head, from this state, it is answered by that error."""
        fields = FIELDS.get(CODES[code], []) if fields is None else fields
        sent(f"{code} of {name_of(self.route)}", self.pages, state or self.example.state, head, self.body,
             error_reply(code, fields))

    def ends(self, code, head, body):
        """With this head and body, it is answered by that error, and nothing behind it is answered."""
        sent(f"{code} of {name_of(self.route)}", self.pages, self.example.state, head, body, error_reply(code),
             [bytes_of(self.head, self.body)])


def send_faults(first):
    head, body = first.head, first.body
    first.ends("BadHead", head + ["Accept application/json"], body)
    first.ends("HeadTooLarge", head + ["Cookie: " + "x" * 16384], body)
    first.ends("HeadTooLarge", head + [f"X-{number}: x" for number in range(65)], body)
    first.ends("TransferCoding", with_field(without_field(head, "Content-Length"), "Transfer-Encoding: chunked"), body)
    first.ends("BodyTooLarge", with_field(head, "Content-Length: 524289"), None)


def send_tokens(first):
    """No token, a wrong one, one of each other role, and each that the route has."""
    def showing(token):
        return with_field(first.head, f"Authorization: Bearer {token}")

    first.fails("Unauthorized", without_field(first.head, "Authorization"))
    first.fails("Unauthorized", showing("no-such-token"))
    if first.route.roles == ["operator"]:
        first.fails("Unauthorized", showing(ADMIN_TOKEN), "acme")
    else:
        first.fails("Unauthorized", first.head, "empty")
        first.fails("Unauthorized", showing(OPERATOR_TOKEN))
    if first.route.roles == ["admin"]:
        first.fails("Forbidden", showing(ASK_TOKEN))
    for token, role in WHOSE.items():
        if role in first.route.roles:
            first.answers(role, showing(token))


def send_media_types(first):
    if not first.route.reads_body:
        return
    first.fails("BadMediaType", with_field(first.head, "Content-Type: text/plain"))
    first.answers("no media type", without_field(first.head, "Content-Type"))
    for media in ("application/json", "application/xacml+json; charset=utf-8"):
        first.answers(media, with_field(first.head, f"Content-Type: {media}"))


def send_others(first):
    """The route's path by other methods, and a path below it."""
    target, methods = first.head[0].split(" ")[1], methods_of(first.route.path)
    for method in ("DELETE", "GET", "OPTIONS", "PATCH", "POST", "PUT"):
        if method not in methods:
            first.fails("BadMethod", [f"{method} {target} HTTP/1.1", *first.head[1:]],
                        fields=[f"Allow: {', '.join(methods)}"])
    first.fails("NoRoute", [f"{first.route.method} {target}/nothing/at/all HTTP/1.1", *first.head[1:]])


def send_shared(pages):
    """The errors that routes share, for each route: its first example, changed so that it is answered so."""
    for route in ROUTES:
        first = First(pages, route)
        for send in (send_faults, send_tokens, send_media_types, send_others):
            send(first)


def is_answered(messages, wanted):
    """Whether a fresh server gives these replies to these messages, with some amount of memory."""
    for memory in range(2 ** 20, 64 * 2 ** 20, 2 ** 18):
        try:
            if TRANSPORT.exchange(messages, memory) == wanted:
                return True
        except (OSError, subprocess.SubprocessError):
            continue
    return False


def send_short_of_memory(page, pages):
    """The example of 503: with ever more memory, some server answers the messages before and behind it as ever, and
    has no memory for this one."""
    example = next(example
                   for example in pages.examples.values() if error_body("Unavailable").encode() in example.reply)
    before = [stepped(pages, step) for step in pages.states[example.state]]
    messages = ([message for message, _ in before] + [bytes_of(example.head, example.body)]
                + [message for message, _ in before[:1]])
    wanted = [reply for _, reply in before] + [example.reply, error_reply("Exists")]
    checks.expect(f"{page}: {example.name}: an amount of memory gives that reply", is_answered(messages, wanted), True)
