"""Where messages lead: paths and the methods that each of them knows, the media types of bodies, and the domains
whose messages they are."""
import collections
from urllib.parse import unquote_to_bytes

from messages import values_of
from replies import Error
from rows import decoded, encoded

# what is asked for by the methods at each path, in which `{..}` stands for any part
TABLE = {
    "/operator/domains": {"GET": "domains"},
    "/operator/domains/{domain}": {"PUT": "create", "DELETE": "remove"},
    "/operator/domains/{domain}/tokens": {"POST": "put", "DELETE": "drop"},
    "/domains/{domain}/pdp": {"POST": "decide"},
    "/domains/{domain}/pap/policies": {"POST": "upload", "GET": "list"},
    "/domains/{domain}/pap/{kind}/{id}/{version}": {"GET": "document", "DELETE": "delete"},
    "/domains/{domain}/pap/{kind}/{id}/{version}/active": {"PUT": "activate", "DELETE": "deactivate"},
    "/domains/{domain}/pap/root": {"PUT": "root"},
    "/domains/{domain}/pip": {"PUT": "source", "GET": "rows"},
}
OF_OPERATOR = ("domains", "create", "remove", "put", "drop")
WITH_BODY = ("put", "drop", "decide", "upload", "root", "source")
# what changes nothing that is kept
READING = ("domains", "decide", "list", "document", "rows")
MEDIA = (b"application/json", b"application/xacml+json")
LETTERS = b"abcdefghijklmnopqrstuvwxyz0123456789"
# what is asked for, and the parts of the path by their names, percent-decoded
Route = collections.namedtuple("Route", "command parts")


def path_of(target):
    """The parts of the target's path as they are written; None where it has no path, or one with an empty part."""
    try:
        path = target.decode().split("?")[0]
    except UnicodeDecodeError:
        return None
    if path.startswith("http://"):
        path = "/".join(["", *path.split("/")[3:]])
    before, *parts = path.split("/")
    return parts if not before and all(parts) else None


def named(pattern, parts):
    """The parts that the pattern names, percent-decoded; None where the path is another one."""
    wanted = pattern.split("/")[1:]
    if len(parts) != len(wanted) or any(it != part for it, part in zip(wanted, parts) if it[0] != "{"):
        return None
    return {it[1:-1]: unquote_to_bytes(part) for it, part in zip(wanted, parts) if it[0] == "{"}


def place_of(target):
    """The methods that the target's path knows, each with what it asks for, and the parts that it names; None
    where it isn't known."""
    parts = path_of(target)
    for pattern, commands in TABLE.items() if parts else ():
        found = named(pattern, parts)
        if found is not None:
            return commands, found
    return None


def is_domain_name(held):
    """Whether the bytes may name a domain: 1 to 32 small letters, digits and `-`, not first."""
    return 1 <= len(held) <= 32 and held[0] in LETTERS and all(byte in LETTERS + b"-" for byte in held)


def owner(message):
    """The name of the domain that the message's path names, or None."""
    place = place_of(message.target)
    name = place[1].get("domain", b"") if place else b""
    return name.decode() if is_domain_name(name) else None


def is_json(fields):
    """Whether the fields don't say of what media type the body is, or say once that it is JSON."""
    media = [value.split(b";")[0].strip(b" \t").lower() for value in values_of(b"content-type", fields)]
    return not media or len(media) == 1 and media[0] in MEDIA


def route_of(message):
    """What the message asks for."""
    place = place_of(message.target)
    if place is None:
        raise Error("NoRoute")
    commands, parts = place
    command = commands.get(message.method.decode())
    if command is None:
        raise Error("BadMethod", f"Allow: {', '.join(sorted(commands))}\r\n")
    if command in WITH_BODY and not is_json(message.fields):
        raise Error("BadMediaType")
    return Route(command, parts)


def asks_for_change(message):
    """Whether the message has a route that changes something that is kept, whoever sends it."""
    try:
        return route_of(message).command not in READING
    except Error:
        return False


def route(method, target):
    """The answer to a row: what a message of that method and target asks for, of which domain,
    and of which document."""
    place = place_of(decoded(target))
    if place is None:
        return ["!NoRoute"]
    commands, parts = place
    command = commands.get(decoded(method).decode("latin-1"))
    if command is None:
        return ["!BadMethod"]
    first = f"{command}:{encoded(parts['domain'])}" if "domain" in parts else command
    return [first] + [encoded(parts[name]) for name in ("kind", "id", "version") if name in parts]
