"""What the server has: its routes (crates/xa_http/specs/Table.antt) and its error codes
(crates/xa_server/specs/ErrorCode.antt and Replies.antt)."""
import collections

Route = collections.namedtuple("Route", "method path roles reads_body codes")
SHAPE = "NotJson UnknownMember MissingMember BadValue"
ROUTES = [Route(method, path, roles.split(), reads_body, codes.split()) for method, path, roles, reads_body, codes in (
    ("GET", "/operator/domains", "operator", False, ""),
    ("PUT", "/operator/domains/{domain}", "operator", False, "BadDomain Exists"),
    ("DELETE", "/operator/domains/{domain}", "operator", False, "BadDomain Absent"),
    ("POST", "/operator/domains/{domain}/tokens", "operator", True, f"BadDomain {SHAPE} Absent Quota"),
    ("DELETE", "/operator/domains/{domain}/tokens", "operator", True, f"BadDomain {SHAPE} Absent"),
    ("POST", "/domains/{domain}/pdp", "ask admin", True, "NotJson"),
    ("GET", "/domains/{domain}/pap/policies", "admin", False, ""),
    ("POST", "/domains/{domain}/pap/policies", "admin", True,
     f"TooLarge {SHAPE} UnknownAlgorithm IllTyped SameVersionOtherText Quota"),
    ("GET", "/domains/{domain}/pap/{kind}/{id}/{version}", "admin", False, "Absent"),
    ("DELETE", "/domains/{domain}/pap/{kind}/{id}/{version}", "admin", False, "Absent StillActive"),
    ("PUT", "/domains/{domain}/pap/{kind}/{id}/{version}/active", "admin", False, "Absent"),
    ("DELETE", "/domains/{domain}/pap/{kind}/{id}/{version}/active", "admin", False, "Absent"),
    ("PUT", "/domains/{domain}/pap/root", "admin", True, SHAPE),
    ("GET", "/domains/{domain}/pip", "admin", False, ""),
    ("PUT", "/domains/{domain}/pip", "admin", True, f"{SHAPE} Quota"),
)]
SUCCESSES = {"PUT /operator/domains/{domain}": {201}, "POST /domains/{domain}/pap/policies": {200, 201}}
CODES = {"BadHead": 400, "BadDomain": 400, "NotJson": 400, "MissingMember": 400, "UnknownMember": 400, "BadValue": 400,
         "IllTyped": 400, "UnknownAlgorithm": 400, "TooLarge": 400, "Unauthorized": 401, "Forbidden": 403,
         "NoRoute": 404, "Absent": 404, "BadMethod": 405, "Exists": 409, "Quota": 409, "SameVersionOtherText": 409,
         "StillActive": 409, "BodyTooLarge": 413, "BadMediaType": 415, "HeadTooLarge": 431, "TransferCoding": 501,
         "Unavailable": 503}
# Which end the connection.
FAULTS = ("BadHead", "BodyTooLarge", "HeadTooLarge", "TransferCoding")
# The phrase of each status (RFC 9110, section 15; 413 as RFC 7231 has it; RFC 6585, section 5).
PHRASES = {200: "OK", 201: "Created", 400: "Bad Request", 401: "Unauthorized", 403: "Forbidden", 404: "Not Found",
           405: "Method Not Allowed", 409: "Conflict", 413: "Payload Too Large", 415: "Unsupported Media Type",
           431: "Request Header Fields Too Large", 501: "Not Implemented", 503: "Service Unavailable"}
FIELDS = {401: ["WWW-Authenticate: Bearer"]}
DECISIONS = "/domains/{domain}/pdp"


def name_of(route):
    return f"{route.method} {route.path}"


def shared_codes(route):
    """The codes that a route has beside its own. NoRoute and BadMethod are no route's."""
    yield from FAULTS
    yield "Unauthorized"
    yield "Unavailable"
    if route.roles == ["admin"]:
        yield "Forbidden"
    if route.reads_body:
        yield "BadMediaType"


def methods_of(path):
    return sorted(route.method for route in ROUTES if route.path == path)
