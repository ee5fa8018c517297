"""The bytes of replies (RFC 9112, section 4): a status line, the media type, the length, and a body of JSON."""
import json

# the phrase of each status (RFC 9110, section 15), and the status of each error
PHRASES = {
    200: "OK", 201: "Created", 400: "Bad Request", 401: "Unauthorized", 403: "Forbidden", 404: "Not Found",
    405: "Method Not Allowed", 409: "Conflict", 413: "Payload Too Large", 415: "Unsupported Media Type",
    431: "Request Header Fields Too Large", 501: "Not Implemented", 503: "Service Unavailable",
}
STATUSES = {
    "BadHead": 400, "BadDomain": 400, "NotJson": 400, "MissingMember": 400, "UnknownMember": 400, "BadValue": 400,
    "IllTyped": 400, "UnknownAlgorithm": 400, "TooLarge": 400, "Unauthorized": 401, "Forbidden": 403, "NoRoute": 404,
    "Absent": 404, "BadMethod": 405, "Exists": 409, "Quota": 409, "SameVersionOtherText": 409, "StillActive": 409,
    "BodyTooLarge": 413, "BadMediaType": 415, "HeadTooLarge": 431, "TransferCoding": 501, "Unavailable": 503,
}


def reply(status, body, media="json", line=""):
    """The bytes of a reply, which may have a line more in its head."""
    head = (f"HTTP/1.1 {status} {PHRASES[status]}\r\nContent-Type: application/{media}\r\n"
            f"Content-Length: {len(body)}\r\n{line}\r\n")
    return head.encode() + body


def compact(value):
    """The JSON of the value without white space, the members of its objects in the order of their names."""
    return json.dumps(value, ensure_ascii=False, sort_keys=True, separators=(",", ":")).encode()


def error_reply(code, line=""):
    """The reply that names the error."""
    return reply(STATUSES[code], compact({"Error": code}), line=line)


class Error(Exception):
    """Why a message is turned away; the reply may have a line more in its head."""

    def __init__(self, code, line=""):
        super().__init__(code)
        self.reply = error_reply(code, line)
