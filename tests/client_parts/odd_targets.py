"""Targets of requests that one server may read as another path than the next does, such readings, and what is always
refused with 400."""
import os
import re
import unicodedata
import urllib.parse


def odd_targets():
    """Targets that one server may read as a path under /open, and another as one under /closed, or the reverse."""
    ups = ["..", ".%2e", "%2e%2e", "%2E.", "..;", "..;x=1", "%252e%252e", "..%00", "..%20", ".. ", "．．",
           "%c0%ae%c0%ae",
           "%u002e%u002e", "..\\", "%uff0e%uff0e", "%ef%bc%8e%ef%bc%8e", "...", ".", "%2e", "..%c0%80", "..%e2%80%8b"]
    slashes = ["/", "//", "%2f", "%2F", "\\", "%5c", "%5C", "%252f", "/./", "/;/", ";/", "%c0%af", "%e2%88%95",
               "%ef%bc%8f"]
    for up in ups:
        for slash in slashes:
            yield f"/open{slash}{up}{slash}closed/x"
    for slash in slashes:
        yield from (f"/open/x{slash}..{slash}..{slash}closed", f"{slash}closed/x", f"/open{slash}/closed",
                    f"/closed{slash}..{slash}open/x")
    yield from (f"/open/x{more}" for more in (
        ";/../closed", "%00", "%0a", "%0d%0aX: y", "%7f", "%23", "%3f", "%25", "%", "%4", "%zz", "%41", "%2fx",
        "\udc80", "\udcff",
        "#/closed", "|", "<", ">", "\"", "^", "`", "{", "}", "%ff", "%ed%a0%80", "%ef%bb%bf", "%cc%81", "e%cc%81"))
    yield from ("http://app.example/closed/x", "http://app.example/open/../closed", "*", "open/x", "",
                "//app.example/closed",
                "http:///closed", "/%6fpen/x", "/%63losed/x", "/OPEN/../closed/x", "/closed/x?/open/x",
                "/closed/x#/open")


READINGS = [urllib.parse.unquote, lambda path: urllib.parse.unquote(urllib.parse.unquote(path)),
            lambda path: re.sub("/+", "/", path), lambda path: path.replace("\\", "/"),
            lambda path: re.sub(";[^/]*", "", path), lambda path: urllib.parse.urljoin("http://x/", path)[8:],
            lambda path: unicodedata.normalize("NFKC", urllib.parse.unquote(path)),
            lambda path: "/" + os.path.normpath(urllib.parse.unquote(path)).strip("/")]

REFUSED_TARGETS = (
    "/open//x", "/open/./x", "/open/../open/x", "/open/.", "/open/..", "/open/%2e/x", "/open/x%2fy", "/open/x%5cy",
    "/open/x\\y", "/open/x;a=b", "/open/x%3ba", "/open/%25", "/open/%61", "/open/%00", "/open/%0a", "/open/%ef%ac%81",
    "/open/e%cc%81", "/open/%e2%80%8b", "/open/%ff", "/open/%c0%ae", "/open/%ed%a0%80", "/open/|")
REFUSED_FIELDS = (
    "X-HTTP-Method-Override: POST", "X-HTTP-Method: POST", "X-Method-Override: POST", "Upgrade: websocket",
    "Upgrade: h2c", "HTTP2-Settings: x", "X-Original-URL: /closed", "x-rewrite-url: /closed",
    "Script-Name: /open", "X-Script-Name: /open")
REFUSED_QUERIES = ("_method=POST", "a=1&_method=DELETE", "_METHOD=PUT", "a;_method=PUT", "%5fmethod=PUT",
                   "%5F%6dethod=PUT", "_method[]=PUT", "+_method=PUT", "a=b?_method=PUT", ".method=PUT",
                   "X-HTTP-Method-Override=PUT", "a=1&x-http-method%2doverride=PUT", "x_http_method=PUT",
                   "X-Method-Override=PUT", "%u005fmethod=PUT", "%U0058-http-method=PUT", "a[_method]=PUT",
                   "a%5B%5Fmethod%5d=PUT", "a[b][_method]=PUT")
