"""The mapping file of an enforcement point before a server: what may stand in it, and what is wrong with one.

What pdp-nginx and pdp-haproxy share.
"""
from __future__ import annotations

import ipaddress
import json
import os
import pathlib
import re
import sys
import urllib.parse
from typing import Any, Callable, Dict, Iterable, Iterator, Tuple

NAME = pathlib.Path(sys.argv[0]).name  # of the command
FIELD = re.compile(r"[A-Za-z][A-Za-z0-9-]*")
# Fields that nginx itself sets, or that say where a message ends
NGINX_OWN = {"host", "connection", "content-length", "transfer-encoding", "upgrade", "te", "trailer", "expect"}


# Fields by which a server may take another method or path than those that were asked about, or another protocol.
REFUSED = ("x-http-method-override", "x-http-method", "x-method-override", "x-original-url", "x-rewrite-url",
           "script-name", "x-script-name", "upgrade", "http2-settings")
# What may stand in a decoded path, as a class of a regular expression: of ASCII what needs no encoding, and a space;
# else letters of Latin, Greek, Cyrillic, Hebrew, Arabic, Japanese, Chinese and Korean, which no Unicode normalization
# changes.
PLAIN = r"A-Za-z0-9\-._~!$&'()*+,=:@/ "
LETTERS = (
    r"\u00C0-\u00D6\u00D8-\u00F6\u00F8-\u0131\u0134-\u013E\u0141-\u0148\u014A-\u017E\u0386-\u0386\u0388-\u038A"
    r"\u038C-\u038C\u038E-\u03A1\u03A3-\u03CE\u0400-\u0481\u048A-\u052F\u05D0-\u05EA\u0621-\u064A\u3041-\u3096"
    r"\u30A1-\u30FA\u4E00-\u9FFF\uAC00-\uD7A3")


BYTE = r"\x"  # with two digits, as a regular expression has it


def coded(characters: str) -> str:
    """A regular expression of one of some characters, as it stands in a form or encoded, also as ASP.NET decodes it."""
    return f"(?:{'|'.join(f'{before}{ord(each):02x}' for each in characters for before in (BYTE, '%', '%u00'))})"


def coded_word(word: str) -> str:
    return "".join(coded(each + each.upper()) for each in word)


# The name of a field of a form by which a server may take another method, as `_method`, `a[_method]` or
# `X-HTTP-Method-Override`: among fields that are written as a query, and in the head of a part, where a name may also
# be written so that some readers find another one. Without regard to small letters and capitals.
# (Each blank matches in one way, 40 of them are refused, and of what stands before a bracket 200 characters count: so
# no form takes long to look at.)
BLANK = r"(?:\s|\+|%(?:u00)?(?:20|2b))"
NAMES_METHOD = (f"(?:{BLANK}{{40}}|{BLANK}{{0,39}}(?:{coded('_. +')}|{coded_word('x')}{coded('-_. +')}"
                f"(?:{coded_word('http')}{coded('-_. +')})?){coded_word('method')})")
FIELD_NAMES_METHOD = f"(?:^|[&;?])(?:[^&;?=]{{0,200}}{coded('[')})?{NAMES_METHOD}"
PART_NAMES_METHOD = f"(?:^|[^a-z])name\\s*(?:\\*|=\\s*[\"']?{NAMES_METHOD})|{coded('[')}{NAMES_METHOD}|=\\?"


def is_text(held: object) -> bool:
    return isinstance(held, str) and bool(held) and not re.search(r"[\x00-\x1f\x7f\ud800-\udfff]", held)


def is_url(held: object) -> bool:
    """An address of a server without a path, that nginx takes as it stands."""
    if not isinstance(held, str) or not re.fullmatch(r"https?://[A-Za-z0-9.\-:\[\]]+", held):
        return False
    try:
        found = urllib.parse.urlsplit(held)
        return bool(found.hostname) and found.port != 0
    except ValueError:
        return False


def is_address(held: object) -> bool:
    try:
        return isinstance(held, str) and str(ipaddress.ip_address(held)) == held
    except ValueError:
        return False


def is_path(held: object) -> bool:
    """A path that nginx takes as it stands; one that is relative begins in the folder of the mapping file."""
    return isinstance(held, str) and re.fullmatch(r"[A-Za-z0-9._/@+-]+", held) is not None


def is_field(held: object) -> bool:
    return isinstance(held, str) and FIELD.fullmatch(held) is not None and held.lower() not in NGINX_OWN


def is_domain(held: object) -> bool:
    return isinstance(held, str) and re.fullmatch("[a-z0-9][a-z0-9-]{0,31}", held) is not None


def each(holds: Callable[[object], bool]) -> Callable[[object], bool]:
    return lambda held: isinstance(held, list) and all(map(holds, held))


def table(key: Callable[[object], bool], value: Callable[[object], bool]) -> Callable[[object], bool]:
    return lambda held: isinstance(held, dict) and all(key(name) and value(held[name]) for name in held)


def is_action(held: object) -> bool:
    return isinstance(held, dict) and bool(held) and table(
        lambda name: isinstance(name, str) and re.fullmatch("[A-Z]{1,20}", name) is not None, is_text)(held)


# The members of each object: whether one has to be there, what it may be, and the words for that.
Members = Dict[str, "tuple[bool, Callable[[object], bool], str]"]
MAP: Members = {
    "Server": (True, is_url, "the address of the server, as http://127.0.0.1:8080"),
    "Domain": (True, is_domain, "the name of a domain"),
    "TokenFile": (True, is_path, "the path of a file, whose first line is a token of the role ask"),
    "CaFile": (False, is_path, "the path of the certificates that are trusted for https"),
    "KeptConnections": (False, lambda held: isinstance(held, int) and not isinstance(held, bool) and 0 <= held <= 1000,
                        "how many connections each worker keeps open to the server: 0 to 1000"),
    "Protects": (True, is_url, "the address of the server that is protected"),
    "Location": (True, lambda held: is_path(held) and re.fullmatch("/(.*/)?", str(held)) is not None,
                 "a path that begins and ends with a slash"),
    "Subject": (True, lambda held: isinstance(held, dict), "an object"),
    "Resource": (False, table(is_text, is_text), "an object of attribute ids and texts"),
    "Action": (True, is_action, "an object of methods and action ids"),
    "Delete": (False, each(is_field), "a list of fields that are deleted from what a client sends"),
    "Forms": (False, lambda held: isinstance(held, bool),
              "true or false: whether forms are looked at for another method, as they are without it"),
    "Obligations": (False, table(is_text, lambda held: isinstance(held, dict)), "an object of ids and objects"),
}
SUBJECT: Members = {
    "Header": (False, is_field, "the name of a field; the protected server gets the subject in it"),
    "FromAddress": (False, each(is_address), "a list of addresses of proxies that may send the field"),
    "FromCertificate": (False, each(is_text), "a list of the subjects of certificates of such proxies"),
    "Certificate": (False, lambda held: isinstance(held, bool), "true or false"),
}
OBLIGATION: Members = {
    "Log": (False, is_path, "the path of a file"),
    "Header": (False, is_field, "the name of a field of the reply"),
    "Value": (False, is_text, "the id of an attribute of the obligation"),
}


def of_object(where: str, held: Dict[str, Any], members: Members) -> Iterator[str]:
    """What is wrong with the members of an object."""
    for name in held:
        if name not in members:
            yield f"{where}{name} isn't known: {', '.join(members)}"
        elif not members[name][1](held[name]):
            yield f"{where}{name} isn't {members[name][2]}"
    yield from (f"{where}{name} is missing: {members[name][2]}" for name in members
                if members[name][0] and name not in held)


def faults(held: Any) -> Iterator[str]:
    """What is wrong with a mapping file."""
    if not isinstance(held, dict):
        yield "the file isn't an object"
        return
    yield from of_object("", held, MAP)
    subject = held.get("Subject")
    if isinstance(subject, dict):
        yield from of_object("Subject.", subject, SUBJECT)
        proxies = bool(subject.get("FromAddress") or subject.get("FromCertificate"))
        if "Header" not in subject:
            yield "Subject.Header is missing: in it the protected server gets the subject, and a client's own is deleted"
        if not proxies and not subject.get("Certificate"):
            yield ("Subject names nobody who may say who asks: FromAddress or FromCertificate for a proxy that sends "
                   "the field, or Certificate true for the client's own certificate")
    for name, how in (held["Obligations"] if isinstance(held.get("Obligations"), dict) else {}).items():
        if isinstance(how, dict):
            yield from of_object(f"Obligations.{name}.", how, OBLIGATION)
            if ("Log" in how) == ("Header" in how):
                yield f"Obligations.{name} needs either Log or Header"
    if isinstance(held.get("Server"), str) and held["Server"].startswith("https:") and "CaFile" not in held:
        yield "CaFile is missing: without it nginx wouldn't look at the server's certificate"


def address_of(url: str) -> str:
    """The host and the port of a server's address."""
    at = urllib.parse.urlsplit(url)
    return at.netloc if at.port else f"{at.netloc}:{443 if at.scheme == 'https' else 80}"


def unique(pairs: Any) -> Dict[str, Any]:
    """An object, in which no member stands twice."""
    held = dict(pairs)
    if len(held) != len(pairs):
        raise ValueError(f"a member stands twice among {', '.join(name for name, _ in pairs)}")
    return held


def place_paths(held: Dict[str, Any], folder: pathlib.Path) -> None:
    """Makes the paths of a mapping file whole."""
    refuse_folder(folder)
    for members, name in ((held, "TokenFile"), (held, "CaFile"),
                          *((how, "Log") for how in held.get("Obligations", {}).values())):
        if name in members:
            members[name] = str(folder / members[name])


def refuse_folder(folder: pathlib.Path) -> None:
    """Ends if a folder has a name that a configuration may read otherwise."""
    if not is_path(str(folder)):
        raise SystemExit(f"{NAME}: {folder} has a character that a configuration may read otherwise: choose another "
                         "folder")


def token_of(path: str) -> str:
    with open(path, encoding="latin-1") as lines:
        token = lines.readline(1000).rstrip("\r\n")
    if not re.fullmatch(r"[!-~]{8,64}", token):
        raise SystemExit(f"{NAME}: {path} holds no token (8 to 64 visible ASCII characters)")
    if re.search(r'["\\$;{}]', token):
        raise SystemExit(f"{NAME}: the token in {path} has one of \" \\ $ ; {{ }}, which a configuration reads "
                         "otherwise: give the domain another")
    return token


def mapped(held: Dict[str, Any]) -> Dict[str, Any]:
    """What the script that asks needs of a mapping file. An obligation that is shown in a field has a variable."""
    obligations = {name: dict(how) for name, how in held.get("Obligations", {}).items()}
    for number, how in enumerate(how for how in obligations.values() if "Header" in how):
        how["Variable"] = f"pdp_field_{number}"
    return {"Subject": {"FromAddress": [], "FromCertificate": [], "Certificate": False, **held["Subject"]},
            "Resource": held.get("Resource", {}), "Action": held["Action"], "Obligations": obligations,
            "Refused": list(REFUSED), "Forms": held.get("Forms", True)}


def fields_shown(held: Dict[str, Any]) -> Iterator[Tuple[str, str]]:
    """The fields of a reply that obligations set, each with its variable."""
    return ((how["Header"], how["Variable"]) for how in mapped(held)["Obligations"].values() if "Header" in how)


def run(usage: str, write: Callable[[Dict[str, Any], str, pathlib.Path], None],
        further: Callable[[Dict[str, Any]], Iterable[str]] = lambda _: ()) -> int:
    """Checks a mapping file, and writes the configuration of it, as the words of the command line say."""
    words = sys.argv[1:]
    if (words[:1], len(words)) not in ((["check"], 2), (["write"], 3)):
        print(usage, file=sys.stderr)
        return 2
    try:
        held = json.loads(pathlib.Path(words[1]).read_bytes(), object_pairs_hook=unique)
        found = list(faults(held)) or list(further(held))
        if not found:
            place_paths(held, pathlib.Path(words[1]).resolve().parent)
        token = "" if found else token_of(held["TokenFile"])
    except (OSError, ValueError, RecursionError) as fault:
        print(f"{NAME}: {words[1]}: {fault}", file=sys.stderr)
        return 2
    for sentence in found:
        print(f"{words[1]}: {sentence}")
    print(f"{words[1]}: {len(found)} faults")
    if words[0] == "write" and not found:
        folder = pathlib.Path(words[2]).resolve()
        refuse_folder(folder)
        folder.mkdir(parents=True, exist_ok=True)
        write(held, token, folder)
    return 1 if found else 0


def put(path: pathlib.Path, text: str, mode: int = 0o644) -> None:
    """Writes a file as a whole."""
    made = path.with_name(f"{path.name}.new")
    made.unlink(missing_ok=True)
    with os.fdopen(os.open(made, os.O_WRONLY | os.O_CREAT | os.O_EXCL, mode), "w", encoding="utf-8") as out:
        out.write(text)
    made.replace(path)
