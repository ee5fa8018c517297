"""Whether those certificates stand behind the clients' own that lead to an authority which clients know. The file alone
doesn't say which one that is: what stood there once is noted, and a public authority says where the next one is."""
from __future__ import annotations

import contextlib
import pathlib
import re
import shutil
import subprocess
from collections.abc import Iterator
from typing import NamedTuple

from . import applied
from .findings import Findings
from .settings import Wrong, text_of, write_whole

# a certificate in a file of several (RFC 7468)
CERTIFICATE = re.compile(r"-----BEGIN CERTIFICATE-----.*?-----END CERTIFICATE-----", re.DOTALL)
# those between that stood in the file when HAProxy read it; so many are kept
NOTED, MOST = applied.FOLDER / "between.pem", 20
# what openssl says of a certificate
ASKED = ("openssl", "x509", "-noout", "-subject", "-issuer", "-nameopt", "RFC2253", "-ext", "authorityInfoAccess")
SAYS = re.compile(r"(?m)^(subject|issuer) ?= ?(.*)$")
NEXT = re.compile(r"CA Issuers - URI: ?(\S+)")


class Certificate(NamedTuple):
    """Whose it is, who signed it, where that one's is found, and its text."""
    subject: str
    issuer: str
    place: str
    text: str


def certificates_in(path: pathlib.Path) -> Iterator[Certificate]:
    """Those of a file, as far as openssl can read them; none without it."""
    for text in CERTIFICATE.findall(text_of(path)) if path.is_file() and shutil.which("openssl") else ():
        said = subprocess.run(ASKED, input=text, capture_output=True, text=True, check=False).stdout
        names = dict(SAYS.findall(said))
        if len(names) == 2:
            yield Certificate(names["subject"], names["issuer"], next(iter(NEXT.findall(said)), ""), text)


def note(settings) -> None:
    """Notes those that stand behind the first one and aren't their own authority."""
    with contextlib.suppress(OSError, Wrong):  # (HAProxy has read them; what keeps a note away, status tells)
        found = [each.text for each in [*certificates_in(pathlib.Path(settings.certificate))][1:]
                 if each.subject != each.issuer]
        kept = [*dict.fromkeys([*found, *(each.text for each in certificates_in(NOTED))])][:MOST]
        if kept:
            write_whole(NOTED, "".join(f"{text}\n" for text in kept))


def last_of(found: list[Certificate]) -> Certificate:
    """The one at which the way from the first one ends."""
    by_subject = {each.subject: each for each in reversed(found)}
    at, left = found[0], len(found)
    while at.issuer != at.subject and at.issuer in by_subject and left:
        at, left = by_subject[at.issuer], left - 1
    return at


def is_known(path: pathlib.Path, first: Certificate) -> bool:
    """Whether this machine knows an authority to which the file leads."""
    words = ["openssl", "verify", "-untrusted", str(path)]
    return subprocess.run(words, input=first.text, capture_output=True, text=True, check=False).returncode == 0


def look(settings, findings: Findings) -> None:
    """Tells of one that isn't there."""
    path = pathlib.Path(settings.certificate)
    found = [*certificates_in(path)]
    if not found or (last := last_of(found)).issuer == last.subject:
        return
    place = next((f"it stood there before, and is in {NOTED}" for each in certificates_in(NOTED)
                  if each.subject == last.issuer), "")
    if not place and last.place and not is_known(path, found[0]):
        place = f"it is at {last.place}; one that all clients have does no harm"
    if place:
        findings.add(f"{path} hasn't the certificate of {last.issuer}, who signed that of {last.subject}: clients that "
                     f"haven't it either refuse it. Put it behind the others ({place}), then pdpd-shards reload")
