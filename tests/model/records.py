"""What a repository of records answers to changes and readings, one after another, of which the first finds no domain.

A change alters one domain, or is refused and alters nothing. Each domain has a number, which no other ever has, and an
epoch, which rises by one with each change of what decides: of its documents, of which of them are active, of its root,
of its source of attributes.
"""
import copy

from documents import DocumentFault
from linking import active_of
from route_bodies import reference_shown, rows_of, rows_shown
from routes import is_domain_name
from rows import decoded, encoded, text_of
from versions import NoVersion, numbers, reference_of

MOST_TOKENS, MOST_DOCUMENTS, MOST_ROWS = 32, 1024, 4096
# no number and no epoch rises above it
GREATEST = 2**63 - 1


class Refused(Exception):
    """Why a change isn't made."""


class Malformed(Exception):
    """The field asks for nothing that a keeper does."""


class Domain:
    """A domain, with nothing in it at first."""

    def __init__(self, number, epoch=0):
        self.number, self.epoch = number, epoch
        self.tokens, self.documents, self.root, self.source = {}, {}, None, []

    def decides(self):
        """All that decides in the domain, as it is shown."""
        return dict(self.documents), self.root and reference_shown(self.root), rows_shown(self.source)


def refuse_if(is_refused, why):
    """Refuses the change, if that is so."""
    if is_refused:
        raise Refused(why)


# Changes of a domain that is there. What is refused is refused before anything is altered.


def put(domain, text):
    """A token is given to the domain, or has another role."""
    role, token = text.split(" ", 1)
    token = decoded(token)
    refuse_if(token not in domain.tokens and len(domain.tokens) == MOST_TOKENS, "Quota")
    domain.tokens[token] = {"ask": "Ask", "admin": "Admin"}[role]


def drop(domain, text):
    """A token is taken away."""
    token = decoded(text)
    refuse_if(token not in domain.tokens, "Absent")
    del domain.tokens[token]


def upload(domain, text):
    """A document is kept, which isn't active; the same text again changes nothing."""
    kind, name, version, _ = active_of(text)
    key = kind, name.encode(), tuple(version)
    if key in domain.documents:
        refuse_if(domain.documents[key][0] != text_of(text), "SameVersionOtherText")
        return "Same"
    refuse_if(len(domain.documents) == MOST_DOCUMENTS, "Quota")
    domain.documents[key] = text_of(text), False
    return "New"


def key_of(text):
    """The key of a document in a field."""
    kind, name, version = text.split("|")
    return kind, text_of(name).encode(), tuple(numbers(version))


def set_active(is_active):
    """What makes a document active, or inactive."""
    def change(domain, text):
        key = key_of(text)
        refuse_if(key not in domain.documents, "Absent")
        domain.documents[key] = domain.documents[key][0], is_active
    return change


def delete(domain, text):
    """A document that isn't active is deleted."""
    key = key_of(text)
    refuse_if(key not in domain.documents, "Absent")
    refuse_if(domain.documents[key][1], "StillActive")
    del domain.documents[key]


def set_root(domain, text):
    """The root is set, or there is none."""
    domain.root = reference_of(text) if text else None


def set_source(domain, text):
    """The source's rows are set."""
    rows = rows_of(decoded(text))
    refuse_if(len(rows) > MOST_ROWS, "Quota")
    domain.source = rows


CHANGES = {"put": put, "drop": drop, "upload": upload, "activate": set_active(True), "deactivate": set_active(False),
           "delete": delete, "root": set_root, "source": set_source}


# Readings of a domain that is there.


def gate(domain, _):
    """Number, epoch and how many tokens there are."""
    return [f"number {domain.number} epoch {domain.epoch} tokens {len(domain.tokens)}"]


def role(domain, text):
    """The role of a token."""
    return [domain.tokens.get(decoded(text), "!None")]


def document(domain, text):
    """The text of a document."""
    found = domain.documents.get(key_of(text))
    return [encoded(found[0]) if found else "!None"]


def key_shown(key):
    """The field of a document's key."""
    kind, name, version = key
    return "|".join([kind, encoded(name), ".".join(map(str, version))])


def listed(domain, _):
    """The keys of all documents, in order."""
    return [("active:" if domain.documents[key][1] else "inactive:") + key_shown(key)
            for key in sorted(domain.documents)] + ["."]


def view(domain, _):
    """What decides: active texts, the root, and the rows."""
    active = [domain.documents[key][0] for key in sorted(domain.documents) if domain.documents[key][1]]
    root = reference_shown(domain.root) if domain.root else "!None"
    return (["active:" + encoded(text) for text in active]
            + ["root:" + root, "source:" + encoded(rows_shown(domain.source))])


READINGS = {"gate": gate, "role": role, "document": document, "list": listed, "view": view}


class Keeper:
    """A keeper, with no domain at first."""

    def __init__(self):
        self.domains, self.next, self.faults = {}, 1, 0

    def raised(self, number):
        """The number after it. A call that would have to raise the greatest one is refused, as if its storage had
        failed, and is counted."""
        if number == GREATEST:
            self.faults += 1
            raise Refused("Store")
        return number + 1

    def create(self, name):
        """A domain is made, with the next number."""
        if not is_domain_name(name.encode()):
            raise Malformed
        refuse_if(name in self.domains, "Exists")
        self.next, number = self.raised(self.next), self.next
        self.domains[name] = Domain(number)

    def remove(self, name):
        """A domain is removed."""
        refuse_if(name not in self.domains, "Absent")
        del self.domains[name]

    def change(self, change, name, text):
        refuse_if(name not in self.domains, "Absent")
        domain = copy.copy(self.domains[name])
        domain.tokens, domain.documents = dict(domain.tokens), dict(domain.documents)
        found = change(domain, text)
        if domain.decides() != self.domains[name].decides():
            domain.epoch = self.raised(domain.epoch)
        self.domains[name] = domain
        return found

    def call(self, word, name, text):
        """The fields of the answer to a call."""
        if word == "domains":
            return sorted(self.domains) + ["."]
        if word == "faults":
            return [str(self.faults)]
        if word == "open":
            return ["true"]
        if word in READINGS:
            return READINGS[word](self.domains[name], text) if name in self.domains else ["!None"]
        if word in ("create", "remove"):
            return [(self.create if word == "create" else self.remove)(name) or "ok"]
        if word in CHANGES:
            return [self.change(CHANGES[word], name, text) or "ok"]
        raise Malformed


def keeper(*fields):
    """The answer to a row."""
    return answers(Keeper(), fields)


def keeper_with(first, *fields):
    """The same, of a keeper that begins with one domain of that name, number and epoch."""
    name, number, epoch = first.split(" ")
    if not is_domain_name(name.encode()):
        return ["!Malformed"]
    held = Keeper()
    held.domains[name], held.next = Domain(int(number), int(epoch)), int(number) + 1
    return answers(held, fields)


def answers(held, fields):
    """What the keeper answers to the calls."""
    shown = []
    for field in fields:
        word, name, text = (field.split(" ", 2) + ["", ""])[:3]
        try:
            shown += held.call(word, text_of(name), text)
        except Refused as why:
            shown.append(f"!{why}")
        except (Malformed, DocumentFault, NoVersion, ValueError, KeyError):
            return shown + ["!Malformed"]
    return shown
