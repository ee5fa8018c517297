"""A program that is killed again and again under load, each time at another moment: what stands in its tables
then, and what it shows once it is begun again.

A load is some messages in one piece, of which the last may be cut. The tables have to be those after the first
messages of the load, for some number of them: after no fewer than were answered, and no more than came whole.
Python's own sqlite3 reads them in a copy of the files, and the rows are those of the model of the server in
tests/model, with numbers, epochs and digests of tokens.
"""
import collections
import json
import multiprocessing
import os
import pathlib
import random
import shutil
import time

from kept import Model, faults_of, opened, rows_in
from machines import digest, version_shown
from serving import OPERATOR, Served, message, policy

NAMES, IDS, TOKENS = ("acme", "beta", "gamma"), 30, 5
SIDE_BY_SIDE = 8
MOST_MESSAGES, MOST_ROWS = 16, 60
# How long the program goes on at the most, in seconds, before it is killed: less next time where it has
# answered all by then, more where it has answered nothing. From a load on others of the machine go before it,
# so that it is killed in time.
PAUSE, LESS, MORE, NICENESS = 0.01, 0.8, 1.25, 10
ROW = {"AttributeId": "a", "Category": "Action", "DataType": "string", "Entity": ""}
CHANGES = ("create", "remove", "put", "drop", "upload", "activate", "deactivate", "delete", "root", "source")
LIST = message("GET", "/operator/domains", OPERATOR)


class Report:
    """What a store's kills came to: how many there were, how many changes each struck that were made or weren't,
    and what was wrong."""

    def __init__(self):
        self.kills, self.struck, self.wrong = 0, collections.Counter(), []

    def add(self, other):
        self.kills += other.kills
        self.struck.update(other.struck)
        self.wrong += other.wrong

    def __str__(self):
        each = (f"{kind} {self.struck[kind, True]} and {self.struck[kind, False]}" for kind in CHANGES)
        return f"killed {self.kills} times; in a change that was made, and in one that wasn't: {', '.join(each)}"


def copy_of(model):
    """A model of the same, which moves by itself."""
    found = Model(OPERATOR)
    found.server.states, found.numbers, found.next = model.server.states, dict(model.numbers), model.next
    return found


class Load:
    """Random messages, most of which change what is kept."""

    def __init__(self, seed):
        self.chance = random.Random(seed)

    def token_of(self, name):
        return f"{name}-token-{self.chance.randrange(2, 2 + TOKENS)}"

    def by_operator(self, kind, name):
        """A message of the operator on a domain."""
        path, token = f"/operator/domains/{name}", self.token_of(name)
        if kind in ("create", "remove"):
            return message("PUT" if kind == "create" else "DELETE", path, OPERATOR)
        if kind == "drop":
            return message("DELETE", f"{path}/tokens", OPERATOR, json.dumps({"Token": token}))
        role, token = ("admin", f"{name}-token-1") if kind == "admit" else (self.chance.choice(("ask", "admin")), token)
        return message("POST", f"{path}/tokens", OPERATOR, json.dumps({"Role": role, "Token": token}))

    def of_document(self, kind, name, state):
        """A message on a document of the domain."""
        key = self.chance.choice(sorted(state.documents))
        end = "" if kind == "delete" else "/active"
        method = "PUT" if kind == "activate" else "DELETE"
        return message(method, f"/domains/{name}/pap/policy/{key.id}/{version_shown(key)}{end}", f"{name}-token-1")

    def of_domain(self, kind, name):
        """A message on the domain itself."""
        at, token, policy_id = f"/domains/{name}", f"{name}-token-1", f"urn:p{self.chance.randrange(IDS)}"
        if kind == "upload":
            description = self.chance.choice((None, "é", "y" * 9_000))
            effect, version = self.chance.choice(("Permit", "Deny")), self.chance.choice(("1.0", "1.10"))
            return message("POST", f"{at}/pap/policies", token, policy(effect, policy_id, version, description))
        if kind == "root":
            body = self.chance.choice(({}, {"PolicyIdReference": {"Id": policy_id, "Version": "1.+"}}))
            return message("PUT", f"{at}/pap/root", token, json.dumps(body))
        if kind == "source":
            version, count = self.chance.randrange(10 ** 6), self.chance.choice((0, 1, MOST_ROWS))
            rows = [{**ROW, "Value": f"{version}-{place}", **({"Issuer": f"i{place}"} if place % 3 == 1 else {})}
                    for place in range(count)]
            return message("PUT", f"{at}/pip", token, json.dumps({"Row": rows}))
        return message("POST", f"{at}/pdp", token, '{"Request":{}}')

    def next(self, model):
        """The kind of a message, and its bytes."""
        name = self.chance.choice(NAMES)
        state = model.server.states.get(name)
        if state is None:
            return "create", self.by_operator("create", name)
        if digest(f"{name}-token-1".encode()) not in state.tokens:
            return "put", self.by_operator("admit", name)
        removals = CHANGES[1:2] if self.chance.random() < 0.5 else ()
        kind = self.chance.choice((*CHANGES[2:], "upload", "upload", "decide", *removals))
        if kind in ("remove", "put", "drop"):
            return kind, self.by_operator(kind, name)
        if kind in ("activate", "deactivate", "delete") and state.documents:
            return kind, self.of_document(kind, name, state)
        if kind in ("upload", "root", "source", "decide"):
            return kind, self.of_domain(kind, name)
        return self.next(model)


class Sent:
    """A load that was sent, with what the model makes of its messages, one after another."""

    def __init__(self, load, model):
        self.models, self.kinds, self.messages, self.ends = [model], [], [], [0]
        self.wanted = b""
        for _ in range(load.chance.randrange(1, MOST_MESSAGES + 1)):
            kind, held = load.next(self.models[-1])
            self.models.append(copy_of(self.models[-1]))
            self.wanted += self.models[-1].answer(held)
            self.kinds.append(kind)
            self.messages.append(held)
            self.ends.append(len(self.wanted))
        # a message that doesn't come whole, behind them
        kind, held = load.next(self.models[-1])
        self.cut = held[:load.chance.choice((0, 0, load.chance.randrange(len(held)), len(held) - 1))]

    def answered(self, found):
        """How many of its messages have their whole replies in these bytes."""
        return sum(end <= len(found) for end in self.ends) - 1

    def stands(self, rows, least):
        """After how many of its messages these rows stand in the tables, no fewer than those; None
        after no number of them."""
        return next((place for place in range(least, len(self.models)) if self.models[place].rows() == rows), None)


class Store:
    """A store in a folder, whose program is killed."""

    def __init__(self, program, folder, seed):
        self.program, self.folder, self.load = program, pathlib.Path(folder), Load(seed)
        self.path, self.token_file = self.folder / "store.db", self.folder / "token"
        self.token_file.write_text(f"{OPERATOR}\n", encoding="ascii")
        self.model, self.report, self.pause = Model(OPERATOR), Report(), PAUSE

    def expect(self, what, found, wanted):
        if found != wanted:
            self.report.wrong.append((f"{self.folder.name}, kill {self.report.kills}: {what}", found, wanted))

    def rows(self):
        """The rows in a copy of the files, of which sqlite3 has nothing to complain."""
        copy = self.folder / "copy"
        copy.mkdir()
        for path in self.folder.glob("store.db*"):
            shutil.copy(path, copy)
        db = opened(copy / "store.db")
        self.expect("what sqlite3 complains of", faults_of(db), [])
        found = rows_in(db)
        db.close()
        shutil.rmtree(copy)
        return found

    def shows(self, served):
        """That the program shows what the model has: the domains, and of one all that it reads."""
        name = self.load.chance.choice(NAMES)
        reads = [message("GET", f"/domains/{name}/{path}", f"{name}-token-1") for path in ("pap/policies", "pip")]
        asks = [message("POST", f"/domains/{name}/pdp", f"{name}-token-{number}", '{"Request":{}}')
                for number in (1, 2)]
        held = [LIST, *reads, *asks]
        model = copy_of(self.model)
        self.expect(f"what is shown of {name}", served.once(*held), [model.answer(one) for one in held])

    def killed(self, served, sent):
        """Sends a load, kills the program at some moment, and gives all bytes that it answered."""
        with served.client() as client:
            os.setpriority(os.PRIO_PROCESS, served.process.pid, NICENESS)
            client.send(b"".join(sent.messages) + sent.cut)
            time.sleep(self.pause * self.load.chance.random())
            served.kill()
            found = client.all()
        answered = sent.answered(found)
        self.pause *= LESS if answered == len(sent.messages) else MORE if answered == 0 else 1
        return found

    def round(self):
        """Whether the program goes on as it is to, up to another kill and behind it."""
        with Served(self.program, str(self.path), str(self.token_file)) as served:
            self.expect("the store opens again", served.listened(), None)
            if not served.listens:
                return False
            self.shows(served)
            sent = Sent(self.load, self.model)
            found = self.killed(served, sent)
        self.report.kills += 1
        self.expect("the replies are the model's", sent.wanted[:len(found)], found)
        rows, least = self.rows(), sent.answered(found)
        place = sent.stands(rows, least)
        if place is None:
            self.expect(f"what stands in the tables, {least} messages of {sent.kinds} being answered",
                        self.tables(rows), [self.tables(model.rows()) for model in sent.models[least:]])
            return False
        if least < len(sent.kinds):
            self.report.struck[sent.kinds[least], place > least] += 1
        self.model = sent.models[place]
        return True

    @staticmethod
    def tables(rows):
        """How many rows stand in each table, and the domains."""
        return {table: len(found) for table, found in rows.items()}, rows["domains"], rows["meta"]


def kills(program, folder, count, seed):
    """What so many kills of a store in that folder come to."""
    store = Store(program, folder, seed)
    while store.report.kills < count and store.round():
        pass
    return store.report


def kills_of_all(program, stores, seed):
    """The same of all these stores, each a folder and a number of kills, some of them side by side."""
    with multiprocessing.get_context("fork").Pool(SIDE_BY_SIDE) as pool:
        given = [(program, folder, count, seed * 100 + place) for place, (folder, count) in enumerate(stores)]
        report = Report()
        for found in pool.starmap(kills, given, 1):
            report.add(found)
    return report
