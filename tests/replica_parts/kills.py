"""A daemon that is killed while a long entry is under way at its pdpd, beside clients that ask."""
import json
import multiprocessing
import os
import random
import threading
import time

from audit_parts.shared import GIVEN, SEED, expect, kept, status_of, wait_until
from serving import Client, message

from .etcds import ADMIN, LONG, PIP, archived, are_level, as_admin
from .lab import Lab

# so many rows have some 500 kB
ROWS = 3_700
REQUEST = {"Request": {"AccessSubject": [{"Attribute": [{"AttributeId": "urn:a", "Value": "x"}]}]}}


def long_rows(value):
    """Rows of a number that is in all of them."""
    row = {"Category": "AccessSubject", "AttributeId": "urn:example:of-a-long-entry", "DataType": "string"}
    return json.dumps({"Row": [{**row, "Entity": f"entity-{number}", "Value": f"{value}"} for number in range(ROWS)]})


class Asker(threading.Thread):
    """A client that asks a pdpd for decisions over one connection."""

    def __init__(self, port, is_over):
        super().__init__(daemon=True)
        self.port, self.is_over, self.count = port, is_over, 0

    def run(self):
        ask = message("POST", "/domains/acme/pdp", kept("acme-asks-1"), json.dumps(REQUEST))
        while not self.is_over.is_set():
            try:
                with Client(self.port) as client:
                    while not self.is_over.is_set():
                        self.count += status_of(client.ask(ask)) == 200
            except OSError:
                time.sleep(0.05)


class Askers:
    """So many of them, in a process of their own: who watches doesn't wait for them."""

    def __init__(self, port, count):
        self.is_over, self.told = multiprocessing.Event(), multiprocessing.Queue()
        self.process = multiprocessing.Process(target=self.work, args=(port, count), daemon=True)
        self.process.start()

    def work(self, port, count):
        made = [Asker(port, self.is_over) for _ in range(count)]
        for one in made:
            one.start()
        self.is_over.wait()
        for one in made:
            one.join(60)
        self.told.put([one.count for one in made])

    def end(self):
        """How many decisions each got."""
        self.is_over.set()
        found = self.told.get(timeout=120)
        self.process.join()
        return found


def standing(lab):
    """What is told where machines aren't level: what each tells of itself, and the ends of their logs."""
    lines = [f"load {os.getloadavg()[0]:.0f}, head {lab.log.look().head.number}"]
    for one in lab.machines:
        said = one.said().splitlines()[-5:]
        lines += [f"{one.name}: {one.figures()}, pdpd {one.pdpd.process.poll()}, daemon {one.daemon.is_running()}",
                  *said]
    return "\n".join(lines)


def values(machine):
    """The values that a machine's rows have."""
    held = json.loads(machine.read(as_admin("GET", PIP))[0].partition(b"\r\n\r\n")[2])
    return {row["Value"] for row in held["Row"]}


def killed_amid():
    """The daemon is killed at any place of a long entry, also while pdpd answers others: no entry is made behind the
    next one. (By hand --kills 200 --askers 60.)"""
    chance, began = random.Random(SEED), time.monotonic()
    with Lab("killed_amid", ack="local") as lab:
        first, second, _ = lab.machines
        lab.make_domain(first)
        are_level(lab)
        askers, wrong, count = Askers(first.pdpd_port, GIVEN.askers), [], 0
        for number in range(GIVEN.kills):
            at, works = lab.log.look().head.number, [threading.Thread(
                target=lab.made, args=(second, "PUT", PIP, ADMIN, long_rows(2 * number + more)), daemon=True)
                for more in range(2)]
            works[0].start()
            wait_until(lambda: second.has(at + 1), LONG)  # noqa: B023
            wait_until(lambda: first.figures().get("pending") or first.has(at + 1), LONG)  # noqa: B023
            time.sleep(chance.uniform(0, 0.08))
            first.daemon.kill()
            first.daemon.start()
            works[1].start()
            for one in works:
                one.join(LONG)
            is_level = are_level(lab)
            expect(f"it is level again behind kill {number}", is_level or standing(lab), True)
            found = [values(one) for one in lab.machines]
            count += 1
            if found != [{f"{2 * number + 1}"}] * 3:
                wrong.append((number, found))
        asked = askers.end()
        expect("rows that aren't those of the last entry", wrong[:3], [])
        expect("all have asked", min(asked) > 0, True)
        for one in lab.machines:
            one.daemon.kill()
        held = [archived(one) for one in lab.machines]
        expect("equal archives", [[one[0] for one in entries] for entries in held[1:]],
               [[one[0] for one in held[0]]] * 2)
        again = sum(one[3] for one in held[0])
        print(f"  {count} kills in {time.monotonic() - began:.0f} s, {again} entries sent again, {sum(asked)} "
              f"decisions by {len(asked)} clients", flush=True)


PARTS = (killed_amid,)
