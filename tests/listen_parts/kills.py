"""Kills under many writers: all that was answered is there, and of each writer at most one change more."""
import os
import random
import threading
import time

from serve_parts.shared import PROGRAM, SEED, creates, names, room_in_memory
from serving import CREATED, OPERATOR, Served

from .shared import expect

WRITERS = 64
# How often, of which a test of a release has 1,000.
KILLS = int(os.environ.get("LISTEN_KILLS", "15"))


def writes(served, writer, round_number, made):
    """Makes domains until the program is gone; notes each that was answered, and the one that is under way."""
    try:
        with served.client() as client:
            for number in range(10_000):
                name = f"r{round_number}w{writer}n{number}"
                made[writer][1] = name
                if client.ask(creates(name)) != CREATED:
                    return
                made[writer][0].append(name)
    except OSError:
        pass


def killed(served, round_number, chance):
    """Kills the program under the writers; what was answered, and what was under way."""
    made = [[[], None] for _ in range(WRITERS)]
    threads = [threading.Thread(target=writes, args=(served, writer, round_number, made)) for writer in range(WRITERS)]
    for thread in threads:
        thread.start()
    time.sleep(0.1 + 0.3 * chance.random())
    served.kill()
    for thread in threads:
        thread.join()
    return {name for answered, _ in made for name in answered}, {under_way for _, under_way in made}


def over_a_store(rounds, chance):
    """So many kills over one store: how many domains it has at the end, and how many of them nobody was answered."""
    kept, struck = set(), 0
    with room_in_memory() as room:
        path, token_file = os.path.join(room, "store.db"), os.path.join(room, "token")
        with open(token_file, "w", encoding="ascii") as text:
            text.write(f"{OPERATOR}\n")
        for round_number in rounds:
            with Served(PROGRAM, path, token_file) as served:
                found = set(names(served))
                expect(f"before kill {round_number}: what was answered isn't lost", kept - found, set())
                kept = found
                answered, under_way = killed(served, round_number, chance)
            with Served(PROGRAM, path, token_file) as served:
                found = set(names(served))
                expect(f"kill {round_number}: of what was answered is missing", answered - found, set())
                expect(f"kill {round_number}: what nobody asked for", found - kept - answered - under_way, set())
                struck += len(found & under_way - answered)
                kept = found
    return len(kept), struck


def under_writers():
    """The program is killed under 64 writers, again and again over the same store, and over a new one after each 100
    kills, since each kill lists all domains twice."""
    chance = random.Random(SEED)
    stores = [over_a_store(range(first, min(first + 100, KILLS)), chance) for first in range(0, KILLS, 100)]
    made, struck = map(sum, zip(*stores))
    expect("some domains were made", made > 0, True)
    print(f"{KILLS} kills under {WRITERS} writers: {made} domains, of which {struck} were made and not answered")
