#!/usr/bin/env python3
"""Asks domains of as many documents, bytes and source rows as drawn/full.py says through `pdpd replay`, which has no
limits, and compares all replies with the model's: nothing is refused that the model answers.

usage: largest.py PROGRAM [SEED] [DOMAINS]     PROGRAM: pdpd, as it was built; 40 domains, if it isn't said how many
"""
import subprocess
import sys

import folders  # noqa: F401
from agree import Rows
from full import BYTES, DOCUMENTS
from machines import Server
from messages import Stream
from rows import decoded
from servers import OPERATOR_TOKEN, Setup, setup_and_events


class Recorded:
    """A server in the model, and an entry of a transcript for each message that it has answered."""

    def __init__(self):
        self.server, self.entries, self.replies, self.uploads = Server(OPERATOR_TOKEN), [], [], 0

    def answer(self, message, moment):
        """Answers a message of the setup."""
        fields = b"".join(b"%b: %b\r\n" % field for field in message.fields)
        head = b"%b %b HTTP/1.1\r\n%bContent-Length: %d\r\n\r\n" % (message.method, message.target, fields,
                                                                    len(message.body))
        self.uploads += message.target.endswith(b"/pap/policies") and len(message.body) == BYTES
        return self.note(message, moment, head + message.body)

    def take(self, moment, held):
        """Answers the message that the bytes are."""
        stream = Stream()
        stream.held = held
        self.note(stream.next(), moment, held)

    def note(self, message, moment, held):
        self.entries.append(b"0 %d %d\n%b\n" % (moment, len(held), held))
        self.replies.append(self.server.answer(message, moment))
        return self.replies[-1]


def recorded(fields):
    """The messages that make a domain, and those that ask it."""
    made, moment = Recorded(), 0
    setup = Setup(made)
    before, events = setup_and_events(fields)
    for field in before:
        word, _, text = field.partition(":")
        getattr(setup, word)(text)
    setup.end()
    assert made.uploads == DOCUMENTS, f"{made.uploads} documents of {BYTES} bytes"
    for field in events:
        word, _, text = field.partition(":")
        if word == "moment":
            moment = int(text)
        else:
            made.take(moment, decoded(text))
    return made


def main():
    if not 2 <= len(sys.argv) <= 4:
        print(__doc__, file=sys.stderr)
        return 2
    seed, count = (int(word) for word in [*sys.argv[2:], *("1", "40")[len(sys.argv) - 2:]])
    source, failed, asked = Rows(seed, ["full"]), 0, 0
    for number in range(count):
        made = recorded(source.next()[1:])
        run = subprocess.run([sys.argv[1], "replay", OPERATOR_TOKEN.decode()], input=b"".join(made.entries),
                             capture_output=True, check=False)
        wanted = b"".join(b"0 %d\n%b\n" % (len(reply), reply) for reply in made.replies)
        asked += len(made.replies)
        if run.returncode or run.stdout != wanted:
            failed += 1
            print(f"FAILED domain {number} of seed {seed}: answered otherwise, status {run.returncode}")
    print(f"{count * DOCUMENTS} documents of {BYTES} bytes, {asked} messages: "
          f"{count - failed} passed, {failed} failed")
    return 1 if failed else 0


if __name__ == "__main__":
    sys.exit(main())
