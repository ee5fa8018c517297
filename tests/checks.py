"""What a test of a program from outside expects and finds: its parts, its checks, and the program that it is given."""
import math
import os
import pathlib
import sys
import time

TOP = pathlib.Path(__file__).resolve().parent.parent
# where the CI gate and `make pdpd` leave the program
BUILT = TOP / "crates" / "pdpd" / "out" / "pdpd"
MOST_SHOWN = 600  # characters of a value


def program_named(words):
    """The program that the first word of a command line names, behind its options; if there is none, the one that is
    built."""
    words = [word for word in words if not word.startswith("--")]
    return os.path.abspath(words[0] if words else BUILT)


def is_program(name, program):
    if os.path.isfile(program):
        return True
    print(f"{name}: {program} is not there: `make prove` or `make pdpd` builds it")
    return False


class Between:
    """The numbers from one to another; to any, if no other is given."""

    def __init__(self, least, most=math.inf):
        self.least, self.most = least, most

    def __contains__(self, number):
        return self.least <= number <= self.most

    def __repr__(self):
        return f"the numbers from {self.least} to {self.most}"


class OneOf:
    """What equals each value that is allowed."""

    def __init__(self, allowed):
        self.allowed = allowed

    def __eq__(self, found):
        return found in self.allowed

    def __repr__(self):
        return f"one of {self.allowed!r}"


class Checks:
    """What was expected and found."""

    def __init__(self, name):
        self.name, self.count, self.failed, self.began = name, 0, 0, time.time()

    def expect(self, what, found, wanted):
        self.count += 1
        if found != wanted:
            self.failed += 1
            print(f"FAILED {what}\n  found  {repr(found)[:MOST_SHOWN]}\n  wanted {repr(wanted)[:MOST_SHOWN]}")

    def within(self, what, found, allowed):
        """That it is one of several values, which a list, a range or `Between` has."""
        self.expect(what, found, OneOf(allowed))

    def named_parts(self, parts, names):
        """The parts of these names; all, if there is no name. A name that no part has ends the test."""
        if unknown := set(names) - {part.__name__ for part in parts}:
            sys.exit(f"{self.name}: no part {', '.join(sorted(unknown))}")
        return [part for part in parts if not names or part.__name__ in names]

    def run(self, parts, names):
        """Runs these parts, and tells how long each takes that was chosen by its name."""
        for part in self.named_parts(parts, names):
            began = time.time()
            part()
            if names:
                print(f"{part.__name__}: {time.time() - began:.1f} s")

    def status(self):
        print(f"{self.name}: {self.count - self.failed} passed, {self.failed} failed, "
              f"in {time.time() - self.began:.0f} s")
        return 1 if self.failed else 0
