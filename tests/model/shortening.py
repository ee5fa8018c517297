"""Rows in short, as they are stored: a word stands for a text that many rows have, and what stands in a row again and
again is written once.

`\\(WORD)` is the text that a row `define WORD TEXT` above gave; `\\[COUNT,TEXT\\]` is the text so often, and
`\\[FIRST-LAST,TEXT\\]` the text once with each of these numbers, in which `\\#` is the number and `\\-` the one
before. Repetitions may stand in one another: a number is that of the innermost that has numbers.
"""
import collections
import re

PARTS = re.compile(r"\\\(\w+\)|\\.|[0-9]+|[A-Za-z]+|[^0-9A-Za-z\\]", re.DOTALL)
NUMBER = re.compile(r"0|[1-9][0-9]{0,14}")
# how long a repeated text may be, in parts, in each of several passes: short ones are found first, and then
# longer ones that have them
SPANS = (3, 12, 60, 400, 4000)
LEAST_GAIN, MOST_TRIED = 8, 12


def written_out(text, words):
    """The row that the text stands for."""
    held, open_at = [[]], []
    for part in re.findall(r"\\\(\w+\)|\\\[\d+(?:-\d+)?,|\\.|[^\\]+", text, re.DOTALL):
        if part.startswith("\\("):
            held[-1].append(words[part[2:-1]])
        elif part.startswith("\\["):
            held.append([])
            open_at.append(part[2:-1])
        elif part == "\\]":
            inner, numbers = "".join(held.pop()), open_at.pop()
            held[-1].append(times(inner, numbers))
        else:
            held[-1].append({"\\#": "\x01", "\\-": "\x02"}.get(part, part))
    if open_at:
        raise ValueError(f"a repeated text has no end: {text[:300]}")
    return "".join(held[0])


def times(inner, numbers):
    first, is_numbered, last = numbers.partition("-")
    if not is_numbered:
        return inner * int(first)
    return "".join(inner.replace("\x01", str(number)).replace("\x02", str(number - 1))
                   for number in range(int(first), int(last) + 1))


class Period:
    """Parts that stand again behind themselves: with the same text, or with numbers that are one greater."""

    def __init__(self, parts, at, length):
        self.parts, self.at, self.length = parts, at, length
        self.first, self.marks, self.count = None, {}, 1

    def rises(self, place, number):
        """Whether the number at that place of the first time is the one that rises, or the one before it."""
        if self.first is None:
            self.first = number
        if number == self.first + 1 and "#" not in self.marks.values():
            return False
        self.marks[place] = {0: "#", -1: "-"}.get(number - self.first)
        return self.marks[place] is not None

    def fits_twice(self):
        """Whether it stands there twice; then it is known which numbers rise."""
        if self.at + 2 * self.length > len(self.parts):
            return False
        for place in range(self.length):
            one, two = self.parts[self.at + place], self.parts[self.at + self.length + place]
            if one != two:
                if not (NUMBER.fullmatch(one) and NUMBER.fullmatch(two) and int(two) == int(one) + 1
                        and self.rises(place, int(one))):
                    return False
        return True

    def expected(self, place, time):
        if place not in self.marks:
            return self.parts[self.at + place]
        return str(self.first + time - (self.marks[place] == "-"))

    def stands(self, time):
        start = self.at + time * self.length
        return (start + self.length <= len(self.parts)
                and all(self.parts[start + place] == self.expected(place, time) for place in range(self.length)))

    def text(self):
        """The repetition."""
        inner = "".join("\\" + self.marks[place] if place in self.marks else self.parts[self.at + place]
                        for place in range(self.length))
        numbers = f"{self.first}-{self.first + self.count - 1}" if self.marks else str(self.count)
        return f"\\[{numbers},{inner}\\]"

    def gain(self):
        """How much shorter the repetition is than what it stands for."""
        if not self.fits_twice():
            return 0
        self.count = 2
        while self.stands(self.count):
            self.count += 1
        return sum(map(len, self.parts[self.at:self.at + self.count * self.length])) - len(self.text())


def like(part):
    return "#" if NUMBER.fullmatch(part) else part


def folded(parts, span):
    """The parts, where those that stand again and again are one part; a text that is repeated has at
    most so many parts."""
    kinds = list(map(like, parts))
    triples = [tuple(kinds[at:at + 3]) for at in range(len(parts))]
    places = collections.defaultdict(list)
    for at in reversed(range(len(parts))):
        places[triples[at]].append(at)
    found, at = [], 0
    while at < len(parts):
        later = places[triples[at]]
        while later and later[-1] <= at:
            later.pop()
        best, gain = None, LEAST_GAIN - 1
        for place in later[:-MOST_TRIED - 1:-1]:
            if place - at > span:
                break
            period = Period(parts, at, place - at)
            if (more := period.gain()) > gain:
                best, gain = period, more
        found.append(best.text() if best else parts[at])
        at += best.count * best.length if best else 1
    return found


def shortened(row, words):
    """The text, as short as it is found, that stands for the row."""
    for word, text in sorted(words.items(), key=lambda it: -len(it[1])):
        row = row.replace(text, f"\\({word})")
    parts = PARTS.findall(row)
    for span in SPANS:
        parts = folded(parts, span)
    return "".join(parts)
