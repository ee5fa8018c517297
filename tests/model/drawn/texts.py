"""Random texts of each data type: well-formed ones, at the ends of ranges too, and for `loose` also ones
that are nearly so."""
import base64
import random

from values import TYPES, WHITE_SPACE, days_in

LETTERS = ["a", "b", "ab", "é", "€", "😀", " ", "\t", "\n", "\r", "\u00a0", "\u000b", "\u000c", "A", "0", "-", "/", "Z",
           "\u0000", "ß"]
ZONES = ["", "", "Z", "+00:00", "-00:00", "+14:00", "-14:00", "+05:30", "-11:45"]
LOOSE_ZONES = ["+14:01", "-14:01", "+05:60", "+1:00", "z", "+15:00"]
NUMBERS = ["0", "-0", "+0", "1", "-1", "2", "-2", "7", "9223372036854775807", "-9223372036854775808",
           "4611686018427387904", "3037000500", "00012", "+5"]
LOOSE_NUMBERS = ["9223372036854775808", "-9223372036854775809", "", "+", "-", "--1", "1.0", "1e3", "0x1",
                 "\u0661", "9" * 26]
COUNTS = ["0", "1", "59", "60", "61", "23", "24", "25", "007", "3652500", "3652499", "315576000000", "87660000",
          "5259600000"]
LOOSE_COUNTS = ["", "9" * 20, "0" * 25 + "1"]
SLIPS = ["\u00a0", "\u000b", "x", " ", "-", ":", ".", "T", "+", "0", "Z", "P", "S", "="]


class Texts:
    """Texts drawn from one seed."""

    def __init__(self, seed):
        self.random = random.Random(seed)
        self.one_of = self.random.choice

    def seldom(self, share):
        return self.random.random() < share

    def digits(self, most):
        return "".join(self.one_of("0123456789") for _ in range(self.random.randint(1, most)))

    def chosen(self, sound, loose, is_loose):
        return self.one_of(loose if is_loose and self.seldom(0.2) else sound)

    def zone(self, loose):
        return self.chosen(ZONES, LOOSE_ZONES, loose)

    def date(self, loose):
        year = self.one_of([1, 4, 100, 400, 1900, 1969, 1970, 2000, 2023, 2024, 9999, self.random.randint(1, 9999)])
        month = self.random.randint(1, 12)
        day = self.one_of([1, days_in(year, month), self.random.randint(1, 28)])
        if loose and self.seldom(0.2):
            year, month, day = self.one_of([(0, month, day), (year, 0, day), (year, 13, day), (year, month, 0),
                                            (year, 2, 30), (year, 4, 31)])
        return f"{year:04}-{month:02}-{day:02}"

    def clock(self, loose):
        hour, minute, second = self.one_of([(0, 0, 0), (23, 59, 59)]
                                           + [tuple(map(self.random.randrange, (24, 60, 60)))] * 4)
        if loose and self.seldom(0.2):
            hour, minute, second = self.one_of([(24, 0, 0), (23, 60, 0), (23, 59, 60)])
        fraction = self.one_of(["", "", "." + self.digits(9), ".000000000", ".100"])
        if loose and self.seldom(0.1):
            fraction = self.one_of([".", ".0000000000", ".1234567891"])
        return f"{hour:02}:{minute:02}:{second:02}{fraction}"

    def part(self, letter, loose, share=0.5):
        return self.chosen(COUNTS + [self.digits(3)], LOOSE_COUNTS, loose) + letter if self.seldom(share) else ""

    def day_time(self, loose):
        seconds = self.part(self.one_of(["S", "." + self.digits(10 if loose else 9) + "S"]), loose)
        clock = self.part("H", loose) + self.part("M", loose) + seconds
        return (self.one_of(["", "-"]) + "P" + self.part("D", loose)
                + ("T" + clock if clock or loose and self.seldom(0.1) else ""))

    def year_month(self, loose):
        return self.one_of(["", "-"]) + "P" + self.part("Y", loose, 0.7) + self.part("M", loose, 0.7)

    def string(self, loose):
        return "".join(self.one_of(LETTERS) for _ in range(self.one_of([0, 1, 1, 2, 3, 4, 6, 9])))

    def number(self, loose):
        sound = NUMBERS + [str(self.random.randrange(-2**63, 2**63)), str(self.random.randint(-100, 100))] * 3
        return self.chosen(sound, LOOSE_NUMBERS, loose)

    def base64(self, loose):
        text = base64.b64encode(self.random.randbytes(self.random.randrange(9))).decode()
        place = self.random.randint(0, len(text))
        return text[:place] + self.one_of(["", "", *WHITE_SPACE]) + text[place:]

    def slipped(self, text):
        place = self.random.randint(0, len(text))
        return text[:place] + self.one_of(SLIPS) + text[place + self.random.randrange(2):]

    def of(self, data_type, loose=False):
        """A text for the type."""
        make = {
            "string": self.string,
            "anyURI": self.string,
            "boolean": lambda loose: self.chosen(["true", "false", "1", "0"], ["True", "", "01", "t"], loose),
            "integer": self.number,
            "date": lambda loose: self.date(loose) + self.zone(loose),
            "time": lambda loose: self.clock(loose) + self.zone(loose),
            "dateTime": lambda loose: self.date(loose) + "T" + self.clock(loose) + self.zone(loose),
            "dayTimeDuration": self.day_time,
            "yearMonthDuration": self.year_month,
            "hexBinary": lambda loose: "".join(self.one_of("0189abcdefABCDEF")
                                               for _ in range(2 * self.random.randrange(5))),
            "base64Binary": self.base64,
        }
        text = make[data_type](loose)
        if data_type in ("string", "anyURI"):
            return text
        if loose and self.seldom(0.1):
            text = self.slipped(text)
        return self.one_of(["", "", "", *WHITE_SPACE]) + text + self.one_of(["", "", "", *WHITE_SPACE])

    def data_type(self):
        return self.one_of(TYPES)
