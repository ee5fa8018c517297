"""Values of the eleven data types: how texts are read, printed, compared (XACML 3.0, core, appendix
A.2; XML Schema, part 2).

A value is a pair of its type's name and what it holds: a text, a bool, an int, bytes; a date is (year, month, day) and
a zone, a time its nanoseconds and a zone, a dateTime all three; a zone is its minutes, or None. Durations are
nanoseconds, or months.
"""
import base64
import binascii
import re

TYPES = ["string", "boolean", "integer", "date", "time", "dateTime", "dayTimeDuration", "yearMonthDuration", "anyURI",
         "hexBinary", "base64Binary"]
WHITE_SPACE = " \t\r\n"
SECOND = 10**9
DAY = 86400 * SECOND
MAX_DAY_TIME = 315_576_000_000 * SECOND
MAX_MONTHS = 120_000

ZONE = r"(Z|[+-]\d\d:\d\d)?"
DATE = r"(\d{4})-(\d\d)-(\d\d)"
CLOCK = r"(\d\d):(\d\d):(\d\d)(?:\.(\d+))?"
DAY_TIME = r"(-?)P(?:(\d+)D)?(T(?:(\d+)H)?(?:(\d+)M)?(?:(\d+)(?:\.(\d+))?S)?)?"
YEAR_MONTH = r"(-?)P(?:(\d+)Y)?(?:(\d+)M)?"


class Fault(Exception):
    """Why there is no value."""


def shaped(shape, text):
    """The groups of a text that has the shape."""
    found = re.fullmatch(shape, text, re.ASCII | re.DOTALL)
    if found is None:
        raise Fault("NotThisType")
    return found.groups()


def within(holds):
    """That a part is within its range."""
    if not holds:
        raise Fault("OutOfRange")


def is_leap(year):
    """Whether February has 29 days."""
    return year % 4 == 0 and (year % 100 != 0 or year % 400 == 0)


def days_in(year, month):
    """How many days a month has."""
    return 29 if month == 2 and is_leap(year) else [31, 28, 31, 30, 31, 30, 31, 31, 30, 31, 30, 31][month - 1]


def day_number(year, month, day):
    """Days since 0001-01-01."""
    before = year - 1
    months = sum(days_in(year, earlier) for earlier in range(1, month))
    return before * 365 + before // 4 - before // 100 + before // 400 + months + day - 1


def date_of(number):
    """The date of a day number."""
    year = number // 366 + 1
    while day_number(year + 1, 1, 1) <= number:
        year += 1
    rest, month = number - day_number(year, 1, 1), 1
    while rest >= days_in(year, month):
        rest, month = rest - days_in(year, month), month + 1
    return year, month, rest + 1


def fraction(digits):
    """The nanoseconds of a second's digits, of which there are at most nine."""
    within(digits is None or len(digits) <= 9)
    return int((digits or "").ljust(9, "0"))


def read_zone(text):
    """The minutes of a zone (XSD 3.2.7.3), up to 14 hours either way."""
    if text in (None, "Z"):
        return None if text is None else 0
    hours, minutes = int(text[1:3]), int(text[4:6])
    within(minutes <= 59 and hours * 60 + minutes <= 14 * 60)
    return (hours * 60 + minutes) * (-1 if text[0] == "-" else 1)


def read_date(year, month, day):
    """A date (XSD 3.2.9) of the years 1 to 9999."""
    year, month, day = int(year), int(month), int(day)
    within(year >= 1 and 1 <= month <= 12 and 1 <= day <= days_in(year, month))
    return year, month, day


def read_clock(hour, minute, second, digits):
    """The nanoseconds of a time of day (XSD 3.2.8)."""
    hour, minute, second = int(hour), int(minute), int(second)
    within(hour <= 23 and minute <= 59 and second <= 59)
    return ((hour * 60 + minute) * 60 + second) * SECOND + fraction(digits)


def read_day_time(text):
    """The nanoseconds of a dayTimeDuration (XSD 3.2.6; XQuery and XPath data model, section 3.3.2)."""
    sign, days, after_t, hours, minutes, seconds, digits = shaped(DAY_TIME, text)
    if days is None and after_t is None or after_t == "T":
        raise Fault("NotThisType")
    whole = int(days or 0) * 86400 + int(hours or 0) * 3600 + int(minutes or 0) * 60 + int(seconds or 0)
    nanos = whole * SECOND + fraction(digits)
    within(nanos <= MAX_DAY_TIME)
    return -nanos if sign else nanos


def read_year_month(text):
    """The months of a yearMonthDuration (XSD 3.2.6; XQuery and XPath data model, section 3.3.2)."""
    sign, years, months = shaped(YEAR_MONTH, text)
    if years is None and months is None:
        raise Fault("NotThisType")
    count = int(years or 0) * 12 + int(months or 0)
    within(count <= MAX_MONTHS)
    return -count if sign else count


def read_base64(text):
    """The bytes of a base64Binary (XSD 3.2.16), with white space anywhere."""
    text = "".join(letter for letter in text if letter not in WHITE_SPACE)
    try:
        held = base64.b64decode(text, validate=True)
    except (binascii.Error, ValueError):
        raise Fault("NotThisType") from None
    if base64.b64encode(held).decode() != text:
        raise Fault("NotThisType")
    return held


def read(data_type, text):
    """The value of the text, or a fault: NotThisType, OutOfRange."""
    if data_type == "string":
        return data_type, text
    text = text.strip(WHITE_SPACE)
    if data_type == "anyURI":
        return data_type, text
    if data_type == "boolean":
        shaped("true|false|1|0", text)
        return data_type, text in ("true", "1")
    if data_type == "integer":
        shaped(r"[+-]?\d+", text)
        within(-2**63 <= int(text) < 2**63)
        return data_type, int(text)
    if data_type == "date":
        *date, zone = shaped(DATE + ZONE, text)
        return data_type, (read_date(*date), read_zone(zone))
    if data_type == "time":
        *clock, zone = shaped(CLOCK + ZONE, text)
        return data_type, (read_clock(*clock), read_zone(zone))
    if data_type == "dateTime":
        parts = shaped(DATE + "T" + CLOCK + ZONE, text)
        return data_type, (read_date(*parts[:3]), read_clock(*parts[3:7]), read_zone(parts[7]))
    if data_type == "dayTimeDuration":
        return data_type, read_day_time(text)
    if data_type == "yearMonthDuration":
        return data_type, read_year_month(text)
    if data_type == "hexBinary":
        shaped(r"([0-9a-fA-F]{2})*", text)
        return data_type, bytes.fromhex(text)
    return data_type, read_base64(text)


def print_zone(zone):
    """The text of a zone (XSD 3.2.7.3)."""
    if zone is None:
        return ""
    return "Z" if zone == 0 else f"{'-' if zone < 0 else '+'}{abs(zone) // 60:02}:{abs(zone) % 60:02}"


def print_fraction(nanos):
    """The digits of a second's nanoseconds, without zeros at the end."""
    return f".{nanos:09}".rstrip("0") if nanos else ""


def print_date(date):
    """The text of a date (XSD 3.2.9)."""
    return "{:04}-{:02}-{:02}".format(*date)


def print_clock(nanos):
    """The text of a time of day (XSD 3.2.8)."""
    seconds, rest = divmod(nanos, SECOND)
    return f"{seconds // 3600:02}:{seconds // 60 % 60:02}:{seconds % 60:02}" + print_fraction(rest)


def part(count, letter):
    """A part of a duration, if it isn't zero."""
    return f"{count}{letter}" if count else ""


def print_day_time(nanos):
    """The text of a dayTimeDuration, without parts that are zero."""
    if nanos == 0:
        return "PT0S"
    seconds, rest = divmod(abs(nanos), SECOND)
    last = f"{seconds % 60}{print_fraction(rest)}S" if seconds % 60 or rest else ""
    clock = part(seconds // 3600 % 24, "H") + part(seconds // 60 % 60, "M") + last
    return ("-" if nanos < 0 else "") + "P" + part(seconds // 86400, "D") + ("T" + clock if clock else "")


def print_year_month(months):
    """The text of a yearMonthDuration, without parts that are zero."""
    if months == 0:
        return "P0M"
    return ("-" if months < 0 else "") + "P" + part(abs(months) // 12, "Y") + part(abs(months) % 12, "M")


def to_text(value):
    """The text that the value is printed as."""
    data_type, held = value
    if data_type == "boolean":
        return "true" if held else "false"
    if data_type == "date":
        return print_date(held[0]) + print_zone(held[1])
    if data_type == "time":
        return print_clock(held[0]) + print_zone(held[1])
    if data_type == "dateTime":
        return print_date(held[0]) + "T" + print_clock(held[1]) + print_zone(held[2])
    if data_type == "dayTimeDuration":
        return print_day_time(held)
    if data_type == "yearMonthDuration":
        return print_year_month(held)
    if data_type == "hexBinary":
        return held.hex().upper()
    if data_type == "base64Binary":
        return base64.b64encode(held).decode()
    return str(held)


def key(value):
    """What values of one type are compared by: equal keys, equal values. An absent zone counts as UTC."""
    data_type, held = value
    if data_type == "date":
        return day_number(*held[0]) * DAY - (held[1] or 0) * 60 * SECOND
    if data_type == "time":
        return held[0] - (held[1] or 0) * 60 * SECOND
    if data_type == "dateTime":
        return day_number(*held[0]) * DAY + held[1] - (held[2] or 0) * 60 * SECOND
    return held.encode() if isinstance(held, str) else held
