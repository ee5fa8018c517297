"""The JSON of bytes: which are JSON, and what stands for a number in it.

Of the members of one name the last counts. A number is whole where 64 bits hold it, and a Fraction else; what no
float can hold is no JSON.
"""
import json
import re

MOST_NESTED = 127
# digits and a sign of a number that 64 bits hold
MOST_DIGITS = 20


class NotJson(Exception):
    """The bytes are no JSON."""


class Fraction:
    """A number that isn't whole, or is out of 64 bits."""


def fraction(text):
    """A number (RFC 8259, section 6) that isn't whole, or is large."""
    if abs(float(text)) == float("inf"):
        raise ValueError(text)
    return Fraction()


def number(text):
    """A whole number (RFC 8259, section 6), within 64 bits with a sign or without."""
    if len(text) > MOST_DIGITS:
        return fraction(text)
    whole = int(text)
    return whole if text != "-0" and -2**63 <= whole < 2**64 else fraction(text)


def refused(constant):
    """NaN and the infinities, which are no JSON."""
    raise ValueError(constant)


def unicode(value):
    """The value, whose texts are Unicode; of an object that was looked at when it was made."""
    if isinstance(value, str):
        value.encode()
    if isinstance(value, list):
        for item in value:
            unicode(item)
    return value


def of_pairs(pairs):
    """An object: of members of one name each is JSON, and the last one stays."""
    for pair in pairs:
        unicode(list(pair))
    return dict(pairs)


def is_deep(text):
    """Whether more than this many arrays and objects stand inside one another."""
    depth = 0
    for bracket in re.findall(r"[][{}]", re.sub(r'"(?:[^"\\]|\\.)*"?', "", text, flags=re.DOTALL)):
        depth += 1 if bracket in "[{" else -1
        if depth > MOST_NESTED:
            return True
    return False


def json_of(held):
    """The JSON that the bytes are."""
    try:
        text = held.decode()
        if is_deep(text):
            raise NotJson
        return unicode(json.loads(text, parse_int=number, parse_float=fraction, parse_constant=refused,
                                  object_pairs_hook=of_pairs))
    except ValueError:
        raise NotJson from None
