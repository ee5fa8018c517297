"""A response laid out for people."""
from __future__ import annotations

from . import names
from .text import decided, painted, wrapped


def value_shown(value: object) -> str:
    """A value of a response."""
    if isinstance(value, list):
        return "[" + ", ".join(map(value_shown, value)) + "]"
    return f'"{value}"' if isinstance(value, str) else str(value).lower()


def attribute_line(held: dict) -> str:
    """`urn:example:who = "alice" (string)`."""
    issuer = f" by {held['Issuer']}" if "Issuer" in held else ""
    category = f"{names.category_shown(held['Category'])} " if "Category" in held else ""
    return wrapped(
        f"{category}{held['AttributeId']}{issuer} = {value_shown(held['Value'])} ({names.short(held['DataType'])})",
        "      ", "          ")


def duties_lines(word: str, duties: list[dict]) -> list[str]:
    """Obligations or advice with their assignments."""
    lines = []
    for duty in duties:
        lines.append(f"    {word} {painted(duty['Id'], 'bold')}")
        lines += [attribute_line(one) for one in duty.get("AttributeAssignment", [])]
    return lines


def identifiers_lines(found: dict) -> list[str]:
    """The policies and sets that the result names."""
    return [wrapped(f"{word} {held['Id']} {held['Version']}", "    ", "        ")
            for word, name in (("policy", "PolicyIdReference"), ("policy set", "PolicySetIdReference"))
            for held in found.get(name, [])]


def result_shown(result: dict) -> str:
    """A result: its decision, obligations, advice, the policies that it names, and the attributes that the request
    wants to see again."""
    status = names.short(result["Status"]["StatusCode"]["Value"])
    lines = [decided(result["Decision"]) + (f"  status {status}" if status != "ok" else "")]
    lines += duties_lines("obligation",
                          result.get("Obligations", [])) + duties_lines("advice", result.get("AssociatedAdvice", []))
    lines += identifiers_lines(result.get("PolicyIdentifierList", {}))
    for category in result.get("Category", []):
        lines.append(f"    of {names.category_shown(category['CategoryId'])}")
        lines += [attribute_line(one) for one in category["Attribute"]]
    return "\n".join(lines)


def shown(results: list[dict]) -> str:
    """All results."""
    if len(results) == 1:
        return result_shown(results[0])
    return "\n".join(f"{number}. {result_shown(result)}" for number, result in enumerate(results, 1))
