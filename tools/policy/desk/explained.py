"""An explanation as text: the tree, a line for each part, indented, in 80 columns."""
from __future__ import annotations

from .text import decided, labelled, painted, wrapped

MARKS = {"Match": ("matches", "green"), "NoMatch": ("doesn't match", "yellow"),
         "Indeterminate": ("Indeterminate", "red")}
FROM = {"request": "from the request", "clock": "from the clock", "nowhere": "found nowhere"}


def line(depth: int, text: str, *styles: str) -> str:
    """A line of the text, indented."""
    indent = "  " * depth
    return (painted(wrapped(text, indent, indent + "    "), *styles)
            if styles else wrapped(text, indent, indent + "    "))


def found_shown(found: dict) -> str:
    """`"doctor" from the rows of "alice"`."""
    values = (", ".join(found["values"])
              + (f" and {found['count'] - len(found['values'])} more" if "count" in found else ""))
    source = FROM.get(found["from"]) or "from the rows" + (f' of "{found["entity"]}"' if "entity" in found else "")
    return f"{values} {source}" if found["values"] else source


def near_shown(found: dict, depth: int) -> list[str]:
    """What is nearly an attribute that wasn't found."""
    return [line(depth, f"nearly: {near}") for near in found.get("near", [])]


def word_shown(part: dict) -> str:
    """What a target, or a part of it, comes to."""
    word, _ = MARKS[part["is"]]
    return word + (f" ({part['status'].rsplit(':', 1)[1]})" if "status" in part else "")


def match_shown(match: dict, depth: int) -> list[str]:
    """A match: whether it is true, and with what."""
    because = f"; {match['because']}" if "because" in match else ""
    verdict = {"Match": "true", "NoMatch": "false", "Indeterminate": "Indeterminate"}[match["is"]]
    text = (f"{verdict}: {match['match']} with {match['attribute']}: "
            f"{found_shown(match)}{because} (line {match['line']})")
    return [line(depth, text)] + near_shown(match, depth + 2)


def target_shown(target: dict, depth: int) -> list[str]:
    """The target, and of its parts those matches that were asked."""
    if "any_of" not in target:
        return []
    lines = [line(depth, f"target {word_shown(target)} (line {target['line']})", MARKS[target["is"]][1])]
    for number, part in enumerate(target["any_of"], 1):
        several = len(target["any_of"]) > 1
        if several:
            lines.append(line(depth + 1, f"part {number} of {len(target['any_of'])} {word_shown(part)}"))
        for place, alternative in enumerate(part["all_of"], 1):
            inner = depth + 1 + several
            if len(part["all_of"]) > 1:
                lines.append(line(inner, f"alternative {place} of {len(part['all_of'])} {word_shown(alternative)}"))
                inner += 1
            for match in alternative["matches"]:
                lines += match_shown(match, inner)
    return lines


def step_shown(step: dict, depth: int) -> list[str]:
    """An expression with its value, and below it what it was made of."""
    if "value" not in step and "fault" not in step:
        return [line(depth, step["expression"])]
    if "from" in step:
        text = f"{step['expression']}: {found_shown(step)}" + (f"; {step['fault']}" if "fault" in step else "")
        return [line(depth, text)] + near_shown(step, depth + 2)
    found = f"has no value: {step['fault']}" if "fault" in step else f"is {step['value']}"
    if not step.get("steps") and step.get("value") == step["expression"]:
        return [line(depth, step["value"])]
    return [line(depth, f"{step['expression']} {found}")] + [text for inner in step.get("steps", [])
                                                             for text in step_shown(inner, depth + 1)]


def duties_shown(part: dict, depth: int) -> list[str]:
    """The obligations and advice that a part adds, and with how many it is returned."""
    lines = []
    for duty in part.get("own_duties", []):
        word = "obligation" if "obligation" in duty else "advice"
        lines.append(line(depth, f"adds the {word} {duty[word]} (line {duty['line']})"))
        lines += [line(depth + 1, text) for text in duty["assignments"]]
    gathered = [f"the {name} {', '.join(part[name])}" for name in ("obligations", "advice") if name in part]
    lines += [line(depth, f"is returned with {' and '.join(gathered)}")] * bool(gathered and "children" in part)
    return lines + ([line(depth, part["not_gathered"])] if "not_gathered" in part else [])


def head(part: dict, depth: int) -> str:
    """What a part is, where it stands, and what it comes to."""
    named = " ".join(str(part[name]) for name in ("element", "id", "version") if name in part)
    place = f" ({part['file']}:{part['line']})" if "line" in part else ""
    status = f", {part['status']}" if part["status"] != "ok" else ""
    indent = "  " * depth
    text = wrapped(f"{part['decision']}: {named}{place}{status}", indent, indent + "    ")
    return text.replace(part["decision"], decided(part["decision"]), 1)


def part_shown(part: dict, depth: int = 0) -> list[str]:
    """A rule, a policy, a set or a reference, with all inside it."""
    lines = [head(part, depth)]
    if "unreached" in part:
        lines.append(line(depth + 1, part["unreached"]))
    if "because" in part:
        lines.append(line(depth + 1, f"because: {part['because']}"))
    if "status_from" in part:
        lines.append(line(depth + 1, f"status {part['status']} from: {part['status_from']}"))
    if "target" in part:
        lines += target_shown(part["target"], depth + 1)
    if "condition" in part:
        lines.append(line(depth + 1, f"condition (line {part['condition']['line']})"))
        lines += step_shown(part["condition"], depth + 2)
    lines += duties_shown(part, depth + 1)
    for child in part.get("children", []):
        lines += part_shown(child, depth + 1)
    return lines


def shown(results: list[dict]) -> str:
    """All results of an explanation."""
    lines = []
    for number, result in enumerate(results, 1):
        if len(results) > 1:
            name = f" ({result['individual']})" if "individual" in result else ""
            lines += ["", painted(f"Result {number} of {len(results)}{name}", "bold")]
        if "tree" in result:
            lines += part_shown(result["tree"])
            lines += ([line(0, f"named, where ReturnPolicyIdList asks for it: {', '.join(result['names'])}")]
                      if "names" in result else [])
        else:
            lines += [f"{decided(result['decision'])}, {result['status']}", labelled("because", result["because"])]
    return "\n".join(lines).strip("\n")
