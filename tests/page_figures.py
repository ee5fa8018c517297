"""The figures by which docs/PERFORMANCE.md begins, and those of docs/GATE.md that a benchmark gives, against the tables
behind them: each is the number of a table, off by a twentieth or by half of its last place at the most, and all tables
behind the beginning are of one commit. What isn't measured yet isn't compared."""
import pathlib
import re

TOP = pathlib.Path(__file__).resolve().parent.parent
PAGE, GATE = "docs/PERFORMANCE.md", "docs/GATE.md"
ASKS, DOMAINS, LISTEN, STORE = "asks.py", "domains.py", "listen.py", "store.py"
WORKED_OUT = "worked out: 1,000 requests in turn"
# Each place of a page with its figures in groups; and for each of these the table, how its line begins, and which of
# the numbers behind that beginning the figure is of: of all of them that are named.
FIGURES = [
    (PAGE, r"cost\?\]\S+ \| ([\d.]+) microseconds .* kept, else ([\d.]+),",
     [(DOMAINS, "a decision that is kept", (0, 1)), (DOMAINS, "a decision, another each time", (0, 1))]),
    (PAGE, r"more rules\?\]\S+ \| (\d+) by ten, (\d+) by 50, (\d+) by 150 ",
     [(ASKS, WORKED_OUT + rules, (0,)) for rules in ("  ", ", 50 rules", ", 150 rules")]),
    (PAGE, r"activation\?\]\S+ \| (\d+) to (\d+) microseconds; (\d+) ",
     [(DOMAINS, "an upload, and its deletion", (1,)), (DOMAINS, "an upload, and its deletion", (0,)),
      (DOMAINS, "an activation, and a withdrawal", (0, 1))]),
    (PAGE, r"8 and 64\? \| ([\d,]+), ([\d,]+) and ([\d,]+); by 1,000 clients of HAProxy ([\d,]+) ",
     [(LISTEN, line, (0,)) for line in (r"pdpd listen +1 ", r"pdpd listen +8 ", r"pdpd listen +64 ",
                                        r"pdpd listen, HAProxy +1,000 ")]),
    (PAGE, r"wait\? \| half ([\d.]+), ([\d.]+) and ([\d.]+) ms .* HAProxy ([\d.]+) and ([\d.]+) ",
     [*((LISTEN, rf"pdpd listen +{clients} ", (1,)) for clients in (1, 8, 64)),
      *((LISTEN, "pdpd listen, HAProxy +1,000 ", (at,)) for at in (1, 2))]),
    (PAGE, r"99 in 100 at most ([\d.]+), ([\d.]+) and ([\d.]+);",
     [(LISTEN, rf"pdpd listen +{clients} ", (2,)) for clients in (1, 8, 64)]),
    (PAGE, r"the first decision takes ([\d.]+) s ", [("worst.py asks", "the root leads to 255 policies, which", (0,))]),
    (PAGE, r"opened in ([\d.]+) s, (\d+) MiB of memory",
     [(STORE, "opening, processor s", (2,)), (STORE, "memory then, MiB", (2,))]),
    (GATE, r"a\s+decision\s+took\s+(\d+)\s+to\s+(\d+)\s+times\s+the\s+processor\s+time",
     [("unoptimised.py", line, (2,)) for line in ("kept: the same bytes again", "worked out: 1,000 in turn")]),
]


def table(name):
    """The text between the marks of that benchmark."""
    text = (TOP / PAGE).read_text(encoding="utf-8")
    return re.search(rf"<!-- bench/{re.escape(name)} -->\n(.*?)<!-- end of bench/{re.escape(name)} -->", text, re.S)[1]


def measured(name, line, places):
    """Those numbers of a line of a table; none, if it isn't measured yet."""
    held = table(name)
    if "Not measured yet" in held:
        return None
    found = re.search(rf"(?m)^{line}(.*)$", held)
    numbers = re.findall(r"(?<![\w.])[\d,]*\.?\d+(?![\w.])", found[1].partition("   {")[0]) if found else []
    return [float(numbers[place].replace(",", "")) for place in places] if len(numbers) > max(places) else []


def is_about(said, found):
    """Whether a figure is that number: zeros at the end of a whole one aren't places."""
    digits = said.replace(",", "")
    last = 10.0 ** -len(digits.partition(".")[2]) if "." in digits else 10.0 ** (len(digits) - len(digits.rstrip("0")))
    return abs(float(digits) - found) <= max(found / 20, last / 2)


def wrong_figures(page):
    """What is wrong with the figures of a page."""
    text = (TOP / page).read_text(encoding="utf-8") if page in (PAGE, GATE) else ""
    for name, pattern, sources in FIGURES if text else ():
        if name != page:
            continue
        said = re.search(pattern, text)
        if not said:
            yield f"no figures where there should be {pattern}"
            continue
        found = [measured(*source) for source in sources]
        if name == GATE and None not in found:
            found.sort()  # the least and the greatest
        for figure, numbers, (benchmark, line, _) in zip(said.groups(), found, sources):
            if numbers is not None and not (numbers and all(is_about(figure, each) for each in numbers)):
                yield f"{figure} for {numbers} of bench/{benchmark}, {line.strip()}"
    yield from several_commits(page)


def several_commits(page):
    """Whether the tables behind the beginning of the page of figures are of several commits."""
    names = {benchmark for name, _, sources in FIGURES if name == page == PAGE for benchmark, _, _ in sources}
    commits = {name: re.findall(r"`([0-9a-f]{7,40})`", table(name).partition("```")[0]) for name in sorted(names)}
    if len({tuple(found) for found in commits.values()}) > 1 or [] in commits.values():
        yield f"the tables behind the beginning aren't of one commit: {commits}"
