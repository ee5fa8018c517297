#!/usr/bin/env python3
"""Writes the numbers of the functions' names, by which proofs/TableLemmas.antt tells that names are distinct, and its
lines on single functions.

usage: crates/xa_func/numbers.py             writes the file, where more than its line breaks would be other ones
       crates/xa_func/numbers.py --check     says whether it would

The names are those of tests/model/names.py. A function that is new there comes behind those of its family; what is no
longer there goes. Where two names have one number, the next modulus is taken by which all differ. The lines of
`nowhere` follow the order of `SINGLE` in src/names.rt.
"""
import pathlib
import re
import sys

HERE = pathlib.Path(__file__).resolve().parent
sys.path.insert(0, str(HERE.parent.parent / "tests" / "model"))
sys.dont_write_bytecode = True

from names import NAMES  # noqa: E402

LEMMAS, CODE = HERE / "proofs" / "TableLemmas.antt", HERE / "src" / "names.rt"
WIDTH = 150
# under which alias the lemmas have the arguments of each family
ALIASES = {
    "Equal": ["type"], "Compare": ["comparison", "ordered"], "Arithmetic": ["arithmetic"], "Logic": ["logic"],
    "Text": ["text_function"], "Part": ["part", "text_type"], "StringFrom": ["printed"], "FromString": ["printed"],
    "Move": ["moved", "direction"], "Bag": ["bag", "type"], "HigherOrder": ["higher"],
}


def term(word):
    """A function as the lemmas write it: of `Part(Contains, AnyUri)` it is
    `function.Part part.Contains text_type.AnyUri`."""
    family, *inner = re.findall(r"\w+", word)
    return " ".join(["function." + family, *(f"{alias}.{it}" for alias, it in zip(ALIASES.get(family, []), inner))])


def number(modulus, text):
    found = 0
    for byte in text.encode():
        found = (found * 7 + byte) % modulus
    return found


def in_order(terms, listed):
    """The terms as they are listed, and each that isn't behind the last of its family."""
    held = [it for it in dict.fromkeys(listed) if it in terms]
    for it in terms:
        if it not in held:
            family = it.split()[0]
            places = [place for place, other in enumerate(held, 1) if other.split()[0] == family]
            held.insert(max(places, default=len(held)), it)
    return held


def filled(items):
    """The items in lines, as many in each as its width has room for, with four spaces before."""
    lines = [[]]
    for it in items:
        if lines[-1] and 4 + len(" ".join(lines[-1] + [it])) > WIDTH:
            lines.append([])
        lines[-1].append(it)
    return "\n".join("    " + " ".join(line) for line in lines)


def numbers(text):
    """The text with another list, and another modulus where that is wanted."""
    first, later = {}, {}
    for uri, (word, _) in NAMES.items():
        (later if term(word) in first else first)[term(word)] = uri
    listed = re.findall(r"\(\d+, (function\.[\w. ]+)\)", text)
    order = [(it, first[it]) for it in in_order(first, listed[:len(listed) - len(later)])]
    order += [(it, later[it]) for it in in_order(later, listed[len(listed) - len(later):])]
    modulus = int(re.search(r"\(n \* 7 \+ c\) % (\d+)\)", text)[1])
    while len({number(modulus, uri) for _, uri in order}) < len(order):
        modulus += 1
    items = [f"({number(modulus, uri)}, {it}) ∷" for it, uri in order] + ["[]"]
    text = re.sub(r"(\(n \* 7 \+ c\) % )\d+\)", rf"\g<1>{modulus})", text)
    place = r"(?<=\nby_number =\n).*?\n(?=\nabbrev function_of)"
    return re.sub(place, lambda _: filled(items) + "\n", text, flags=re.S)


def nowhere(text):
    """The text with a line for each function of SINGLE."""
    code = CODE.read_text(encoding="utf-8")
    single = re.search(r"const SINGLE: \[FuncId; \d+\] = \[(.*?)\];", code, re.S)[1]
    words = [re.sub(r"\w+::", "", line.strip().rstrip(",")) for line in single.strip().splitlines()]
    lines = []
    for place, word in enumerate(words):
        it = term(word)
        lines.append(f"nowhere text none {f'({it})' if ' ' in it else it} = "
                     f"(no_other (names text) SINGLE none.single){'.1' * place}.0\n")
    place = r"(?:nowhere text none [^\n]* = \(no_other \(names text\) SINGLE none\.single\)[.01]+\n)+"
    return re.sub(place, lambda _: "".join(lines), text)


def main():
    text = LEMMAS.read_text(encoding="utf-8")
    wanted = nowhere(numbers(text))
    same = text.split() == wanted.split()
    if sys.argv[1:] == ["--check"]:
        print("as it would be written" if same else "not as it would be written")
        return 0 if same else 1
    if not same:
        LEMMAS.write_text(wanted, encoding="utf-8")
        print(f"wrote crates/xa_func/proofs/{LEMMAS.name}")
    return 0


if __name__ == "__main__":
    sys.exit(main())
