#!/usr/bin/env python3
"""Looks whether what the pages (*.md) have between the comments `pages: ..` and `end of pages` is what is generated of
the files that it names, whether a line of prose is longer than 110 columns, whether each link leads to a file of the
repository and to a heading in it, whether files and commands that pages name are there, whether each public call has an
example in its crate's CALLING.md, whether numbers that were counted by hand and figures that were measured still hold,
whether bench/all names what it leaves out, whether a word of ours stands for one of the field's, and whether all pages
together have more words than they may. Takes some seconds.

usage: tests/pages.py             looks; the last line is 'N passed, M failed'
       tests/pages.py --write     writes what is generated, and wraps prose at 100 columns
       tests/pages.py --words     tells the words of each page: all, and those that are neither generated nor code

tests/page_parts.py has what is generated, by the words of the marks; tests/page_numbers.py the numbers;
tests/page_figures.py the figures.
"""
import functools
import os
import pathlib
import re
import subprocess
import sys

sys.dont_write_bytecode = True

TOP = pathlib.Path(__file__).resolve().parent.parent
sys.path.insert(0, str(TOP / "tests"))

from page_figures import wrong_figures  # noqa: E402
from page_numbers import wrong_numbers  # noqa: E402
from page_parts import DECISIONS, ITEM, anchor_of, decided, generated, wrapped  # noqa: E402

GREATEST, MOST_WORDS = 110, 42_000
FOLDERS = "tests|bench|tools|examples|deploy|edits|docs|crates"
# Words of code and contracts, in whose place docs/GLOSSARY.md has the field's: store, lack of memory, decision request.
OURS = re.compile(r"\b(?:keepers?|want\s+of\s+memory|whole\s+orders?|"
                  r"(?:an|each|every|one|another) ask|(?:all|ordinary) asks)\b")
GENERATED = re.compile(r"<!-- (?!end)[^>]*-->\n.*?<!-- end of [^>]*-->", re.S)


# ---- prose

def laid_out(text):
    """A page whose prose is wrapped: tables, headings, code and what stands between marks stay as they are."""
    out, paragraph, kept = [], [], ""

    def close():
        if paragraph:
            out.extend(wrapped(paragraph))
            paragraph.clear()

    all_lines = text.split("\n")
    for number, line in enumerate(all_lines):
        if kept:
            kept = "" if line.startswith(kept) else kept
        elif line.startswith(("```", "<!--")):
            close()
            kept = ("```" if line.startswith("```") else "" if "-->" in line
                    and line.startswith("<!-- end") else "<!-- end")
        elif not line.strip() or line.startswith(("|", "#", "    ")) and not (paragraph and line.startswith("    ")):
            close()
        else:
            if ITEM.match(line) and not (paragraph and line.startswith("> ")):
                close()
            paragraph.append(line)
            continue
        if kept or line or out[-1:] != [""] or number == len(all_lines) - 1:
            out.append(line)
    close()
    return "\n".join(out)


def pages():
    """All pages of the repository; without git, all that stand in its folders but what is built."""
    asked = ["git", "ls-files", "--cached", "--others", "--exclude-standard", "*.md"]
    ran = subprocess.run(asked, cwd=TOP, capture_output=True, text=True, check=False)
    found = [TOP / name for name in ran.stdout.splitlines()] if ran.returncode == 0 else TOP.rglob("*.md")
    built = (TOP / "build", *TOP.glob("crates/*/out"))
    return sorted({path for path in found if path.is_file() and not any(folder in path.parents for folder in built)})


def without_code(text):
    """A page without blocks of code."""
    text = re.sub(r"^```.*?^```$", "", text, flags=re.S | re.M)
    return "\n".join(line for line in text.split("\n") if not line.startswith("    "))


def plain(text):
    """A page without code and without what is generated."""
    return without_code(GENERATED.sub("", text))


# ---- links

def anchors(text):
    found = re.findall(r"^#+ (.*)$", re.sub(r"^```.*?^```$", "", text, flags=re.S | re.M), re.M)
    return {anchor_of(heading) for heading in found}


@functools.cache
def all_files():
    """All files and folders of the repository, each with a slash before its path."""
    return [f"/{path.relative_to(TOP)}" for top in TOP.iterdir() if not top.name.startswith(".") and top.name != "build"
            for path in (top, *top.rglob("*"))]


def named_files(text):
    """The files of code, rows and definitions that stand in code spans."""
    for span in re.findall(r"`([^`\n]+)`", text):
        if re.fullmatch(r"[a-z][\w/]*\.(rt|rows|py|antt)", span):
            yield span, f"/{span}"
        elif re.fullmatch(r"(\w+/)*(specs|proofs)/\w+(/\w+)*", span):
            yield span, f"/{span}.antt"


@functools.cache
def targets():
    """The words that `make` takes."""
    return set(re.findall(r"^([a-z-]+):", (TOP / "Makefile").read_text(encoding="utf-8"), re.M))


def lost_commands(text, folder):
    """The commands in code that aren't there: a word of `make`, or a path of a script or a file, which isn't built."""
    code = re.findall(r"`([^`\n]+)`|^    (.*)$", text, re.M)
    for line in (one or other for one, other in code):
        yield from (f"make {word}" for word in re.findall(r"^(?:\$ )?make ([a-z-]+)", line) if word not in targets())
        for name in re.findall(rf"(?<![\w/.-])(?:{FOLDERS})/[\w./*-]*\w", line):
            is_named = not re.search(r"[A-Z]{2}|/[A-Z]\b|\.\.|/out\b", name)
            if is_named and not any(any(top.glob(name)) for top in (TOP, folder)):
                yield name


def unnamed_benchmarks():
    """The benchmarks, which can be started, that bench/all neither runs nor says that it leaves out."""
    text = (TOP / "bench" / "all").read_text(encoding="utf-8")
    for path in sorted((TOP / "bench").iterdir()):
        if path.is_file() and os.access(path, os.X_OK) and path.name not in ("all", "page.py"):
            if not re.search(rf"(?<![\w.]){re.escape(path.name)}(?![\w.]*\w)", text):
                yield path.name


def public_calls(crate):
    """The functions that others may call: those of public types and traits, and those that the root file names."""
    texts = {path.stem: path.read_text(encoding="utf-8") for path in (crate / "src").rglob("*.rt")}
    named = (re.sub(r"^mod .*$", "", texts["lib"], flags=re.M)
             + "".join(texts[name] for name in re.findall(r"^pub mod (\w+);", texts["lib"], re.M)))
    for text in texts.values():
        yield from re.findall(r"^    pub (?:const )?fn (\w+)", text, re.M)
        yield from (name
                    for name in re.findall(r"^pub (?:const )?fn (\w+)", text, re.M) if re.search(rf"\b{name}\b", named))
        for body in re.findall(r"^pub trait \w+.*?^}", text, re.M | re.S):
            yield from re.findall(r"^    fn (\w+)", body, re.M)


def faults_of(path):
    text = path.read_text(encoding="utf-8")
    yield from (f"no command or file {name}" for name in lost_commands(GENERATED.sub("", text), path.parent))
    if path.name == "CALLING.md":
        yield from (f"no example of {name}" for name in sorted(set(public_calls(path.parent)))
                    if not re.search(rf"\b{name}\b", text))
    if path.parent == DECISIONS:
        yield from (f"no date: {heading}" for heading, date, _ in decided(path.stem) if date == "no date")
    if path == TOP / "bench" / "README.md":
        yield from (f"bench/all neither runs nor names {name}" for name in unnamed_benchmarks())
    for span, name in named_files(plain(text)):
        if not any(each.endswith((name, name.removesuffix(".antt"))) for each in all_files()):
            yield f"no file {span}"
    yield from wrong_numbers(str(path.relative_to(TOP)))
    yield from wrong_figures(str(path.relative_to(TOP)))
    if path.name not in ("GLOSSARY.md", "DEFINITIONS.md"):
        prose = re.sub(r"`[^`\n]*`|\]\([^)]*\)", "", without_code(text))
        yield from (f"a word of ours: {word}" for word in OURS.findall(prose))
    if text != generated(text, path.parent):
        yield "what is generated is stale: make pages"
    for number, line in enumerate(plain(text).split("\n"), 1):
        if len(line) > GREATEST and not line.startswith("|") and "](" not in line and "`" not in line:
            yield f"a line of {len(line)} columns (make pages): {line[:60]}.."
    for target in re.findall(r"\]\(([^)\s]+)\)", re.sub(r"`[^`\n]*`", "", without_code(text))):
        name, _, anchor = target.partition("#")
        if re.match(r"\w+:", target):
            continue
        there = (path.parent / name).resolve() if name else path
        if not there.exists():
            yield f"no file {target}"
        elif anchor and anchor not in anchors(there.read_text(encoding="utf-8")):
            yield f"no heading {target}"


def counted():
    """Each page with its words, which have a letter or a digit, and with those that count."""
    for path in pages():
        text = path.read_text(encoding="utf-8")
        yield path, *(sum(re.search(r"\w", word) is not None for word in each.split()) for each in (text, plain(text)))


def words():
    found = [(str(path.relative_to(TOP)), *counts) for path, *counts in counted()]
    for name, every, counts in [*found, ("all", *(sum(each[place] for each in found) for place in (1, 2)))]:
        print(f"{every:6} {counts:6}  {name}")


def main():
    if sys.argv[1:] == ["--words"]:
        return words()
    passed = failed = 0
    for path in pages():
        if sys.argv[1:] == ["--write"]:
            text = path.read_text(encoding="utf-8")
            if (made := laid_out(generated(text, path.parent))) != text:
                path.write_text(made, encoding="utf-8")
                print(f"wrote {path.relative_to(TOP)}")
            continue
        found = list(faults_of(path))
        passed, failed = passed + (not found), failed + len(found)
        for fault in found:
            print(f"FAILED {path.relative_to(TOP)}: {fault}")
    if sys.argv[1:] != ["--write"]:
        if (total := sum(counts for _, _, counts in counted())) > MOST_WORDS:
            failed += 1
            print(f"FAILED all pages have {total:,} words, and may have {MOST_WORDS:,}: tests/pages.py --words")
        print(f"{passed} passed, {failed} failed")
    return 1 if failed else 0


if __name__ == "__main__":
    sys.exit(main())
