"""What words of the command come to: their exit statuses, which program is asked and whether the model says the
same, and what is printed of documents and rows."""
from __future__ import annotations

import argparse
import contextlib
import sys
from typing import TextIO

from . import program, setting, text
from .check import Checked, Rows
from .faults import Remark
from .live import bytes_left, row_lines
from .model import documents as documents_of_model
from .model import route_bodies
from .model import rows as model_rows

# remarks that are printed of a file
MOST_PRINTED = 200
FINE, FAULTS, USAGE, DISAGREE = 0, 1, 2, 3
ONLY_MODEL = "only the model in Python spoke"
NOT_BUILT = "xa_trials, the desk's proved program, isn't built: "
WAY_TO_BOTH = (". `--program PATH` names a program that answers too." if program.IS_PACKED else
               ". `--program try` compiles it without proof, in minutes; `tools/policy/policy.py build` proves it, "
               "within an hour.")


def chosen_program(options: argparse.Namespace) -> program.Program | None:
    """The program that is asked; what isn't sure about it is said, and loudly where there is none."""
    if options.build and not options.program:
        with contextlib.redirect_stdout(sys.stderr):
            program.built()
    found = program.found(options.program)
    if found is None:
        text.warn(f"{ONLY_MODEL}." if program.is_none(options.program) else NOT_BUILT + ONLY_MODEL + WAY_TO_BOTH)
    elif found.warning:
        text.warn(found.warning)
    return found


def all_agree(pairs: list[tuple[str, str, str]]) -> bool:
    """Whether model and program say the same; else each difference is said loudly. A pair is a name and
    what each of them says."""
    for name, by_model, by_program in pairs:
        if by_model != by_program:
            text.loud(f"MODEL AND PROGRAM DISAGREE on {name}. The model: {by_model[:400]} The program: "
                      f"{by_program[:400]} One of them is wrong: please report this with the files.")
    return all(by_model == by_program for _, by_model, by_program in pairs)


def check_pairs(documents: list[Checked], rows: Rows | None,
                found: program.Program | None) -> list[tuple[str, str, str]]:
    """What the model and the program say of each file."""
    if found is None:
        return []
    asked = [(one.source.path, documents_of_model.document, "document", one.source.held) for one in documents]
    if rows is not None:
        asked.append((rows.source.path, route_bodies.rows, "rows", rows.source.held))
    fields = [model_rows.encoded(held) for _, _, _, held in asked]
    answers = found.answers([[kind, field] for (_, _, kind, _), field in zip(asked, fields)])
    return [(name, " ".join(by_model(field)), " ".join(by_program))
            for (name, by_model, _, _), field, by_program in zip(asked, fields, answers)]


def print_remarks(found: list[Remark], to: TextIO | None = None) -> None:
    """Remarks, in the order of their places: the first ones of each file; on standard output, or `to`."""
    by_path: dict[str, list[Remark]] = {}
    for remark in sorted(found, key=lambda remark: (remark.source.path, remark.start)):
        by_path.setdefault(remark.source.path, []).append(remark)
    for path, remarks in by_path.items():
        for remark in remarks[:MOST_PRINTED]:
            print(text.remark_shown(remark) + "\n", file=to)
        if len(remarks) > MOST_PRINTED:
            print(f"{path}: {len(remarks) - MOST_PRINTED} more; --json writes all\n", file=to)


def print_summary(documents: list[Checked], rows: Rows | None, every: list[Remark],
                  found: program.Program | None) -> None:
    """What became of each file, and how much was remarked."""
    for one in documents:
        named = (f"{setting.KIND_NAMES[one.document.kind]} {one.document.name} {one.document.version or '?'}"
                 if one.document else "no document")
        verdict = (text.painted("taken", "green") if one.is_sound
                   else text.painted(f"refused, {text.of_server(one.code)}", "red"))
        print(text.wrapped(f"{one.source.path}: {named}", "", "    ") + f": {verdict}")
    if rows is not None:
        left = "" if rows.code else f"; {bytes_left(row_lines(rows)):,} bytes of a body are left"
        print(f"{rows.source.path}: {text.counted(len(rows.rows), 'row')}: "
              + (f"refused, {rows.code}" if rows.code else "taken") + left)
    counts = [text.counted(sum(remark.level == level for remark in every), level)
              for level in ("fault", "warning", "note")]
    print(", ".join(counts)
          + ("; by the model in Python alone." if found is None else "; the proved program says the same."
             if not found.warning else "; the program says the same."))
