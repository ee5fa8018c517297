"""The command `policy`: its words, and what each of them writes."""
from __future__ import annotations

import argparse
import json
import pathlib
import sys
from collections.abc import Callable
from dataclasses import dataclass

from . import (
    ask, asking, cases, deploy, deploy_words, diff, domain, exchange, explain, explained, files, laid_out, lints,
    packed, program, setting, text, together, two_domains)
from .check import Checked, Disagreement, Rows
from .faults import Remark, Remarks
from .live import weighed
from .model import versions
from .positions import Node
from .verdicts import (
    DISAGREE, FAULTS, FINE, USAGE, all_agree, check_pairs, chosen_program, print_remarks, print_summary)


# check


def domain_at(options: argparse.Namespace, path: str) -> bool:
    """Whether a domain's folder says what decides: its documents, its root and its rows."""
    return options.root is None and options.rows is None and domain.is_domain(path)


@dataclass
class Given:
    """What `check` is given: documents, rows, a root and where it stands; and what is remarked of a domain's file."""
    documents: list[Checked]
    rows: Rows | None
    root: versions.Reference | None
    root_node: Node | None
    remarks: Remarks


def given(options: argparse.Namespace) -> Given:
    """What the words of the command give, or the file of a domain's folder."""
    if len(options.files) == 1 and domain_at(options, options.files[0]):
        held, remarks = domain.domain_of(options.files[0])
        return (Given([], None, None, None, remarks) if held is None
                else Given(held.documents, held.rows, held.root, held.root_node, remarks))
    documents = files.documents(options.files)
    is_rooted = options.root is not None and all(one.is_sound for one in documents)
    root = setting.root_of(options.root, documents) if is_rooted else None
    return Given(documents, files.rows(options.rows), root, None, Remarks())


def checked_together(options: argparse.Namespace) -> Given:
    """What is given, with the remarks of all checks."""
    held = given(options)
    together.Together(held.documents).check()
    off = set(options.off)
    unknown = off - set(lints.NAMES) - set(together.NAMES)
    if unknown:
        raise setting.Usage(f"no lint is called {text.listed(sorted(unknown))}; `policy lints` lists them")
    lints.Lints(held.documents, held.rows, off).run()
    if held.rows is not None:
        weighed(held.rows)
    if held.root is not None and all(one.is_sound for one in held.documents):
        setting.check_root(setting.Setting(held.documents, held.root, None), held.remarks, held.root_node)
    return held


def check(options: argparse.Namespace) -> int:
    """Answers `check`."""
    held = checked_together(options)
    documents, rows = held.documents, held.rows
    found = chosen_program(options)
    pairs = check_pairs(documents, rows, found)
    every = [remark for one in [held, *documents, *([rows] if rows else [])] for remark in one.remarks.found]
    if options.json:
        print(json.dumps([remark.as_json() for remark in every], indent=2))
    else:
        print_remarks(every)
        print_summary(documents, rows, every, found)
    if not all_agree(pairs):
        return DISAGREE
    return FAULTS if any(remark.level == "fault" or options.strict and remark.level == "warning"
                         for remark in every) else FINE


# ask and explain


def setting_of(options: argparse.Namespace, paths: list[str]) -> setting.Setting | None:
    """What decides; None where a file has faults, which are said."""
    if len(paths) == 1 and domain_at(options, paths[0]):
        held = deploy.read_domain(paths[0], is_deployed=False)
        return held and held.setting()
    documents, rows = files.documents(paths), files.rows(options.rows)
    faults = [remark for one in documents for remark in one.remarks.faults()] + (rows.remarks.faults() if rows else [])
    if not faults:
        keys = together.Together(documents)
        keys.doubles()
        faults = [remark for one in documents for remark in one.remarks.faults()]
    if faults:
        print_remarks(faults)
        print(f"Nothing is decided: {text.counted(len(faults), 'fault')}.")
        return None
    return setting.Setting(documents, setting.root_of(options.root, documents), rows)


def remarks_on_root(held: setting.Setting) -> Remarks:
    """What is to be said of the root and of the source rows."""
    remarks = Remarks()
    setting.check_root(held, remarks)
    if held.rows is not None:
        lints.Lints([], held.rows, {"shorthand"}).run()
        remarks.found += held.rows.remarks.found
    return remarks


def decided(options: argparse.Namespace) -> int:
    """Answers `ask` and `explain`."""
    moment = setting.moment_of(options.at)
    held = setting_of(options, options.policy)
    if held is None:
        return FAULTS
    body = sys.stdin.buffer.read() if options.request == "-" else files.held(options.request)
    asked = asking.checked_request(options.request, body)
    found = chosen_program(options)
    answer = ask.answered(held, [(body, moment)], found)[0]
    shown = explain.explained(held, body, moment)
    pairs = [("the response", answer.by_model, answer.by_program)] if answer.by_program is not None else []
    if not all_agree(pairs) or not explanation_agrees(answer, shown):
        return DISAGREE
    remarks = remarks_on_root(held).found + asked.remarks.found
    if options.is_explained:
        print_explained(options, held, answer, shown, moment, remarks)
    else:
        print_asked(options, held, answer, moment, remarks)
    return FAULTS if any(remark.level == "fault" for remark in remarks) else FINE


def explanation_agrees(answer: ask.Answer, shown: list[dict] | None) -> bool:
    """Whether the explanation comes to the response; else that is said loudly."""
    if not ask.is_explained(answer.results(), shown):
        text.loud(f"THE EXPLANATION AND THE RESPONSE DISAGREE. The response: {answer.body[:400]}")
        return False
    return True


def behind(held: setting.Setting, answer: ask.Answer, moment: int) -> str:
    """When and by whom was decided, and that no rows are given, where none are."""
    by = "the model alone" if answer.by_program is None else "model and program"
    return f"\nat {setting.moment_shown(moment)}, by {by}" + ("; without rows (--rows)" if held.rows is None else "")


def print_asked(options: argparse.Namespace, held: setting.Setting, answer: ask.Answer, moment: int,
                remarks: list[Remark]) -> None:
    """The response, laid out and as the server writes it, or alone."""
    if options.raw:
        print(answer.body)
        return
    print_remarks(remarks)
    if answer.is_refused:
        print(answer.refusal)
        return
    print(laid_out.shown(answer.results()))
    print(f"{behind(held, answer, moment)}\nthe server writes:")
    print(answer.body)


def print_explained(options: argparse.Namespace, held: setting.Setting, answer: ask.Answer,
                    shown: list[dict] | None, moment: int, remarks: list[Remark]) -> None:
    """The explanation, as text or as JSON."""
    if options.json:
        whole = {"at": setting.moment_shown(moment),
                 "by": "model" if answer.by_program is None else "model and program",
                 "remarks": [remark.as_json() for remark in remarks],
                 "response": None if answer.is_refused else json.loads(answer.body), "results": shown}
        print(json.dumps(whole, indent=2, ensure_ascii=False))
        return
    print_remarks(remarks)
    if answer.is_refused:
        print(answer.refusal)
    elif shown is None:
        print(laid_out.shown(answer.results()))
        print("    because: the request as a whole isn't decided: it is no request of the profile, "
              "asks for a combined decision, or for more than 64")
    else:
        print(explained.shown(shown))
        print(behind(held, answer, moment))


# The command's words.


def add_question(parser: argparse.ArgumentParser) -> None:
    """The options of `ask` and `explain`."""
    parser.add_argument("--policy", nargs="+", required=True, metavar="FILE",
                        help="policy documents, all active; a folder stands for its documents")
    parser.add_argument("--root", metavar="ID",
                        help="the id of the document where a decision begins; "
                             "may be left out where there is one document")
    parser.add_argument("--rows", metavar="ROWS", help='source rows, {"Row":[..]}')
    parser.add_argument("--request", required=True, metavar="REQUEST",
                        help='the request, {"Request":{..}}; - for standard input')
    parser.add_argument("--at", metavar="TIME",
                        help="a dateTime, as 2026-11-23T10:00:00Z, or seconds since 1970; now where it is left out")


def add_check(parser: argparse.ArgumentParser) -> None:
    """The options of `check`."""
    parser.add_argument("files", nargs="+", metavar="FILE",
                        help="policy documents, which are active together; a folder stands for its documents, or, "
                             "alone and with a domain.json, for what that names")
    parser.add_argument("--rows", metavar="ROWS", help='source rows, {"Row":[..]}, checked too')
    parser.add_argument("--root", metavar="ID", help="the id of the document where decisions begin")
    parser.add_argument("--off", action="append", default=[], metavar="LINT",
                        help="switches a lint off (see `policy lints`)")
    parser.add_argument("--strict", action="store_true", help="ends with status 1 for warnings too")
    parser.add_argument("--json", action="store_true", help="writes the remarks as JSON")


def add_test(parser: argparse.ArgumentParser) -> None:
    """The options of `test`."""
    parser.add_argument("files", nargs="+", metavar="FILE", help="files of cases, and folders of domains")
    parser.add_argument("--junit", metavar="OUT", help="writes the results as JUnit XML too")
    parser.add_argument("--coverage", action="store_true",
                        help="lists rules, targets and conditions that no case reached both ways")
    parser.add_argument("--explain", action="store_true", dest="is_explained",
                        help="shows how each failed case came about, as the word `explain` does")


def add_diff(parser: argparse.ArgumentParser) -> None:
    """The options of `diff`."""
    parser.add_argument("old", nargs="?", metavar="OLD",
                        help="a document, or a folder of documents; with --live the domain's folder")
    parser.add_argument("new", nargs="?", metavar="NEW", help="a document, or a folder of documents")
    parser.add_argument("--requests", metavar="FILE", help="an array of requests, a request, or a file of cases")
    parser.add_argument("--random", type=int, default=0, metavar="N",
                        help="makes N requests from the values that the policies name")
    parser.add_argument("--seed", type=int, default=1, help="another seed makes other requests")
    parser.add_argument("--root", metavar="ID", help="the id of the document where a decision begins")
    parser.add_argument("--rows", metavar="ROWS", help='source rows, {"Row":[..]}')
    parser.add_argument("--at", metavar="TIME", help="the time of requests that have none of their own")
    parser.add_argument("--strict", action="store_true", help="ends with status 1 where an answer changes")


def parser() -> argparse.ArgumentParser:
    """The words of the command, with their options."""
    whole = argparse.ArgumentParser(prog="policy",
                                    description="A policy author's desk: what is wrong with a policy, "
                                                "what it decides, and why.",
                                    epilog="Exit status: 0 fine, 1 faults or failed cases, 2 usage, 3 model and "
                                           "program disagree, 4 the server refuses or is away.")
    whole.add_argument("--version", action="version", version=packed.version())
    words = whole.add_subparsers(dest="word", required=True, metavar="WORD")
    asks = argparse.ArgumentParser(add_help=False)
    asks.add_argument("--program", default="", metavar="PATH",
                      help="the program that is asked: a path, `try` for one that may be compiled "
                           "without proof, and is kept, `none` for the model alone")
    asks.add_argument("--build", action="store_true",
                      help="proves and builds the program first, where it isn't built of these sources")

    def word(name: str, meaning: str, run: Callable, add: Callable | None, **more: object) -> argparse.ArgumentParser:
        one = words.add_parser(name, parents=[asks] if add else [], help=meaning,
                               description=meaning[0].upper() + meaning[1:] + ".")
        if add:
            add(one)
        one.set_defaults(run=run, **more)
        return one

    exchange.add_words(word)
    word("check", "names all faults of documents, with their places", check, add_check)
    one = word("ask", "decides on a request", decided, add_question, is_explained=False)
    one.add_argument("--raw", action="store_true", help="writes the body of the response alone")
    one = word("explain", "shows how a decision comes about", decided, add_question, is_explained=True)
    one.add_argument("--json", action="store_true", help="writes the explanation as JSON")
    word("test", "runs cases", cases_run, add_test)
    one = word("diff", "shows requests whose answer changes from one set of documents to another", diff_run, add_diff)
    one.add_argument("--live", action="store_true", help="compares what the server has with the domain's folder OLD")
    deploy_words.add_server(one)
    one.set_defaults(live_run=deploy.live_diff)
    deploy_words.add_words(word)
    word("build", "proves and builds the program, and keeps it for the other words", lambda _: program.built(), None)
    word("lints", "lists the lints by their names", lints_run, None)
    word("page", "shows the desk's page", lambda _: packed.page(), None)
    return whole


def lints_run(_: argparse.Namespace) -> int:
    """Answers `lints`."""
    for name, meaning in {**lints.NAMES, **together.NAMES}.items():
        print(f"{name:18} {meaning}")
    return FINE


def readers_at(path: str) -> list[cases.CaseReader] | None:
    """What reads a file of cases, or those of a domain's folder; None where the domain has faults, which are said."""
    is_folder = domain.is_domain(path)
    if not is_folder and not domain.is_about_a_domain(path):
        return [cases.CaseReader(path)]
    held = deploy.read_domain(path if is_folder else str(pathlib.Path(path).parent), is_deployed=False)
    if held is not None and is_folder and not held.cases:
        raise setting.Usage(f"{path} is a domain without cases: {domain.FILE} names none")
    return held and [domain.DomainCases(each, held) for each in (held.cases if is_folder else [path])]


def cases_run(options: argparse.Namespace) -> int:
    """Answers `test`."""
    found = [readers_at(path) for path in options.files]
    if None in found:
        return FAULTS
    return cases.run(sum(found, []), chosen_program(options), options)


def diff_run(options: argparse.Namespace) -> int:
    """Answers `diff`."""
    if options.live and options.new is not None:
        raise setting.Usage("diff --live takes the domain's folder alone")
    if options.live:
        return options.live_run(options)
    if options.new is None or options.json:
        raise setting.Usage("diff needs OLD and NEW, or --live, with which --json goes")
    if domain_at(options, options.old) and domain_at(options, options.new):
        return domains_diff(options)
    old, new = setting_of(options, [options.old]), setting_of(options, [options.new])
    if old is None or new is None:
        return FAULTS
    return diff.run(old, new, options, chosen_program(options))


def domains_diff(options: argparse.Namespace) -> int:
    """Answers `diff` of two folders that are domains: also without requests."""
    old, new = (deploy.read_domain(path, is_deployed=False) for path in (options.old, options.new))
    if old is None or new is None:
        return FAULTS
    differs = two_domains.print_differences(old, new)
    if options.requests or options.random:
        return diff.run(old.setting(), new.setting(), options, chosen_program(options))
    return FAULTS if differs and options.strict else FINE


def main(words: list[str] | None = None) -> int:
    """Runs the command; its exit status. All that it writes passes one filter."""
    with text.filtered():
        return ran(words)


def ran(words: list[str] | None) -> int:
    """The exit status of the command."""
    options = parser().parse_args(words)
    try:
        return options.run(options)
    except setting.Usage as fault:
        print(f"policy: {fault}", file=sys.stderr)
        return USAGE
    except (Disagreement, program.ProgramFailed) as fault:
        text.loud(str(fault))
        return DISAGREE
    except BrokenPipeError:
        return FINE
