"""The words that speak with a server: `status`, `diff --live`, `deploy`, `rollback` and `pull`."""
from __future__ import annotations

import argparse
import contextlib
import json
import sys
from collections.abc import Callable

from . import cases, coverage, diff, lints, pull, records, setting, text, together
from .changes import Action, Changes, Target, changes_of
from .check import checked_rows
from .deploying import Deployment
from .deploy_shown import print_changes, print_domain, print_mixed, print_verdict
from .domain import Domain, DomainCases, domain_of, requests_of
from .live import Live, key_shown, live_of, rows_body, weighed
from .program import Program
from .verdicts import (
    DISAGREE, FAULTS, FINE, all_agree, check_pairs, chosen_program, print_remarks, print_summary)
from .wire import Client, ServerFault, is_readable_underway, token_of

NOT_DONE = 4


def client_of(options: argparse.Namespace, server: str, name: str) -> Client:
    """The client of a domain."""
    if is_readable_underway(server):
        said = f"{server} is another machine, and isn't reached by TLS: whoever is between can read the token"
        if not options.allow_http:
            raise setting.Usage(f"{said}. --allow-http sends it all the same")
        text.warn(said)
    return Client(server, name, token_of(options.token_file), options.timeout)


def told(run: Callable[[argparse.Namespace], int]) -> Callable[[argparse.Namespace], int]:
    """The same word, which says what the server refuses, and ends with a status of its own."""
    def telling(options: argparse.Namespace) -> int:
        try:
            return run(options)
        except ServerFault as fault:
            if getattr(options, "json", False):
                print(json.dumps({"error": str(fault)}))
            end = "" if str(fault).endswith("?") else "."
            print(text.wrapped(f"policy: {fault}{end}", "", "    "), file=sys.stderr)
            return NOT_DONE
    return telling


def beside(options: argparse.Namespace) -> contextlib.AbstractContextManager:
    """Where text for people goes: beside JSON to standard error."""
    return contextlib.redirect_stdout(sys.stderr if options.json else sys.stdout)


def read_domain(folder: str, *, is_deployed: bool = True) -> Domain | None:
    """The domain that the folder is; None where its files have faults, which are said."""
    found, remarks = domain_of(folder)
    if is_deployed and found is not None and found.root is not None and not found.documents:
        remarks.fault("domain", found.root_node, "A root needs documents.")
    faults = remarks.faults() + (found.faults() if found else [])
    if found is not None and not faults:
        together.Together(found.documents).doubles()
        faults = found.faults()
    if faults:
        print_remarks(faults)
        print(text.counted(len(faults), "fault") + ".")
        return None
    return found


# what is checked before


def is_checked(domain: Domain, options: argparse.Namespace, found: Program | None) -> tuple[bool, bool]:
    """Whether the documents and rows have no faults, and whether model and program agree."""
    if domain.rows is not None:
        weighed(domain.rows)
    together.Together(domain.documents).check()
    lints.Lints(domain.documents, domain.rows, set(options.off)).run()
    if domain.root is not None:
        setting.check_root(domain.setting(), domain.documents[0].remarks, domain.root_node)
    every = [remark for one in domain.documents
             for remark in one.remarks.found] + (domain.rows.remarks.found if domain.rows else [])
    print_remarks([remark for remark in every if remark.level != "note"])
    print_summary(domain.documents, domain.rows, every, found)
    is_fine = not any(remark.level == "fault" or options.strict and remark.level == "warning"
                      for remark in every)
    return is_fine, all_agree(check_pairs(domain.documents, domain.rows, found))


def is_tested(domain: Domain, found: Program | None) -> tuple[bool, bool]:
    """Whether the cases are decided as expected, and whether model and program agree."""
    is_fine, agree, outcomes = True, True, []
    for path in domain.cases:
        reader = DomainCases(path, domain)
        suite = reader.suite()
        if suite is None:
            is_fine = False
            print_remarks(reader.remarks.faults())
            continue
        agree = cases.run_suite(suite, found, coverage.Coverage()) and agree
        for one in suite.outcomes:
            if one.failures:
                cases.print_outcome(one)
        outcomes += suite.outcomes
    failed = sum(bool(one.failures) for one in outcomes)
    print(text.wrapped(f"{text.counted(len(outcomes), 'case')}: {len(outcomes) - failed} ok, {failed} failed."
                       + (" `policy test --explain` shows how each failed one came about." if failed else "")))
    return is_fine and not failed, agree


def before(domain: Domain, options: argparse.Namespace, found: Program | None) -> int:
    """Checks and tests; the exit status."""
    is_fine, agree = is_checked(domain, options, found)
    is_right, agrees = is_tested(domain, found) if is_fine else (False, True)
    return DISAGREE if not (agree and agrees) else FINE if is_right else FAULTS


def answers_change(changes: Changes, options: argparse.Namespace, found: Program | None) -> int:
    """Shows which answers change; the exit status."""
    if not (options.requests or options.random):
        return FINE
    old = changes.old_setting()
    if old is None:
        print("Which answers change isn't known, since the root isn't: --live-root says what it is.")
        return FINE
    if changes.root.is_open:
        print("The root isn't known: what is shown as before is as if there were none.")
    return diff.run(old, changes.new_setting(), options, found)


# the words


def target_of(domain: Domain) -> Target:
    """What the folder says is to run."""
    return Target(domain.root, domain.texts(), domain.rows)


@told
def status(options: argparse.Namespace) -> int:
    """Answers `status`."""
    with beside(options):
        domain = read_domain(options.folder)
    if domain is None:
        return FAULTS
    live = live_of(client_of(options, domain.server, domain.name))
    changes = changes_of(live, target_of(domain), False, options.live_root, requests_of(domain))
    is_same = changes.is_nothing() and not changes.clashes()
    if options.json:
        heads = [changes.records.head(number) for number in changes.records.numbers()]
        found = [{"number": head.number, "begun": head.begun, "by": head.by,
                  "finished": changes.records.is_finished(head.number)} for head in heads]
        print(json.dumps({"server": domain.server, "domain": domain.name, "same": is_same and changes.root.is_shown,
                          "deployments": found, **changes.as_json()}, indent=2))
    else:
        print_domain(changes)
        print_verdict(changes, is_same)
    return FAULTS if changes.is_others_root() or options.strict and not (is_same and changes.root.is_shown) else FINE


@told
def live_diff(options: argparse.Namespace) -> int:
    """Answers `diff --live`."""
    with beside(options):
        domain = read_domain(options.old or ".")
        if domain is not None and domain.rows is not None:
            weighed(domain.rows)
            print_remarks(domain.rows.remarks.faults())
    if domain is None or domain.faults():
        return FAULTS
    live = live_of(client_of(options, domain.server, domain.name))
    changes = changes_of(live, target_of(domain), False, options.live_root, requests_of(domain))
    actions = [] if changes.clashes() or changes.is_nothing() else changes.actions(changes.draft())
    if options.json:
        print(json.dumps({"server": domain.server, "domain": domain.name, **changes.as_json(),
                          "steps": [one.as_json() for one in actions]}, indent=2))
    else:
        print_domain(changes)
        print_changes(changes, actions)
        if actions:
            print_mixed(changes, actions)
        elif not changes.clashes():
            print_verdict(changes, True)
    if changes.clashes():
        return FAULTS
    found = chosen_program(options) if options.requests or options.random else None
    with beside(options):
        answered = answers_change(changes, options, found)
    is_wrong = options.strict and not (changes.is_nothing() and changes.root.is_shown)
    return answered or (FAULTS if is_wrong or changes.is_others_root() else FINE)


@told
def deploy(options: argparse.Namespace) -> int:
    """Answers `deploy`."""
    with beside(options):
        domain = read_domain(options.folder)
        if domain is None:
            return FAULTS
        client, found = client_of(options, domain.server, domain.name), chosen_program(options)
        came_to = before(domain, options, found)
        if came_to != FINE:
            print("Nothing is deployed.")
            return came_to
    changes = changes_of(live_of(client), target_of(domain), options.prune, options.live_root, requests_of(domain))
    changes.keep = domain.keep
    return carried_out(client, changes, options, found)


@told
def rollback(options: argparse.Namespace) -> int:
    """Answers `rollback`."""
    with beside(options):
        domain = read_domain(options.folder)
        if domain is None:
            return FAULTS
        client, found = client_of(options, domain.server, domain.name), chosen_program(options)
    live = live_of(client)
    held = records.Records(live)
    number = to_which(held, options.to)
    changes = changes_of(live, earlier(live, held, number), False, options.live_root, requests_of(domain))
    changes.back_to, changes.keep = held.head(number), domain.keep
    if not options.json:
        print(f"Back to deployment {number}, begun {held.head(number).begun} by {held.head(number).by}.")
    return carried_out(client, changes, options, found)


def to_which(held: records.Records, wanted: int | None) -> int:
    """The deployment to go back to: of one that isn't finished the last that is, else the one before it."""
    last = held.last()
    if last is None:
        raise ServerFault("no deployment is recorded on the server")
    number = wanted
    if number is None:
        number = last if held.begun() else held.head(last).before
    if number == 0:
        others = [str(one) for one in held.numbers() if held.is_finished(one) and one != last]
        raise ServerFault(f"deployment {last} went back to the first one, before which there is none. --to NUMBER goes "
                          f"to another: {text.listed(others, 'or')}" if others else
                          f"no deployment is recorded before {last}")
    if number not in held.numbers() or not held.is_finished(number):
        raise ServerFault(f"deployment {number} isn't recorded on the server, or wasn't finished: "
                          f"{text.listed([str(one) for one in held.numbers() if held.is_finished(one)], 'and')} are. "
                          f"Deploy its folder instead")
    return number


def earlier(live: Live, held: records.Records, number: int) -> Target:
    """What an earlier deployment brought."""
    content, documents = held.content(number), {}
    for key, digest in content.documents.items():
        if key not in live.documents:
            raise ServerFault(f"{key_shown(key)} of deployment {number} was deleted from the server: deploy "
                              f"its folder instead")
        documents[key] = live.checked(key)
        if records.digest_of(live.text(key)) != digest:
            raise ServerFault(f"{key_shown(key)} was deleted since deployment {number}, and is there with "
                              f"other text: deploy its folder instead")
    rows = None if content.rows is None else checked_rows(f"the rows of deployment {number}",
                                                          rows_body(content.rows))
    return Target(content.root, documents, rows)


def may_go_on(changes: Changes, options: argparse.Namespace) -> None:
    """Raises where another deployment was begun, of something else, and isn't finished. Who goes back takes the place
    of one that was cut."""
    for number in changes.records.begun():
        head = changes.records.head(number)
        if head.target == changes.content.digest() or options.take_over:
            continue
        why = records.why_cut(head) if changes.back_to is not None else ""
        if why:
            print(text.wrapped(f"{number} isn't finished and is taken as cut: {why}", "cut        ", " " * 11))
        else:
            raise ServerFault(f"deployment {number} of something else was begun {head.begun} by {head.by}, "
                              "and isn't finished. Wait for it; where it was cut, deploy its folder again, "
                              "`policy rollback` goes back to the one before, and --take-over puts this one in "
                              "its place")


def carried_out(client: Client, changes: Changes, options: argparse.Namespace, found: Program | None) -> int:
    """Shows the changes, asks, and makes them; the exit status."""
    with beside(options):
        print_domain(changes)
        if changes.clashes():
            print_changes(changes, [])
            print("Nothing is deployed.")
            return FAULTS
        may_go_on(changes, options)
        draft = changes.draft()
        actions = changes.actions(draft)
        print_changes(changes, actions)
        if not changes.is_nothing():
            changes.room(draft, actions)
            print_mixed(changes, actions)
        answered = answers_change(changes, options, found)
    if answered == DISAGREE:
        return answered
    return finished(client, changes, draft, actions, options)


def finished(client: Client, changes: Changes, draft: records.Draft, actions: list[Action],
             options: argparse.Namespace) -> int:
    """Makes the changes where they are wanted; the exit status."""
    is_refused = options.only_whole and (bool(changes.order.mixed) or changes.is_unsure())
    wanted = not options.dry_run and not is_refused and is_wanted(options)
    done: list[Action] = []
    if wanted:
        carrying = Deployment(client, changes, draft, actions)
        carrying.run(lambda place, action: said(place, action, done, options))
    if options.json:
        number = draft.head.number if wanted and not changes.is_nothing() else changes.records.last()
        print(json.dumps({"server": client.server, "domain": client.domain, "deployment": number,
                          **changes.as_json(), "steps": [one.as_json() for one in actions],
                          "done": len(done)}, indent=2))
    elif changes.is_nothing():
        print("Nothing else was to be done." if wanted else "Nothing is done.")
    else:
        print(f"Deployed: number {draft.head.number}." if wanted else "Nothing is deployed.")
    return FAULTS if is_refused or not wanted and not options.dry_run else FINE


def said(place: int, action: Action, done: list[Action], options: argparse.Namespace) -> None:
    """Notes a step that is done, and says it."""
    done.append(action)
    if not options.json and action.do != "forget":
        print(text.wrapped(f"done: {action.shown}", f"{place + 1:9}  ", " " * 11), flush=True)


def is_wanted(options: argparse.Namespace) -> bool:
    """Whether the deployment is wanted: by --yes, or by an answer at the terminal."""
    if options.yes:
        return True
    if not sys.stdin.isatty() or options.json:
        raise setting.Usage("nobody can be asked whether to deploy: --yes says so, and --dry-run only shows")
    return input("Deploy? [y/N] ").strip().lower() in ("y", "yes")


@told
def pulled(options: argparse.Namespace) -> int:
    """Answers `pull`."""
    server, name = pull.place_of(options)
    return pull.run(live_of(client_of(options, server, name)), options)
