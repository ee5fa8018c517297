"""What the words that speak with a server write: what a domain has, and what changes, step by step."""
from __future__ import annotations

from . import records, text, two_domains
from .changes import Action, Changes
from .domain import listed_shown
from .live import Key, Live, bytes_left, key_shown, row_lines, version_shown


def counts_of(live: Live) -> str:
    """How many documents and rows the domain has."""
    active, kept = len(live.active()), len(live.kept())
    rows = text.counted(len(live.rows.rows), "row")
    return f"{text.counted(active, 'document')} active, {kept - active} not; {rows}"


def record_told(held: records.Records) -> str:
    """The last deployment, and those that aren't finished."""
    last, begun = held.last(), held.begun()
    found = "none is recorded"
    if last is not None:
        found = f"{last}, begun {held.head(last).begun} by {held.head(last).by}"
    return found + "".join(f"; {one} was begun {held.head(one).begun} by {held.head(one).by}, and isn't "
                           f"finished" for one in begun)


def print_domain(changes: Changes) -> None:
    """What the domain has."""
    live = changes.live
    for label, told_of in (("domain", f"{live.client.domain} on {live.client.server}"),
                           ("deployed", record_told(changes.records)),
                           ("root", changes.root.told()), ("has", counts_of(live))):
        print(text.wrapped(told_of, f"{label:10} ", " " * 11))


def differences(changes: Changes) -> str:
    """In what the domain differs from the folder, the root left out, in a few words."""
    new = changes.uploads()
    asleep = [key for key in changes.of_order("activate") if key not in new]
    foreign = [key for key in changes.of_order("withdraw") if key not in changes.target.documents]
    idle = [key for key in changes.of_order("withdraw") if key in changes.target.documents]
    told = [(new, "isn't there", "aren't there"), (changes.clashes(), "has other text", "have other text"),
            (asleep, "isn't active", "aren't active"),
            (foreign, "is active and not the folder's", "are active and not the folder's"),
            (idle, "is active, and the folder's root doesn't reach it",
             "are active, and the folder's root doesn't reach them")]
    found = [f"{listed_shown([key_shown(key) for key in keys])} {one if len(keys) == 1 else several}"
             for keys, one, several in told if keys]
    found += ["the rows are others"] if changes.has_rows() else []
    found += [f"deployment {number} isn't finished: where it was cut, deploy its folder again, or `policy rollback`"
              for number in changes.records.begun()]
    if not found and changes.records.last() is None:
        found.append("no deployment is recorded")
    return "; ".join(found)


def history(changes: Changes) -> str:
    """What the records say of a folder that isn't what runs: as which deployment it was made, and what came after; the
    empty text where they don't have it, or where it is gone back to it."""
    number, last = changes.deployed_as(), changes.records.last()
    if number is None or changes.back_to is not None or changes.records.begun():
        return ""
    if number == last:
        return f"This folder was deployed as number {number}, and the domain was changed since, without a record."
    by = changes.records.head(last).by
    return f"This folder was deployed as number {number}; number {last}, by {by}, came after."


def print_verdict(changes: Changes, is_same: bool) -> None:
    """Whether the folder is what runs there."""
    told = differences(changes)
    if changes.is_others_root():
        besides = told and f"Besides, {told}."
        said = " ".join(filter(None, ("the root isn't this folder's: `policy deploy` sets it.", besides,
                                      history(changes)))).rstrip(".")
    elif not is_same:
        said = " ".join(filter(None, (f"differs: {told or 'the root is another'}.", history(changes),
                                      "`policy diff --live` shows how")))
    elif changes.root.is_shown:
        said = "is what runs there"
    else:
        said = ("its documents and rows are what runs there; root not known: no case of this folder gives Permit "
                "or Deny there. Write one, which `policy status` asks then")
    print(text.wrapped(said, "folder     ", " " * 11))


def rows_shown(changes: Changes) -> str:
    """How rows change, and how many more there may be."""
    old, new = row_lines(changes.live.rows), row_lines(changes.target.rows)
    return f"{two_domains.rows_told(old, new)}; {bytes_left(new):,} bytes of a body are left"


def clash_told(changes: Changes, key: Key) -> str:
    """What to do about a document that was changed under its version."""
    same = [other.version for other in changes.live.documents if other[:2] == key[:2]]
    latest = max([*same, *(other.version for other in changes.target.documents if other[:2] == key[:2])])
    path = changes.target.documents[key].source.path
    version = version_shown((*latest[:-1], latest[-1] + 1))
    return (f"{path}: {key_shown(key)} is on the server with other text. Give it a new Version,"
            f" as {version}, which"
            " the references to it have to admit.")


def print_mixed(changes: Changes, actions: list[Action]) -> None:
    """Whether every ask between is answered as before or as after."""
    mixed = [place for place, action in enumerate(actions, 1) if action.is_mixed]
    if changes.is_unsure():
        named = f"{changes.root.named}, " if changes.root.named else ""
        print(text.wrapped(f"What the root is now isn't known: {named}{changes.root.whence}"
                           + ". So whether every decision request between is answered as before or as after isn't "
                             "known either; --live-root ID, or --live-root none, says what it is."))
    elif not mixed:
        but = ", if the root is as recorded" if changes.root.is_known() and not changes.root.is_shown else ""
        print(text.wrapped(f"Meanwhile every decision request is answered as before or as after{but}."))
    else:
        print(text.wrapped(text.painted("No order keeps answers whole", "bold", "yellow")
                           + f": from step {mixed[0]} to step {mixed[-1] + 1} a decision request may be answered "
                             f"neither as before nor as after."))
        for reason in changes.order.reasons:
            print(text.wrapped(reason, "    - ", "      "))
        print(text.wrapped("References that name versions, under a set with a new version of its own and a "
                           "root that names that, keep answers whole.", "    ", "    "))


def print_history(changes: Changes) -> None:
    """Of whose deployment this one takes the place, where it isn't the next step."""
    replaced = changes.replaced()
    said = history(changes)
    if replaced:
        told = [f"{key_shown(key)} in place of {version_shown(newer.version)}" for key, newer in replaced]
        said = f"{listed_shown(told)}. {said}".rstrip()
    if said:
        print(text.wrapped(said, text.painted("older" if replaced else "changed", "bold", "yellow")
                           + " " * (6 if replaced else 4), " " * 11))


def print_changes(changes: Changes, actions: list[Action]) -> None:
    """What will be done, step by step."""
    for key in changes.clashes():
        print(text.wrapped(clash_told(changes, key), text.painted("changed", "red") + "    ", " " * 11))
    if changes.is_others_root():
        print(text.wrapped("the root isn't this folder's: it is set", text.painted("root", "red") + "       ",
                           " " * 11))
    if changes.back_to is None and not changes.is_nothing():
        print_history(changes)
    idle = [key_shown(key) for key in sorted(set(changes.target.documents) - changes.reached)]
    if idle:
        print(text.wrapped(f"{listed_shown(idle)}: the root doesn't reach "
                           f"{'it' if len(idle) == 1 else 'them'}, so uploaded and not active",
                           "idle       ", " " * 11))
    if changes.has_rows():
        print(text.wrapped(rows_shown(changes), "rows       ", " " * 11))
    for place, action in enumerate(actions, 1):
        if action.do != "forget":
            print(text.wrapped(action.shown, f"{place:9}{'*' if action.is_mixed else ' '} ", " " * 11))
    forgotten = sum(action.do == "forget" for action in actions)
    if forgotten:
        print(f"           forget old records ({text.counted(forgotten, 'document')})")
