"""Moving a domain from one shard to another, and making more shards.

The rows are carried by a program of the shards' user (`carrying`), since the files are that user's. A domain's
replies depend on its own rows and on nothing else that a server holds (isolation), so they are the same from the
other shard.
"""
import contextlib
import copy
import sys
import time

from . import applied, carrying, holding, listener, replicas, restarted, standing, supervisor, talk, written
from .owned import as_user, owner_of, run, surroundings
from .settings import DOMAIN, FILE, NUMBERS, Wrong, errors_of, put_off_signals, set_in_file, set_in_text, write_whole

# How long is waited for shards after an error, in seconds: as long as HAProxy tries one that is down. A
# question that is under way then may take five, and messages wait for a tool for ten.
SOON = 3.0
# For how long since shards were to be stopped is waited for what logs their changes, in seconds: a busy machine may
# take some to start it, and a message is held for ten.
HELD = 8.0


class NotBegun(Wrong):
    """Why a move isn't made: nothing was changed."""


@contextlib.contextmanager
def stop_shard(settings, shard):
    """Stops a shard's program, and starts it at the end, with these settings from then on."""
    by = supervisor.of(settings)
    try:
        try:
            by.stop(shard)
        except (Wrong, OSError) as fault:
            raise NotBegun(str(fault)) from None
        yield
        applied.apply(settings, shard)
    finally:
        by.start(shard)


@contextlib.contextmanager
def stop_shards(settings, shards):
    """Stops the shards' programs. At the end each start is tried, whatever becomes of the others, and an error of
    one keeps those before it (`errors_of`)."""
    with put_off_signals(), contextlib.ExitStack() as stops:
        for shard in shards:
            stops.enter_context(stop_shard(settings, shard))
        yield


def wait_until_up(settings, shards, began, seconds=30.0):
    """Waits until the shards answer, for so long at the most, where the settings say that they are now; and for what
    logs their changes, until HELD behind `began`."""
    end = time.monotonic() + seconds
    for shard in shards:
        talk.lead(settings, shard)
    for shard in shards:
        talk.wait_until_up(settings, shard, end - time.monotonic())
    replicas.wait_until_there(settings, shards, max(replicas.PENDING, began + HELD - time.monotonic()))
    applied.note_kept(settings, shards)


def refuse_restart(settings, shards, are_replaced=False):
    """An error while the operator's token, the program, or a file of these shards, unless they are replaced, is one
    with which they wouldn't start."""
    try:
        settings.operator()
        standing.refuse_unrunnable(settings)
        replicas.refuse_removed(settings, shards)
        for shard in shards if not are_replaced else ():
            standing.refuse_unstartable(applied.where_it_starts(settings, shard), shard)
    except Wrong as fault:
        raise NotBegun(str(fault)) from None


@contextlib.contextmanager
def restart_shards(settings, *shards, are_replaced=False):
    """Restarts the shards' programs, which are stopped meanwhile, and waits until they answer.

    None is stopped that wouldn't start. After an error it doesn't wait for long: one of them may stay away, and the
    messages of the others are held back meanwhile.
    """
    refuse_restart(settings, shards, are_replaced)
    if talk.asks_elsewhere(settings):
        raise NotBegun(f"{FILE} has the shards at other places than HAProxy asks them: give pdpd-shards restart before")
    began = time.monotonic()
    with restarted.told(shards):
        try:
            with stop_shards(settings, shards):
                yield
        except Exception:
            with contextlib.suppress(Wrong, OSError):
                wait_until_up(settings, shards, began, SOON)
            raise
        wait_until_up(settings, shards, began)


@contextlib.contextmanager
def restart_between_messages(settings, shard, *, are_replaced=False):
    """Restarts a shard's program, which is stopped meanwhile, while its messages are held back."""
    with holding.hold_messages(settings, shard), restart_shards(settings, shard, are_replaced=are_replaced):
        yield


def restart_elsewhere(settings):
    """Restarts all shards at once, at sockets where they were at ports, or the other way. HAProxy begins to ask them
    there once it has read its file: what has waited meanwhile is answered with 503."""
    shards = range(settings.shards)
    refuse_restart(settings, shards)
    written.write_configuration(settings)
    with holding.hold_messages(settings, *shards):
        with stop_shards(settings, shards):
            pass
        talk.reload(settings, supervisor.of(settings))
    wait_until_up(settings, shards, time.monotonic())


def carry_domain(settings, domain, one, other):
    """Carries the domain over between the two files; a move that was cut is gone on with."""
    user, stores = owner_of(settings.folder(one)), [settings.folder(shard) / "pdpd.db" for shard in (one, other)]
    # (isolated: it loads nothing that a user could have put beside it)
    words = [sys.executable, "-IB", carrying.__file__, domain, *stores]
    status, said = run(f"the program that carries {domain}", as_user(user, words), env=surroundings())
    if status == carrying.NEITHER:
        raise NotBegun(f"neither shard {one} nor {other} has {domain}. Where no shard has it, pdpd-shards remap takes "
                       "away what the map has of it")
    if status == carrying.BOTH:
        raise NotBegun(f"both shards have a domain {domain}, and not the same of it: look which is right")
    if status == carrying.NOT_BEGUN:
        raise NotBegun(said)
    if status != 0:
        raise Wrong(f"{domain} was perhaps copied, and is still where it was: {said}")
    talk.set_in_map(settings, {domain: other})


def refuse_absent(settings, domain, one, other):
    """An error where neither shard has the domain. One that doesn't answer may have it: a move that was cut has
    perhaps stopped both."""
    try:
        if any(domain in talk.domains_of(settings, shard) for shard in (one, other)):
            return
    except listener.Impostor:
        raise
    except Wrong:
        return
    others = {*range(settings.shards)} - {one, other}
    found = [shard for shard in others if has_domain(settings, shard, domain)]
    if found:
        raise NotBegun(f"{domain} is in shard {found[0]}, and not in {one} or {other}: nothing was stopped")
    raise NotBegun(f"neither shard {one} nor {other} has {domain}: nothing was stopped. Where no shard has it, "
                   "pdpd-shards remap takes away what the map has of it")


def has_domain(settings, shard, domain):
    """Whether a shard lists the domain; one that doesn't answer doesn't."""
    try:
        return domain in talk.domains_of(settings, shard)
    except Wrong:
        return False


def move(settings, domain, one, other):
    """Moves a domain from one shard to another, and tells for how long the two were away."""
    if not DOMAIN.fullmatch(domain) or one == other:
        raise Wrong("a domain's name and two different shards are wanted")
    for shard in (one, other):
        settings.refuse_unfinished_put_back(shard)
    settings.operator()
    before = talk.map_in_file(settings).get(domain)
    refuse_absent(settings, domain, one, other)
    talk.settle(settings)
    began = time.monotonic()
    with holding.hold_messages(settings, one, other):
        # what is left where this is cut: nobody asks either shard for it
        talk.set_in_map(settings, {domain: "moving"})
        try:
            with restart_shards(settings, one, other):
                carry_domain(settings, domain, one, other)
        except BaseException as fault:
            # (a failed start, or a signal to end, may have come behind the reason why nothing was changed)
            is_unchanged = any(isinstance(error, NotBegun) for error in errors_of(fault))
            if is_unchanged and before != "moving":
                talk.set_in_map(settings, {domain: before})
            raise
    return time.monotonic() - began


@contextlib.contextmanager
def as_before_where_it_fails(settings, before):
    """After an error within, domains can be made again as before: what the map's file and HAProxy say of it."""
    try:
        yield
    except BaseException:
        # (a HAProxy that isn't there reads the file once it starts)
        with contextlib.suppress(talk.NoProxy):
            if talk.map_in_file(settings).get("NEW") != before:
                talk.set_in_map(settings, {"NEW": before})
        raise


def stop_making_domains(settings):
    """No domain is made from here on, and each that was asked for before is there or isn't."""
    for shard in range(settings.shards):
        listener.refuse_another(settings, shard)
    talk.settle(settings)
    talk.set_in_map(settings, {"NEW": "moving"})
    time.sleep(holding.TURN)
    for shard in range(settings.shards):
        # a second question is answered behind whatever came to the shard before the first
        holding.wait_for_turn(settings, shard)
        holding.wait_for_turn(settings, shard)


def shards_of_domains(settings):
    """The shards that have each domain, as they list them."""
    found = {}
    for shard in range(settings.shards):
        for name in talk.domains_of(settings, shard):
            found.setdefault(name, []).append(shard)
    return found


def grow(settings, shards):
    """Makes more shards. Each domain stays in its own, and new ones go to all. Tells how many there are."""
    _, most = NUMBERS["SHARDS"]
    # (HAProxy's file has more where a growth was cut, or SHARDS was set back: that number alone is gone on with, since
    # all shards are asked for their domains before there are more)
    count = talk.shards_in_configuration(settings) or settings.shards
    if not count <= shards <= most:
        raise Wrong(f"the shards become more, up to {most}: now they are {count}")
    if settings.shards > count or shards > count:
        talk.refuse_other_count(settings)
    settings.operator()
    larger = copy.copy(settings)
    larger.shards, larger.text = shards, set_in_text(settings.text, "SHARDS", shards)
    written.refuse_untaken(larger)  # (before there is anything of it)
    by, known = supervisor.of(settings), talk.map_in_file(settings)
    with as_before_where_it_fails(settings, known.get("NEW")):
        stop_making_domains(settings)
        found = shards_of_domains(settings)
    # of a domain that is in two shards that one counts to which its messages are led
    shard_of = {name: led if (led := talk.place(settings, known, name)) in places else places[0]
                for name, places in found.items()}
    talk.set_in_map(settings, {name: shard for name, shard in shard_of.items() if name not in known})
    applied.apply_where_none(settings, range(shards))
    with restarted.told([*range(count, shards), applied.PROXY]):
        by.set_up(range(shards))
        written.write_configuration(larger, is_growth=True)
        talk.reload(larger, by)
        set_in_file("SHARDS", shards)
        for shard in range(shards):
            talk.wait_until_up(larger, shard)
    applied.note_kept(larger, range(shards))
    talk.set_in_map(larger, {"NEW": None})
    return len(shard_of)


def map_or_why_not(settings):
    """What the map's file says, and why it can't be read, if it can't."""
    try:
        return talk.map_in_file(settings), None
    except Wrong as fault:
        return {}, str(fault)


def remapped(settings, known, places):
    """The map that leads each domain to the shard that has it, and the domains that several have, which stay where
    their messages are led. Who has its place by its name needs no line."""
    entries, twice = {}, []
    for name, shards in places.items():
        led = talk.place(settings, known, name)
        if len(shards) > 1:
            twice.append(name)
        if led not in shards:
            # (one that was moving, and that two shards have, gets no message until it is moved again)
            led = shards[0] if len(shards) == 1 else "moving"
        if led != talk.place(settings, {}, name):
            entries[name] = led
    return entries, twice


def remap(settings):
    """Makes the map anew, of where each domain is. Gives how many domains there are, what has changed in the map, by
    name, and the domains that are in several shards."""
    talk.refuse_other_count(settings)
    settings.operator()
    known, fault = map_or_why_not(settings)
    if fault:
        # (what HAProxy has read of it may still be whole)
        known = {name: value for name, value in talk.running(talk.map_while_it_runs(settings)).items()
                 if value == "moving" or value.isdecimal()}
        write_whole(settings.map, "".join(f"{name} {value}\n" for name, value in sorted(known.items())))
    with as_before_where_it_fails(settings, known.get("NEW")):
        stop_making_domains(settings)
        places = shards_of_domains(settings)
        entries, twice = remapped(settings, known, places)
        names = {*known, *talk.running(talk.map_while_it_runs(settings)), *entries} - {"NEW"}
        changes = {name: entries.get(name) for name in names}
        # (also what a growth has left that was cut: all of it agrees on the number of shards, and they answer)
        talk.set_in_map(settings, {**changes, "NEW": None})
    changed = {name: place for name, place in changes.items() if str(place) != str(known.get(name))}
    return len(places), changed, twice
