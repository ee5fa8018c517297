"""Each domain alone: of a transcript the messages that name one domain, as a transcript of their own, and the replies
to them among all others."""
from messages import Message
from replays import Malformed, events
from routes import owner


def all_events(held):
    """What the entries of the transcript bring, up to its end or to where it is malformed."""
    found = []
    try:
        for event in events(held):
            found.append(event)
    except Malformed:
        pass
    return found


def owner_of(event):
    return owner(event.found) if isinstance(event.found, Message) else None


def owners(held):
    """The domains that the messages of the transcript name."""
    return sorted({owner_of(event) for event in all_events(held)} - {None})


def alone(held, domain):
    """The transcript of the domain's messages: the same bytes in the same order at the same moments, on one
    connection, which is closed behind a last one."""
    found = b""
    for event in all_events(held):
        if owner_of(event) == domain:
            found += b"0 %d %d\n%b\n" % (event.moment, len(event.held), event.held) + b"0 0 0\n\n" * event.is_last
    return found


def replies_of(written):
    """The replies in what the program wrote; None where that is something else."""
    found = []
    while written:
        heading, _, rest = written.partition(b"\n")
        length = heading.partition(b" ")[2]
        if not length.isdigit() or rest[int(length):int(length) + 1] != b"\n":
            return None
        found.append(rest[:int(length)])
        written = rest[int(length) + 1:]
    return found


def told(held, written, domain):
    """The replies to the domain's messages in what the program wrote to the transcript; None where it didn't
    answer each message."""
    found, replies = all_events(held), replies_of(written)
    if replies is None or len(replies) != len(found):
        return None
    return [reply for event, reply in zip(found, replies) if owner_of(event) == domain]
