"""What a reactor does: connections come to 64 places, and are served in turns, in each of which every one has a share.

Changes may have an address of their own: at the first one a message that asks for a change is turned away by the 503,
and the server doesn't learn of it; at the other one connection is served at a time, a place is kept for it, and it is
never driven out.

Times are milliseconds.
"""
from fronts import MOST_OPEN, Answer, Front
from messages import Fault, Message
from networks import PIECE, Blocked, Failed
from replies import error_reply
from routes import asks_for_change

# for how long a reply may be under way, in all and with fewer than LEAST_BYTES of it taken; what comes behind the last
# one is dropped; one that owes nothing stays where all places are taken; a reactor that ends waits for the first byte
# of a message; and for the rest of it, if no limit is set
REPLY, SLOW, PARTING, GRACE, LEAVING, LAST = 120_000, 10_000, 2_000, 100, 1_000, 10_000
UNAVAILABLE = error_reply("Unavailable")
LEAST_BYTES, MOST_DROPPED, MOST_UNDER_WAY, MOST_FAILURES = 65_536, 67_108_864, 33_554_432, 1_000


class Halt(Exception):
    """Why a reactor halts."""


class Lane:
    """A connection that is open."""

    def __init__(self, now, at_changes):
        self.at_changes = at_changes
        self.rest, self.is_last, self.holding, self.ready = b"", False, "Nothing", [True, True, False]
        self.size = 0
        self.enter("Quiet", now)

    def enter(self, stage, now):
        self.stage, self.since, self.mark, self.moved = stage, now, now, 0

    def wants_room(self):
        """Whether it holds a whole message, the last reply was sent, and it wasn't parted with."""
        return self.holding == "Whole" and not self.rest and self.stage != "Parting"

    def can_go(self, has_room):
        """Whether something can be done for it at once."""
        return self.ready[1] if self.rest else has_room if self.holding == "Whole" else self.ready[0]

    def time_left(self, limits, now):
        """How long it is still waited for; None for ever."""
        limit = {"Outgoing": REPLY, "Parting": PARTING, **limits}[self.stage]
        if limit is None:
            return None
        found = max(0, limit - max(0, now - self.since))
        return min(found, max(0, SLOW - max(0, now - self.mark))) if self.stage == "Outgoing" else found


class Reactor:
    """Turns over a front and a network."""

    def __init__(self, server, network, timer, idle=30_000, message=10_000, is_split=False):
        self.front, self.network, self.lanes = Front(server), network, [None] * MOST_OPEN
        self.limits, self.first, self.leaving = {"Quiet": idle, "Incoming": message}, 0, None
        self.door, self.end, self.failures, self.deeds, self.moment, self.timer = True, False, 0, [], 0, timer
        self.began, self.is_split, self.changes, self.change_failures = 0, is_split, is_split, 0

    # ---- what is known

    def limits_now(self):
        idle, message = self.limits.values()
        return self.limits if self.leaving is None else {
            "Quiet": LEAVING if idle is None else min(idle, LEAVING), "Incoming": LAST if message is None else message}

    def has_left(self, now):
        """Whether the reactor was told to end, and has waited since."""
        return self.leaving is not None and now - self.leaving >= LEAVING

    def has_room(self):
        """Whether another reply may be held: each is, whole, until all of it is sent."""
        return sum(lane.size for lane in self.lanes if lane) <= MOST_UNDER_WAY

    def idlest(self):
        """The place and the time of the one that has owed nothing for the longest time."""
        found = [(lane.since, place) for place, lane in enumerate(self.lanes)
                 if lane and lane.stage == "Quiet" and not lane.ready[0] and not lane.at_changes]
        return min(found) if found else None

    def held(self, place):
        """What a connection holds."""
        stream = self.front.stream(place)
        held, has_ended = stream.held, stream.has_ended
        found = stream.next()
        stream.held, stream.has_ended = held, has_ended
        if has_ended:
            return "Ended"
        return "Whole" if isinstance(found, (Message, Fault)) else "Part" if held else "Nothing"

    # ---- who is taken

    def close(self, place, reason):
        self.lanes[place], self.network.seats[place] = None, None
        self.front.close(place)
        self.deeds.append(f"{place}!{reason}")

    def has_changes(self):
        """Whether one is open that came at the address for changes."""
        return any(lane and lane.at_changes for lane in self.lanes)

    def has_place(self):
        """Whether a place is free for one that comes at the first address: one is kept for changes."""
        return self.lanes.count(None) > (1 if self.is_split and not self.has_changes() else 0)

    def may_take_change(self):
        return not self.has_changes() and None in self.lanes

    def seat(self, now, at_changes):
        place = self.front.open()
        self.lanes[place], self.network.seats[place] = Lane(now, at_changes), self.network.guest
        self.deeds.append(f"{place}+")

    def take_change(self, now):
        """One is taken at the address for changes, if the last has gone."""
        if self.network.is_shut or not (self.is_split and self.changes and self.may_take_change()):
            return
        try:
            self.changes = self.network.accept(at_changes=True)
        except Failed:
            self.change_failures += 1
            if self.change_failures >= MOST_FAILURES:
                raise Halt("Door") from None
            return
        if self.changes:
            self.change_failures = 0
            self.seat(now, at_changes=True)

    def take_one(self, now):
        """Whether another may be tried."""
        driven_out = None
        if not self.has_place():
            idlest = self.idlest()
            if idlest is None or now - idlest[0] < GRACE:
                return False
            driven_out = idlest[1]
        try:
            if not self.network.accept():
                self.door = False
                return False
        except Failed:
            self.failures += 1
            if self.failures >= MOST_FAILURES:
                raise Halt("Door") from None
            return True
        self.failures = 0
        if driven_out is not None:
            self.close(driven_out, "DrivenOut")
        self.seat(now, at_changes=False)
        return True

    def take_some(self, now):
        for _ in range(MOST_OPEN):
            if self.network.is_shut or not self.door or not self.take_one(now):
                return

    # ---- a share

    def end_reply(self, place, now):
        """What comes behind a reply that was sent whole: it is parted with behind the last one, or if its stream has
        ended."""
        lane = self.lanes[place]
        lane.size = 0
        lane.holding = "Ended" if lane.is_last or self.has_left(self.began) else self.held(place)
        if lane.holding == "Ended":
            self.network.seats[place].is_parted = True
            self.deeds.append(f"{place}|")
        lane.enter({"Nothing": "Quiet", "Ended": "Parting"}.get(lane.holding, "Incoming"), now)

    def send_some(self, place, now):
        """Whether the connection goes on now; a reason if it ends."""
        lane = self.lanes[place]
        if not lane.rest:
            return "Goes"
        if not lane.ready[1]:
            return "Waits"
        try:
            count = self.network.send(place, lane.rest)
        except Blocked:
            lane.ready[1] = False
            return "Waits"
        except Failed:
            return "Failed"
        self.deeds.append(f"{place}>{count}")
        lane.rest, lane.moved = lane.rest[count:], lane.moved + count
        if lane.moved >= LEAST_BYTES:
            lane.mark, lane.moved = now, 0
        if not lane.rest:
            self.end_reply(place, now)
        return "Goes"

    def read_some(self, place, now):
        lane = self.lanes[place]
        if not lane.ready[0]:
            return "Waits"
        try:
            held = self.network.receive(place)
        except Blocked:
            lane.ready[0] = False
            return "Waits"
        except Failed:
            return "Failed"
        self.deeds.append(f"{place}<{len(held)}")
        if not held:
            return "Ended"
        lane.ready[0] = lane.ready[2] or len(held) == PIECE
        if lane.stage == "Parting":
            lane.moved += len(held)
            return "Ended" if lane.moved > MOST_DROPPED else "Goes"
        self.front.piece(place, held)
        lane.holding = self.held(place)
        if lane.stage == "Quiet":
            lane.enter("Incoming", now)
        return "Goes"

    def answer(self, place, now):
        """The next message is answered, or turned away, which asks no clock; gives the time behind that."""
        lane = self.lanes[place]
        away = self.is_split and not lane.at_changes and self.asks_for_change(place)
        if not away and self.moment is None:
            raise Halt("NoClock")
        answer = self.turned_away(place) if away else self.front.answer(place, self.moment)
        now = max(now, self.timer.tell())
        lane.rest, lane.is_last, lane.holding = answer.reply, answer.is_last, "Part"
        lane.size = len(lane.rest)
        lane.enter("Outgoing", now)
        return now

    def asks_for_change(self, place):
        """Whether the first message of a connection has a route that changes something."""
        stream = self.front.stream(place)
        held, has_ended = stream.held, stream.has_ended
        found = stream.next()
        stream.held, stream.has_ended = held, has_ended
        return isinstance(found, Message) and asks_for_change(found)

    def turned_away(self, place):
        """The 503 to the first message of a connection, which is cut off."""
        stream = self.front.stream(place)
        stream.next()
        return Answer(UNAVAILABLE, stream.has_ended)

    def go(self, place, has_room):
        """How far the connection is behind its share. Its times are those when something happens in it, and not when
        the turn began: others may have had long shares before, and an answer may take long."""
        lane = self.lanes[place]
        if not lane.can_go(has_room):
            return "Waits"
        now = max(self.began, self.timer.tell())
        went = self.send_some(place, now)
        if went == "Goes" and not lane.rest and lane.holding != "Whole":
            went = self.read_some(place, now)
        if went in ("Goes", "Waits") and lane.wants_room() and has_room:
            now = self.answer(place, now)
            went = self.send_some(place, now)
        if went not in ("Goes", "Waits"):
            return went
        return "Goes" if lane.can_go(has_room) else "Waits"

    def share(self, place):
        """Whether the connection at a place can go on at once. It is late by the time at which what is ready was told:
        one that waits for its peer, and one of which all is dropped also if more comes."""
        lane = self.lanes[place]
        if lane is None:
            return False
        has_room = (lane.holding == "Whole" or lane.ready[0]) and self.has_room()
        went = self.go(place, has_room)
        waits = went == "Waits" and not lane.wants_room() or went == "Goes" and lane.stage == "Parting"
        if waits and lane.time_left(self.limits_now(), self.began) == 0:
            went = {"Quiet": "Idle", "Parting": "Ended"}.get(lane.stage, "Late")
        if went not in ("Goes", "Waits"):
            self.close(place, went)
        return went == "Goes"

    # ---- turns

    def note(self, place, readable, writable, ends):
        """The network tells that a place is ready for more."""
        if self.lanes[place]:
            was = self.lanes[place].ready
            self.lanes[place].ready = [old or new for old, new in zip(was, (readable, writable, ends))]

    def rest(self, now):
        """For how long nothing is to be done if nothing comes; None for ever."""
        waits = [lane for lane in self.lanes if lane and not lane.wants_room()]
        if self.has_room() and any(lane and lane.wants_room() for lane in self.lanes):
            return 0
        found = [left for lane in waits if (left := lane.time_left(self.limits_now(), now)) is not None]
        return min(found + self.rest_at_door(now), default=None)

    def rest_at_door(self, now):
        """The same, for those that wait at the doors, and for the doors."""
        if self.network.is_shut:
            return []
        if not self.one_waits():
            return [] if self.leaving is None else [0]
        if self.door and self.has_place() or self.changes and self.may_take_change():
            return [0]
        idlest = self.idlest() if self.door else None
        found = [max(0, GRACE - max(0, now - idlest[0]))] if idlest else []
        return found + ([] if self.leaving is None else [max(0, LEAVING - max(0, now - self.leaving))])

    def one_waits(self):
        """Whether one may wait at a door."""
        return self.door or self.changes

    def turn(self):
        """What is done in a turn; gives for how long nothing is to be done then, None for ever."""
        self.began = now = self.timer.tell()
        if self.end and self.leaving is None:
            self.leaving = now
        if self.leaving is not None and (not self.one_waits() or self.has_left(now)):
            self.network.is_shut = True
        self.take_change(now)
        self.take_some(now)
        goes = False
        for offset in range(MOST_OPEN):
            goes |= self.share((self.first + offset) % MOST_OPEN)
        self.first = (self.first + 1) % MOST_OPEN
        return 0 if goes else self.rest(max(now, self.timer.tell()))
