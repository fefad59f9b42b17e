"""What one search sends, by the states of its directory: a refresh that is decided piece by piece,
while writes go on, and what later writes change (RFC 4533)."""
import functools
import typing

from . import wire
from .directory import Limits, differing

# How much a queue holds at most.
MOST_WEIGHT = 16 * 2**20
IDENTITIES_OF_A_SET = 256
IDENTITY_WEIGHT = 16
BUSY = 51


# ---- messages


class Put(typing.NamedTuple):
    entry: typing.Any
    state: int = wire.ADD
    cookie: typing.Optional[str] = None

    def octets(self):
        return wire.entry_message(self.entry, self.state, self.cookie)

    def weight(self):
        return self.entry.message_weight()


class Drop(typing.NamedTuple):
    uuid: int
    name: str
    cookie: typing.Optional[str] = None

    def octets(self):
        return wire.delete_message(self.uuid, self.name, self.cookie)

    def weight(self):
        return 64 + len(self.name.encode())


class Names(typing.NamedTuple):
    deletes: bool
    uuids: list

    def octets(self):
        return wire.id_set(self.deletes, self.uuids)


class PresentPhaseOver(typing.NamedTuple):
    def octets(self):
        return wire.present_phase_over()


class RefreshOver(typing.NamedTuple):
    persists: bool
    deletes: bool
    cookie: str

    def octets(self):
        end = wire.refresh_over if self.persists else wire.search_done
        return end(self.deletes, self.cookie)


class Done(typing.NamedTuple):
    code: int

    def octets(self):
        return wire.done(self.code)


# ---- what becomes of an identity in a refresh, and messages of that


class Named(typing.NamedTuple):
    uuid: int


def gathered(decisions, deletes):
    """The messages, and the identities that are named and wait for a set to be full."""
    messages, names = [], []
    for decision in decisions:
        if isinstance(decision, Named):
            names.append(decision.uuid)
        else:
            messages.append(decision)
        if len(names) == IDENTITIES_OF_A_SET:
            messages.append(Names(deletes, names))
            names = []
    return messages, names


def gathered_whole(decisions, deletes):
    messages, names = gathered(decisions, deletes)
    return messages + ([Names(deletes, names)] if names else [])


class Search:
    """A search that was accepted, from the prefix of its cookie or None."""

    def __init__(self, directory, specification, persists, prefix):
        self.directory, self.specification, self.persists = directory, specification, persists
        self.accepted, self.prefix = directory.writes(), prefix
        self.deletes = prefix is not None and prefix >= directory.log_floor
        self.pieces = self.cut(self.walk())
        self.marks = [self.accepted]
        self.handed_out, self.is_over = 0, False
        for name in ["content", "changed_by", "refresh_at", "group", "messages_at"]:
            # worked out once
            setattr(self, name, functools.cache(getattr(self, name)))

    def content(self, number):
        return self.specification.of(self.directory.states[number])

    # ---- the refresh

    def walk(self):
        if self.deletes:
            return sorted(self.directory.touched(self.prefix, self.accepted))
        return sorted(self.directory.states[self.accepted])

    @staticmethod
    def cut(walk):
        starts = range(0, len(walk), Limits.piece)
        return [walk[start:start + Limits.piece] for start in starts] or [[]]

    def decided(self, piece, mark):
        """What is sent of the identities of a piece, as the content is after a number of writes."""
        content = self.content(mark)
        touched = set() if self.prefix is None else self.directory.touched(self.prefix, mark)
        for uuid in piece:
            entry = content.get(uuid)
            if self.deletes:
                yield Put(entry) if entry else Named(uuid)
            elif entry:
                is_sent = self.prefix is None or uuid in touched
                yield Put(entry) if is_sent else Named(uuid)

    def decisions(self):
        for piece, mark in zip(self.pieces, self.marks):
            yield from self.decided(piece, mark)

    def changed(self, number):
        """The identities at which the content changed since the acceptance."""
        return set().union(*map(self.changed_by, range(self.accepted + 1, number + 1)))

    def changed_by(self, number):
        return differing(self.content(number - 1), self.content(number))

    def late_part(self):
        end = self.content(self.marks[-1])
        late = [
            Put(end[uuid]) if uuid in end else Named(uuid)
            for uuid in sorted(self.changed(self.marks[-1]))
        ]
        return gathered_whole(late, True)

    def has_pieces_left(self):
        return len(self.marks) < len(self.pieces)

    def refresh(self):
        """Its messages, or while pieces are left the whole ones of those that are decided."""
        return self.refresh_at(tuple(self.marks))

    def refresh_at(self, marks):
        if len(marks) < len(self.pieces):
            return gathered(self.decisions(), self.deletes)[0]
        late = self.late_part()
        between = [PresentPhaseOver()] if late and not self.deletes else []
        cookie = self.directory.cookie(marks[-1])
        end = RefreshOver(self.persists, self.deletes or bool(late), cookie)
        return gathered_whole(self.decisions(), self.deletes) + between + late + [end]

    # ---- later writes

    def group(self, number):
        """What the write of this number changes in the content, with its cookie at the end."""
        before, after = self.content(number - 1), self.content(number)
        changes = [self.change(uuid, before, after) for uuid in sorted(self.changed_by(number))]
        last = [change._replace(cookie=self.directory.cookie(number)) for change in changes[-1:]]
        return changes[:-1] + last

    @staticmethod
    def change(uuid, before, after):
        if uuid not in after:
            return Drop(uuid, before[uuid].name)
        return Put(after[uuid], wire.MODIFY if uuid in before else wire.ADD)

    def later(self, number):
        if self.has_pieces_left() or not self.persists:
            return []
        writes = range(self.marks[-1] + 1, number + 1)
        return [message for write in writes for message in self.group(write)]

    def messages(self):
        """All that are known of it now."""
        return self.messages_at(tuple(self.marks), self.directory.writes())

    def messages_at(self, marks, number):
        return self.refresh_at(marks) + self.later(number)

    # ---- turns

    def hand_out(self):
        """The next message or None, and whether the search is then over."""
        if self.is_over:
            return Done(BUSY), True
        while self.has_pieces_left() and self.handed_out == len(self.messages()):
            self.marks.append(self.directory.writes())
        if self.handed_out == len(self.messages()):
            return None, False
        message = self.messages()[self.handed_out]
        self.handed_out += 1
        return message, isinstance(message, RefreshOver) and not self.persists

    def has_pending(self):
        return self.is_over or self.has_pieces_left() or self.handed_out < len(self.messages())

    def note_write(self):
        """Ends the search where the last write adds to its items, and they are too many then."""
        now = self.directory.writes()
        if self.is_over:
            return
        if self.has_pieces_left():
            items = len(self.changed(now))
            adds, weight = items > len(self.changed(now - 1)), items * IDENTITY_WEIGHT
        else:
            later = self.later(now)
            due = later[max(0, self.handed_out - len(self.refresh())):]
            adds, items = later != self.later(now - 1), len(due)
            weight = sum(message.weight() for message in due)
        self.is_over = adds and (items > self.directory.queue_limit or weight > MOST_WEIGHT)
