"""What a consumer makes of the messages that it takes (RFC 4533, the client's part)."""
from .directory import Limits
from .search import Done, Drop, Names, PresentPhaseOver, Put, RefreshOver

MOST_ENTRY_WEIGHT = 65_536
STAGED, STORED = "staged", "stored"


class Copy:
    def __init__(self):
        self.entries, self.cookie = {}, None
        self.is_searching = False

    def ask(self, persists):
        self.is_searching, self.persists = True, persists
        self.in_refresh, self.in_present_phase = True, True
        self.clear()

    def clear(self):
        self.named, self.stage = set(), {}

    def stop(self):
        self.is_searching = False
        self.clear()

    def take(self, message):
        """STAGED, STORED, the code of an end, or the name of a fault."""
        if isinstance(message, Put):
            return self.take_put(message)
        if isinstance(message, Drop):
            self.stage[message.uuid] = None
            return self.ended_by(message.cookie)
        if isinstance(message, Names):
            return self.take_names(message)
        if isinstance(message, PresentPhaseOver):
            self.end_present_phase()
            return STAGED
        if isinstance(message, RefreshOver):
            return self.end_refresh(message)
        assert isinstance(message, Done)
        self.stop()
        return message.code

    def take_put(self, message):
        self.stage[message.entry.uuid] = message.entry
        if is_too_much([entry for entry in self.stage.values() if entry]):
            return self.fault("StageFull")
        return self.ended_by(message.cookie)

    def take_names(self, message):
        if message.deletes:
            self.stage.update(dict.fromkeys(message.uuids))
            return STAGED
        for uuid in message.uuids:
            if uuid not in self.entries and not self.stage.get(uuid):
                return self.fault("PresentUnknown")
        self.named.update(message.uuids)
        return STAGED

    def end_present_phase(self):
        """What was neither named nor put is staged to be dropped."""
        for uuid in self.entries:
            if uuid not in self.named and not self.stage.get(uuid):
                self.stage[uuid] = None
        self.in_present_phase = False

    def end_refresh(self, message):
        if not message.deletes:
            self.end_present_phase()
        self.in_refresh = False
        found = self.store(message.cookie)
        if not message.persists:
            self.stop()
        return found

    def ended_by(self, cookie):
        if cookie is None or self.in_refresh:
            return STAGED
        return self.store(cookie)

    def store(self, cookie):
        entries = {uuid: entry for uuid, entry in (self.entries | self.stage).items() if entry}
        if is_too_much(entries.values()):
            return self.fault("StageFull")
        self.entries, self.cookie = entries, cookie
        self.clear()
        return STORED

    def fault(self, name):
        self.stop()
        return name


def is_too_much(entries):
    if len(entries) > Limits.entries:
        return True
    may_be = len(entries) * MOST_ENTRY_WEIGHT > Limits.weight
    return may_be and sum(entry.attributes_weight() for entry in entries) > Limits.weight
