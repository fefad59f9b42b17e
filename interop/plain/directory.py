"""Directories by their whole states: entries, names, filters, and the state after each write (RFC
4511, RFC 4512). Names are simple, as `ou=a,dc=x`, and the entries of a record are sound: no write
is rejected for the schema, or for a limit but that of the number of entries."""
import functools
import typing

from . import wire

NO_SUCH_OBJECT, UNWILLING_TO_PERFORM, NOT_ALLOWED_ON_NON_LEAF = 32, 53, 66
NO_SUCH_ATTRIBUTE, ATTRIBUTE_OR_VALUE_EXISTS, ENTRY_ALREADY_EXISTS = 16, 20, 68
ADMIN_LIMIT_EXCEEDED = 11
KNOWN_KINDS = set(
    "objectclass cn sn givenname displayname uid mail title description ou o l dc telephonenumber "
    "departmentnumber employeenumber uidnumber gidnumber memberuid homedirectory syncactive "
    "syncexpiry".split())


class Limits:
    """How many entries a directory or a copy has at most, and how much they weigh; and how many
    identities of a refresh are decided at one moment."""
    entries, weight, piece = 200_000, 256 * 2**20, 256


def key(value):
    """Equal for values that match: case and the number of inner spaces don't count."""
    return " ".join(value.lower().split(" "))


@functools.lru_cache(2**16)
def rdns(name):
    return [key(rdn) for rdn in name.split(",")] if name else []


def is_same(name, other):
    return rdns(name) == rdns(other)


def is_at_or_below(name, base):
    above = len(rdns(name)) - len(rdns(base))
    return above >= 0 and rdns(name)[above:] == rdns(base)


def parent(name):
    return name.partition(",")[2]


class Entry(typing.NamedTuple):
    uuid: int
    csn: tuple
    name: str
    # (kind, values) in the order held
    attributes: list

    def ldif(self):
        lines = [f"dn: {self.name}"]
        lines += [f"{kind}: {value}" for kind, values in self.attributes for value in values]
        lines += [f"entryUUID: {wire.uuid_text(self.uuid)}", f"entryCSN: {wire.csn_text(self.csn)}"]
        return "".join(f"{line}\n" for line in lines + [""])

    def attributes_weight(self):
        held = [(kind, value) for kind, values in self.attributes for value in values]
        return sum(len(kind) + len(value.encode()) for kind, value in held)

    def message_weight(self):
        return 64 + len(self.name.encode()) + self.attributes_weight()


# ---- selections


class Specification(typing.NamedTuple):
    scope: str
    base: str
    # ("&" or "|", filters), ("!", filter) or ("=", kind, value), "*" being the value of a presence
    filter: tuple

    def selects(self, entry):
        if not is_at_or_below(entry.name, self.base):
            return False
        depth = len(rdns(entry.name)) - len(rdns(self.base))
        if self.scope != "sub" and depth != {"base": 0, "one": 1}[self.scope]:
            return False
        return truth(self.filter, entry.attributes) is True

    def of(self, state):
        return {uuid: entry for uuid, entry in state.items() if self.selects(entry)}


def filter_of(text):
    found, rest = read_filter(text)
    assert not rest, text
    return found


def read_filter(text):
    assert text[0] == "(", text
    if text[1] in "&|":
        kind, text, filters = text[1], text[2:], []
        while text[0] == "(":
            found, text = read_filter(text)
            filters.append(found)
        return (kind, tuple(filters)), text[1:]
    if text[1] == "!":
        found, text = read_filter(text[2:])
        return ("!", found), text[1:]
    item, _, text = text[1:].partition(")")
    kind, _, value = item.partition("=")
    assert value == "*" or not set("*<>~:\\") & set(item), item
    return ("=", kind.lower(), value), text


def truth(found, attributes):
    """True, False, or None for Undefined."""
    if found[0] == "=":
        _, kind, value = found
        if kind not in KNOWN_KINDS:
            return None
        values = [held for name, held in attributes if name.lower() == kind]
        return any(value == "*" or key(value) in map(key, held) for held in values)
    if found[0] == "!":
        value = truth(found[1], attributes)
        return None if value is None else not value
    parts = [truth(part, attributes) for part in found[1]]
    decisive = found[0] == "|"
    if decisive in parts:
        return decisive
    return None if None in parts else not decisive


# ---- records, as the kind of the write and what it has


def record_of(lines):
    name, rest = lines[0].removeprefix("dn: "), lines[1:]
    kind = "add"
    if rest and rest[0].startswith("changetype: "):
        kind, rest = rest[0].removeprefix("changetype: "), rest[1:]
    pairs = [tuple(line.split(": ", 1)) for line in rest if line != "-"]
    if kind == "add":
        return "add", name, joined(pairs)
    if kind == "delete":
        return "delete", name, None
    if kind == "modify":
        return "modify", name, edits_of(rest)
    values = dict(pairs)
    above = values.get("newsuperior")
    return "rename", name, (values["newrdn"], values["deleteoldrdn"] == "1", above)


def joined(pairs):
    attributes = {}
    for kind, value in pairs:
        attributes.setdefault(kind, []).append(value)
    return list(attributes.items())


def edits_of(lines):
    """Each edit as how, kind and values; a line `-` ends one."""
    edits, begins = [], True
    for line in lines:
        if line == "-":
            begins = True
        elif begins:
            how, kind = line.split(": ")
            edits.append((how, kind, []))
            begins = False
        else:
            edits[-1][2].append(line.split(": ", 1)[1])
    return edits


# ---- what a write does to a state


class Rejected(Exception):
    pass


def found(state, name, but=None):
    for entry in state.values():
        if is_same(entry.name, name) and entry is not but:
            return entry
    return None


def found_or_rejected(state, name):
    entry = found(state, name)
    if entry is None:
        raise Rejected(NO_SUCH_OBJECT)
    return entry


def after_write(state, record, suffix, uuid, csn):
    """The state after a write, which is rejected with its code where it is not accepted."""
    kind, name, rest = record
    changed = {"add": added, "delete": deleted, "modify": modified, "rename": renamed}[kind]
    return changed(state, name, rest, suffix, uuid, csn)


def added(state, name, attributes, suffix, uuid, csn):
    is_first = is_same(name, suffix)
    if not is_at_or_below(name, suffix) or not is_first and found(state, parent(name)) is None:
        raise Rejected(NO_SUCH_OBJECT)
    if found(state, name):
        raise Rejected(ENTRY_ALREADY_EXISTS)
    if len(state) == Limits.entries:
        raise Rejected(ADMIN_LIMIT_EXCEEDED)
    return state | {uuid: Entry(uuid, csn, name, attributes)}


def deleted(state, name, _, suffix, uuid, csn):
    entry = found_or_rejected(state, name)
    if any(is_at_or_below(other.name, name) for other in state.values() if other is not entry):
        raise Rejected(NOT_ALLOWED_ON_NON_LEAF)
    return {other: held for other, held in state.items() if held is not entry}


def modified(state, name, edits, suffix, uuid, csn):
    entry = found_or_rejected(state, name)
    attributes = {kind: list(values) for kind, values in entry.attributes}
    for how, kind, values in edits:
        edit(attributes, how, kind, values)
    left = [(kind, values) for kind, values in attributes.items() if values]
    return state | {entry.uuid: entry._replace(csn=csn, attributes=left)}


def edit(attributes, how, kind, values):
    held = attributes.get(kind, [])
    keys = {key(value) for value in held}
    if how == "replace":
        attributes[kind] = values
    elif how == "add":
        if any(key(value) in keys for value in values):
            raise Rejected(ATTRIBUTE_OR_VALUE_EXISTS)
        attributes[kind] = held + values
    else:
        gone = {key(value) for value in values}
        if not held or not gone <= keys:
            raise Rejected(NO_SUCH_ATTRIBUTE)
        attributes[kind] = [value for value in held if values and key(value) not in gone]
    if not attributes[kind]:
        del attributes[kind]


def renamed(state, name, move, suffix, uuid, csn):
    rdn, deletes_old, above = move
    entry = found_or_rejected(state, name)
    if above is not None:
        above = found_or_rejected(state, above).name
    if is_same(name, suffix) or above is not None and is_at_or_below(above, name):
        raise Rejected(UNWILLING_TO_PERFORM)
    new_name = f"{rdn},{parent(entry.name) if above is None else above}"
    if found(state, new_name, but=entry):
        raise Rejected(ENTRY_ALREADY_EXISTS)
    moved = {entry.uuid: entry._replace(attributes=with_rdn(entry, rdn, deletes_old))}
    after = {}
    for other, held in (state | moved).items():
        if is_at_or_below(held.name, entry.name):
            below = held.name[:len(held.name) - len(entry.name)]
            held = held._replace(csn=csn, name=below + new_name)
        after[other] = held
    return after


def with_rdn(entry, rdn, deletes_old):
    """The attributes with the value of a new RDN, and without that of the old one."""
    attributes = {kind: list(values) for kind, values in entry.attributes}
    kind, value = rdn.split("=")
    if key(value) not in map(key, attributes.get(kind, [])):
        attributes.setdefault(kind, []).append(value)
    old_kind, old_value = entry.name.split(",")[0].split("=")
    if deletes_old and (old_kind, key(old_value)) != (kind, key(value)):
        held = attributes[old_kind]
        attributes[old_kind] = [other for other in held if key(other) != key(old_value)]
    return [(kind, values) for kind, values in attributes.items() if values]


# ---- a directory


def differing(before, after):
    """The identities whose entry is not the same in both."""
    return {uuid for uuid in before.keys() | after.keys() if before.get(uuid) != after.get(uuid)}


class Directory:
    """The states after each of its writes and their CSNs, and what its session log still has. Its
    number is its history and the server's."""

    def __init__(self, name, suffix, number):
        self.name, self.suffix, self.number = name, suffix, number
        self.states, self.csns, self.touches = [{}], [(0, 0, number)], [set()]
        self.log, self.log_limit, self.log_floor = [], 1000, 0
        self.queue_limit, self.searches = 4096, []
        # of a replica, for each commit the specification and the origin of what it stored
        self.commits = []

    def writes(self):
        return len(self.states) - 1

    def next_csn(self, now):
        micros, count, _ = self.csns[-1]
        return (now, 0, self.number) if now > micros else (micros, count + 1, self.number)

    def next_uuid(self):
        return self.number % 2**48 << 80 | 8 << 76 | 2 << 62 | self.writes() + 1

    def write(self, record, now):
        """The code of a write, which is kept where it is accepted."""
        csn = self.next_csn(now)
        try:
            state = after_write(self.states[-1], record, self.suffix, self.next_uuid(), csn)
        except Rejected as rejected:
            return rejected.args[0]
        self.keep(state, csn)
        return 0

    def commit(self, entries, specification, origin, now):
        self.commits.append((specification, origin))
        self.keep(dict(entries), self.next_csn(now))

    def keep(self, state, csn):
        touched = differing(self.states[-1], state)
        self.states.append(state)
        self.csns.append(csn)
        self.touches.append(touched)
        self.log += [(self.writes(), uuid) for uuid in sorted(touched)]
        self.trim()
        for search in self.searches:
            search.note_write()

    def trim(self):
        dropped = self.log[:max(0, len(self.log) - self.log_limit)]
        self.log = self.log[len(dropped):]
        self.log_floor = max([self.log_floor] + [number for number, _ in dropped])

    def touched(self, after, upto):
        return set().union(*self.touches[after + 1:upto + 1])

    def prefix_upto(self, csn):
        """How many writes have a CSN that is not greater."""
        return sum(1 for other in self.csns[1:] if other <= csn)

    def cookie(self, number):
        return wire.cookie_text(self.number, self.csns[number])

    def served_prefix(self, cookie):
        """The prefix that a cookie names, or None where it can't be served."""
        csn, history = wire.cookie_parts(cookie)
        if history != self.number or csn > self.csns[-1]:
            return None
        return self.prefix_upto(csn)
