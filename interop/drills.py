"""What a drill does, by a plain program: the writers one after another, what they leave, the lines
that are printed of it, and the same writes as LDIF."""
import hashlib

SUFFIX = "dc=drill"
SUFFIX_ATTRIBUTES = [
    ("objectClass", "organization"),
    ("objectClass", "dcObject"),
    ("o", "drill"),
    ("dc", "drill"),
]
DEPARTMENTS = 4


def record(name, lines):
    return f"dn: {name}\n" + "".join(f"{key}: {value}\n" for key, value in lines) + "\n"


class Unit:
    """A writer's unit, with what stands below it: surnames and departments by slot. Each operation
    is given as the LDIF of a change, with the departments of which it changes something."""

    def __init__(self, seed, writer):
        self.value = f"w{writer}"
        self.number = (16 * seed + writer) % 2**64
        self.step = 0
        self.entries = {}

    def name(self):
        return f"ou={self.value},{SUFFIX}"

    def name_of(self, slot):
        return f"cn=e{slot},{self.name()}"

    def attributes(self):
        return [("objectClass", "organizationalUnit"), ("ou", self.value)]

    def attributes_of(self, slot):
        surname, department = self.entries[slot]
        return [
            ("objectClass", "inetOrgPerson"),
            ("cn", f"e{slot}"),
            ("sn", surname),
            ("departmentNumber", department),
        ]

    def begin(self):
        return record(self.name(), [("changetype", "add")] + self.attributes())

    def go_on(self):
        self.step += 1
        self.number = (self.number * 6364136223846793005 + 1442695040888963407) % 2**64
        drawn = self.number >> 48
        slot, kind = drawn % 64, drawn // 64 % 4
        if slot not in self.entries:
            return self.add(slot, kind)
        return (self.delete, self.set_department, self.rename, self.set_surname)[kind](slot)

    def add(self, slot, department):
        self.entries[slot] = [self.step, department]
        change = [("changetype", "add")] + self.attributes_of(slot)
        return record(self.name_of(slot), change), [department]

    def delete(self, slot):
        _, department = self.entries.pop(slot)
        return record(self.name_of(slot), [("changetype", "delete")]), [department]

    def set_department(self, slot):
        before, after = self.entries[slot][1], self.step % DEPARTMENTS
        self.entries[slot][1] = after
        change = self.replacing(slot, "departmentNumber", after)
        return change, [before] if before == after else [before, after]

    def set_surname(self, slot):
        self.entries[slot][0] = self.step
        return self.replacing(slot, "sn", self.step), [self.entries[slot][1]]

    def replacing(self, slot, key, value):
        change = [("changetype", "modify"), ("replace", key), (key, value)]
        return record(self.name_of(slot), change)[:-1] + "-\n\n"

    def rename(self, _):
        value = self.value[:-1] if self.value.endswith("x") else self.value + "x"
        change = [("changetype", "modrdn"), ("newrdn", f"ou={value}"), ("deleteoldrdn", 1)]
        renamed = record(self.name(), change)
        self.value = value
        return renamed, [department for _, department in self.entries.values()]

    def left(self):
        """What stands here: name, department and LDIF of each entry."""
        yield self.name(), None, record(self.name(), self.attributes())
        for slot, (_, department) in self.entries.items():
            name = self.name_of(slot)
            yield name, department, record(name, self.attributes_of(slot))


def line(entries):
    text = "".join(text for _, _, text in entries)
    return f"entries {len(entries)} sha256 {hashlib.sha256(text.encode()).hexdigest()}\n"


def printed(seed, writers, consumers, size):
    """What a drill prints."""
    entries = [(SUFFIX, None, record(SUFFIX, SUFFIX_ATTRIBUTES))]
    for writer in range(writers):
        unit = Unit(seed, writer)
        for _ in range(size):
            unit.go_on()
        entries.extend(unit.left())
    entries.sort()
    lines = [f"writes {1 + writers * (1 + size)} {line(entries)}"]
    for consumer in range(consumers):
        followed = [entry for entry in entries if entry[1] == consumer % DEPARTMENTS]
        lines.append(f"consumer {consumer} {line(followed)}")
    return "".join(lines)


def changes(seed, writers, size):
    """All writes as LDIF, each writer's next one in turn, with the departments that it changes."""
    yield record(SUFFIX, [("changetype", "add")] + SUFFIX_ATTRIBUTES), []
    units = [Unit(seed, writer) for writer in range(writers)]
    for unit in units:
        yield unit.begin(), []
    for _ in range(size):
        for unit in units:
            yield unit.go_on()
