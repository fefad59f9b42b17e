"""Scripts of `syncrepl cascade` that are drawn from a seed: searches in which writes come between
the messages of a refresh. Entries leave what a consumer selects, come back, change, and move."""
import random

SUFFIX = "dc=x"
SIZE_WEIGHTS = [1, 2, 2, 4]
# With a limit that is below these, a directory has at first as many entries as it may have, or up
# to 20 less.
MOST_LEFT = 20
DEPARTMENTS = 3
SPECIFICATIONS = [
    'sub "dc=x" "(objectClass=*)"',
    'sub "dc=x" "(objectClass=*)"',
    'sub "dc=x" "(departmentNumber=1)"',
    'sub "dc=x" "(!(departmentNumber=2))"',
    'sub "dc=x" "(|(departmentNumber=0)(ou=u1))"',
    'sub "dc=x" "(title=none)"',
    'sub "ou=u1,dc=x" "(objectClass=*)"',
    'one "ou=u0,dc=x" "(objectClass=inetOrgPerson)"',
    'base "ou=u1,dc=x" "(objectClass=*)"',
]
WIDE_SPECIFICATIONS = [SPECIFICATIONS[0], SPECIFICATIONS[3]]


class Tree:
    """What stands in the directory: units by number, each with its name and the people in it."""

    def __init__(self, draw, most_entries):
        self.draw, self.most_entries = draw, most_entries
        self.units, self.people = {}, {}
        self.next_person = 1
        self.deleted, self.recent = [], []

    def unit_name(self, unit):
        return f"ou={self.units[unit]},{SUFFIX}"

    def person_name(self, person):
        return f"uid={person},{self.unit_name(self.people[person])}"

    def department(self):
        return self.draw.randrange(DEPARTMENTS)

    def is_full(self):
        return 1 + len(self.units) + len(self.people) >= self.most_entries

    # ---- writes, each as the lines of its record

    def first(self):
        classes = ["objectClass: organization", "objectClass: dcObject"]
        return [f"dn: {SUFFIX}"] + classes + ["o: X", "dc: x"]

    def add_unit(self):
        unit = len(self.units)
        self.units[unit] = f"u{unit}"
        return [f"dn: {self.unit_name(unit)}", "objectClass: organizationalUnit", f"ou: u{unit}"]

    def add_person(self):
        """A new person, or one with the name of a deleted one, or one that has no place."""
        if self.is_full():
            return self.person("none", 0)
        if self.deleted and self.draw.random() < 0.5:
            person = self.deleted.pop(self.draw.randrange(len(self.deleted)))
        else:
            person, self.next_person = f"p{self.next_person}", self.next_person + 1
        self.people[person] = self.draw.choice(list(self.units))
        return self.person(person, self.people[person])

    def person(self, person, unit):
        return [
            f"dn: uid={person},{self.unit_name(unit)}", "objectClass: inetOrgPerson",
            f"uid: {person}", f"cn: {person}", "sn: S", f"departmentNumber: {self.department()}",
        ]

    def delete_person(self, person):
        name = self.person_name(person)
        del self.people[person]
        self.deleted.append(person)
        return [f"dn: {name}", "changetype: delete"]

    def replace(self, person, kind, value):
        name = self.person_name(person)
        return [f"dn: {name}", "changetype: modify", f"replace: {kind}", f"{kind}: {value}"]

    def change_department(self, person):
        return self.replace(person, "departmentNumber", self.department())

    def change_description(self, person):
        return self.replace(person, "description", f"d{self.draw.randrange(1000)}")

    def rename_person(self, person):
        name = self.person_name(person)
        renamed = person[:-1] if person.endswith("x") else person + "x"
        self.people[renamed] = self.people.pop(person)
        return [f"dn: {name}", "changetype: modrdn", f"newrdn: uid={renamed}",
                f"deleteoldrdn: {self.draw.randrange(2)}"]

    def move_person(self, person):
        name = self.person_name(person)
        self.people[person] = self.draw.choice(list(self.units))
        return [f"dn: {name}", "changetype: moddn", f"newrdn: uid={person}", "deleteoldrdn: 0",
                f"newsuperior: {self.unit_name(self.people[person])}"]

    def rename_unit(self):
        unit = self.draw.choice(list(self.units))
        name = self.unit_name(unit)
        value = self.units[unit]
        self.units[unit] = value[:-1] if value.endswith("y") else value + "y"
        return [f"dn: {name}", "changetype: modrdn", f"newrdn: ou={self.units[unit]}",
                f"deleteoldrdn: {self.draw.randrange(2)}"]

    def rejected(self):
        """A write below a unit that is not there."""
        return [f"dn: ou=a,ou=none,{SUFFIX}", "objectClass: organizationalUnit", "ou: a"]

    def any_write(self):
        if not self.people or self.draw.random() < 0.25:
            return self.add_person()
        if self.draw.random() < 0.06:
            return self.draw.choice([self.rename_unit, self.rejected])()
        write = self.draw.choice([
            self.delete_person, self.change_department, self.change_department,
            self.change_description, self.rename_person, self.move_person])
        return write(self.any_person())

    def any_person(self):
        """One of those that were changed a short while ago, or any."""
        recent = [person for person in self.recent if person in self.people]
        if recent and self.draw.random() < 0.4:
            return self.draw.choice(recent)
        person = self.draw.choice(list(self.people))
        self.recent = self.recent[-5:] + [person]
        return person


class Script:
    """The lines of a script, and which consumers and directories it has."""

    def __init__(self, seed, most_entries, piece):
        self.draw = random.Random(seed)
        self.tree = Tree(self.draw, most_entries)
        self.piece = piece
        # so near to it a copy is asked for whole, often without a cookie
        self.is_near_limit = most_entries < 3 * piece
        self.specifications = SPECIFICATIONS[:1] if self.is_near_limit else SPECIFICATIONS
        self.lines = [f'provider p "{SUFFIX}"']
        self.consumers, self.directories = [], ["p"]

    def say(self, line):
        self.lines.append(line)

    def write(self, record):
        self.lines += ["write p"] + record + [""]

    def declare(self, kind, name, provider, specifications):
        reloads = self.draw.choice(["", "", " reload"])
        self.say(f"{kind} {name} from {provider} {self.draw.choice(specifications)}{reloads}")
        self.consumers.append(name)

    def declare_all(self):
        for number in range(self.draw.randint(1, 3)):
            self.declare("consumer", f"c{number}", "p", self.specifications)
        if self.draw.random() < 0.4:
            self.declare("replica", "r", "p", WIDE_SPECIFICATIONS)
            self.directories.append("r")
            self.declare("consumer", "d", "r", self.specifications)

    def fill(self):
        if self.draw.random() < 0.4:
            self.say(f"log p {self.draw.choice([0, 3, 30])}")
        self.write(self.tree.first())
        for _ in range(3):
            self.write(self.tree.add_unit())
        for _ in range(self.size() - 4):
            self.write(self.tree.add_person())

    def size(self):
        """How many entries there are at first: few, as many as are decided at once, or more."""
        piece, most = self.piece, self.tree.most_entries
        twice = 2 * piece
        sizes = [(4, 40), (piece - 6, piece + 4), (twice - 6, twice + 4), (piece, 3 * piece)]
        if self.is_near_limit:
            return most - self.draw.randint(0, MOST_LEFT)
        return self.draw.randint(*self.draw.choices(sizes, SIZE_WEIGHTS)[0])

    def write_some(self, most):
        for _ in range(self.draw.randint(1, most)):
            if self.draw.random() < 0.1:
                self.say(f"clock {self.draw.randrange(10**9)}")
            self.write(self.tree.any_write())

    def limit(self):
        directory = self.draw.choice(self.directories)
        if self.draw.random() < 0.5:
            self.say(f"log {directory} {self.draw.choice([0, 3, 30, 1000, 1000, 5000])}")
        else:
            self.say(f"queue {directory} {self.draw.choice([0, 2, 10, 50, 4096, 4096])}")

    def count(self):
        piece = self.piece
        few, some = [1, 2, piece // 12, piece // 4, piece // 2], [piece - 1, piece, piece + 1]
        return max(1, self.draw.choice(few + some + [piece + piece // 5, 4 * piece]))

    def respecify(self, consumer):
        specifications = WIDE_SPECIFICATIONS if consumer == "r" else self.specifications
        self.say(f"respec {consumer} {self.draw.choice(specifications)}")

    def renew_replica(self):
        """A commit of the replica, which may have other identities then among those that it had."""
        if self.draw.random() < 0.4:
            self.respecify("r")
        self.say("settle r")

    def exchange(self, consumer, count):
        kind = self.draw.choices(["send", "take", "both"], [5, 3, 3])[0]
        if kind != "take":
            self.say(f"send {consumer} {count}")
        if kind != "send":
            self.say(f"take {consumer} {count}")

    def end(self, consumer):
        kind = self.draw.choices(["settle", "all", "cut", "leave"], [4, 4, 1, 2])[0]
        if kind == "all":
            self.lines += [f"send {consumer} 5000", f"take {consumer} 5000"]
        elif kind != "leave":
            self.say(f"{kind} {consumer}")

    def search(self):
        """A search with writes between its messages, and what another consumer does meanwhile."""
        consumer = self.draw.choice(self.consumers + self.consumers[-1:])
        if self.is_near_limit:
            self.say(f"lose {consumer}")
        is_narrow = self.draw.random() < 0.3
        if is_narrow:
            self.say(f"queue p {self.draw.choice([0, 1, 3])}")
        self.say(f"open {consumer} {self.draw.choice(['once', 'stay'])}")
        for _ in range(self.draw.randint(1, 6)):
            self.exchange(consumer, self.draw.choice([self.piece, self.count(), self.count()]))
            self.disturb(consumer)
        self.end(consumer)
        if is_narrow:
            self.say("queue p 4096")

    def disturb(self, consumer):
        """What comes between messages of a consumer."""
        if self.draw.random() < 0.7:
            self.write_some(self.draw.choice([1, 4, 25]))
        if consumer == "d" and self.draw.random() < 0.5:
            self.renew_replica()
        if self.draw.random() < 0.3:
            self.exchange(self.draw.choice(self.consumers), self.count())

    def between(self):
        """What comes between two searches."""
        kinds = ["writes", "units", "settle", "lose", "limit", "respec"]
        kind = self.draw.choices(kinds, [3, 2, 3, 1, 1, 1])[0]
        consumer = self.draw.choice(self.consumers)
        if kind == "writes":
            self.write_some(60)
        elif kind == "units":
            for _ in range(self.draw.randint(1, 3)):
                self.write(self.tree.rename_unit())
        elif kind == "limit":
            self.limit()
        elif kind == "respec":
            self.respecify(consumer)
        else:
            self.say(f"{kind} {consumer}")

    def text(self):
        self.declare_all()
        self.fill()
        if self.draw.random() < 0.6:
            self.lines += [f"settle {consumer}" for consumer in self.consumers]
            self.write_some(30)
        for _ in range(self.draw.randint(2, 7)):
            self.search()
            for _ in range(self.draw.randint(0, 3)):
                self.between()
        for consumer in self.consumers:
            self.lines += [f"settle {consumer}", f"show {consumer}"]
        return "".join(f"{line}\n" for line in self.lines)


def script(seed, most_entries, piece):
    return Script(seed, most_entries, piece).text()
