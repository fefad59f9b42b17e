"""The report of a script of `syncrepl cascade` (docs/SCRIPTS.md) that is not refused."""
import hashlib

from .copies import Copy, STAGED, STORED
from .directory import Directory, Specification, filter_of, is_same, record_of
from .search import BUSY, Search

REFRESH_REQUIRED = 4096


def words_of(line):
    """The words of a line; what stands between quotes is one."""
    words = []
    for place, part in enumerate(line.split('"')):
        words += [part] if place % 2 else part.split()
    return words


def text_of(entries):
    return "".join(entries[uuid].ldif() for uuid in sorted(entries))


class Consumer:
    def __init__(self, name, provider, specification, reloads):
        self.name, self.provider, self.specification = name, provider, specification
        self.reloads = reloads
        self.copy, self.search, self.link = Copy(), None, []

    def is_busy(self):
        return self.search is not None or self.copy.is_searching or bool(self.link)

    def end_search(self):
        if self.search is not None:
            self.provider.searches.remove(self.search)
            self.search = None

    def drop(self):
        self.end_search()
        self.copy.stop()
        self.link = []

    def has_pending(self):
        return self.search is not None and self.search.has_pending()

    def persists(self):
        """Whether it has a persistent search whose refresh is done."""
        return self.search is not None and self.copy.is_searching and not self.copy.in_refresh


class World:
    def __init__(self):
        self.directories, self.consumers = {}, {}
        self.now, self.lines = 0, []

    def say(self, line):
        self.lines.append(line + "\n")

    def report(self, script):
        lines = iter(script.split("\n"))
        for line in lines:
            if line and not line.startswith("#"):
                words = words_of(line)
                getattr(self, words[0])(*words[1:], **self.record(words[0], lines))
        return "".join(self.lines)

    @staticmethod
    def record(command, lines):
        """The record that follows a `write`, up to an empty line."""
        if command != "write":
            return {}
        record = []
        for line in lines:
            if not line:
                break
            record.append(line)
        return {"record": record_of(record)}

    # ---- nodes

    def number_of_next(self):
        replicas = self.directories.keys() & self.consumers.keys()
        return len(self.directories) + len(self.consumers) - len(replicas) + 1

    def provider(self, name, suffix):
        self.directories[name] = Directory(name, suffix, self.number_of_next())

    def consumer(self, name, _, provider, scope, base, text, reload=None):
        specification = Specification(scope, base, filter_of(text))
        self.consumers[name] = Consumer(
            name, self.directories[provider], specification, reload is not None)

    def replica(self, name, *rest):
        number = self.number_of_next()
        self.consumer(name, *rest)
        self.directories[name] = Directory(name, "", number)

    def clock(self, micros):
        self.now = int(micros)

    def log(self, name, limit):
        self.directories[name].log_limit = int(limit)
        self.directories[name].trim()

    def queue(self, name, limit):
        self.directories[name].queue_limit = int(limit)

    def show(self, name):
        directory, consumer = self.directories.get(name), self.consumers.get(name)
        self.lines.append(text_of(directory.states[-1] if directory else consumer.copy.entries))

    def write(self, name, record):
        directory = self.directories[name]
        code = 53 if name in self.consumers else directory.write(record, self.now)
        self.say(f"wrote {name} {code} {directory.writes()}")

    # ---- consumers

    def lose(self, name):
        self.consumers[name].copy.cookie = None

    def repoint(self, name, provider):
        self.cut_busy(self.consumers[name])
        self.consumers[name].provider = self.directories[provider]

    def respec(self, name, scope, base, text):
        consumer = self.consumers[name]
        self.cut_busy(consumer)
        consumer.specification = Specification(scope, base, filter_of(text))
        consumer.copy.cookie = None

    def cut(self, name):
        if not self.cut_busy(self.consumers[name]):
            self.say(f"nothing {name}")

    def cut_busy(self, consumer):
        if consumer.is_busy():
            consumer.drop()
            self.say(f"cut {consumer.name}")
            return True
        return False

    def open(self, name, mode):
        return self.open_search(self.consumers[name], mode == "stay")

    def open_search(self, consumer, persists):
        self.cut_busy(consumer)
        directory, prefix = consumer.provider, None
        if consumer.copy.cookie is not None:
            prefix = directory.served_prefix(consumer.copy.cookie)
            if prefix is None and not consumer.reloads:
                consumer.copy.cookie = None
                self.say(f"refused {consumer.name} {REFRESH_REQUIRED}")
                return False
        consumer.search = Search(directory, consumer.specification, persists, prefix)
        directory.searches.append(consumer.search)
        consumer.copy.ask(persists)
        self.say(f"opened {consumer.name} {directory.writes()}")
        return True

    def send(self, name, count="1"):
        for _ in range(int(count)):
            if not self.send_one(self.consumers[name]):
                self.say(f"nothing {name}")
                break

    def send_one(self, consumer):
        if consumer.search is None:
            return False
        message, is_last = consumer.search.hand_out()
        if message is None:
            return False
        if is_last:
            consumer.end_search()
        consumer.link.append(message)
        self.say(f"sent {consumer.name} {message.octets().hex()}")
        return True

    def take(self, name, count="1"):
        for _ in range(int(count)):
            if not self.take_one(self.consumers[name]):
                self.say(f"nothing {name}")
                break

    def take_one(self, consumer):
        if not consumer.link:
            return False
        taken = consumer.copy.take(consumer.link.pop(0))
        if taken == STAGED:
            self.say(f"taken {consumer.name}")
        elif taken == STORED:
            self.stored(consumer)
        elif taken == BUSY:
            self.say(f"ended {consumer.name} {taken}")
        else:
            consumer.drop()
            self.say(f"fault {consumer.name} {taken}")
        return True

    def stored(self, consumer):
        number = consumer.provider.served_prefix(consumer.copy.cookie)
        origin = self.origin(consumer, number)
        entries = consumer.copy.entries
        digest = hashlib.sha256(text_of(entries).encode()).hexdigest()
        said = "-" if origin is None else "{} {}".format(*origin)
        stored = f"stored {consumer.name} {number} entries {len(entries)}"
        self.say(f"{stored} sha256 {digest} origin {said}")
        if consumer.name in self.directories:
            replica = self.directories[consumer.name]
            replica.commit(entries, consumer.specification, origin, self.now)

    def origin(self, consumer, number):
        """The root, and the number of its writes that is a provider's prefix there, if any."""
        directory = consumer.provider
        if directory.name not in self.consumers:
            return directory.name, number
        if number == 0:
            return self.top(directory.name), 0
        specification, origin = directory.commits[number - 1]
        is_followed = (
            specification.scope == consumer.specification.scope
            and is_same(specification.base, consumer.specification.base)
            and specification.filter == consumer.specification.filter)
        return origin if is_followed else None

    def top(self, name):
        while name in self.consumers:
            name = self.consumers[name].provider.name
        return name

    def settle(self, name):
        consumer = self.consumers[name]
        while self.take_one(consumer):
            pass
        self.exchange_pending(consumer)
        if not consumer.persists():
            if not self.open_search(consumer, False):
                self.open_search(consumer, False)
            self.exchange_pending(consumer)
        self.say(f"settled {name} {consumer.provider.writes()}")

    def exchange_pending(self, consumer):
        while consumer.has_pending():
            self.send_one(consumer)
            self.take_one(consumer)
