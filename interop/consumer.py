"""A consumer of content synchronisation (RFC 4533), by python-ldap: it follows a directory in both
modes, with a cookie between two searches, and says where what it holds differs from what a plain
search finds.

usage: consumer.py URL NAME PASSWORD FILE      FILE keeps the cookie
"""
import os
import sys
import time

import ldap
import ldap.modlist
from ldap.ldapobject import SimpleLDAPObject
from ldap.syncrepl import SyncreplConsumer

BASE = "dc=x"
# What a server may send of each entry beside the attributes that a plain search finds.
MARKS = {"entryUUID", "entryCSN"}
url, name, password, kept = sys.argv[1:5]


class Consumer(SimpleLDAPObject, SyncreplConsumer):
    """Holds entries by their identities."""

    def __init__(self, held):
        SimpleLDAPObject.__init__(self, url)
        self.held = held
        self.present = []
        self.is_refreshed = False

    def syncrepl_get_cookie(self):
        if os.path.exists(kept):
            with open(kept, encoding="ascii") as file:
                return file.read()
        return None

    def syncrepl_set_cookie(self, cookie):
        with open(kept, "w", encoding="ascii") as file:
            file.write(cookie)

    def syncrepl_entry(self, dn, attributes, uuid):
        self.held[uuid] = (dn, attributes)
        self.present.append(uuid)

    def syncrepl_delete(self, uuids):
        for uuid in uuids:
            self.held.pop(uuid, None)

    def syncrepl_present(self, uuids, refreshDeletes=False):
        if uuids is not None:
            self.present.extend(uuids)
            return
        if not refreshDeletes:
            for uuid in set(self.held) - set(self.present):
                del self.held[uuid]
        self.present = []

    def syncrepl_refreshdone(self):
        self.is_refreshed = True


def plain(entries):
    """Entries as they are compared: the order of attributes and values is none of LDAP's."""
    return sorted((dn, sorted((kind, sorted(values)) for kind, values in attributes.items()
                              if kind not in MARKS))
                  for dn, attributes in entries)


def is_same(held, writer):
    return plain(held.values()) == plain(writer.search_s(BASE, ldap.SCOPE_SUBTREE))


def refresh(held):
    """One search in refreshOnly, from the cookie that is kept."""
    consumer = Consumer(held)
    search = consumer.syncrepl_search(BASE, ldap.SCOPE_SUBTREE, mode="refreshOnly")
    while consumer.syncrepl_poll(msgid=search, all=1, timeout=20):
        pass
    consumer.unbind_s()


def poll_until(consumer, search, is_done):
    end = time.time() + 20
    while not is_done() and time.time() < end:
        try:
            consumer.syncrepl_poll(msgid=search, timeout=1)
        except ldap.TIMEOUT:
            pass


def dn_of(cn):
    return f"cn={cn},ou=a,{BASE}"


def add(writer, cn):
    entry = {"objectClass": [b"inetOrgPerson"], "cn": [cn.encode()], "sn": [b"s"]}
    writer.add_s(dn_of(cn), ldap.modlist.addModlist(entry))


# Writes, and what they are called.
WRITES = [
    ("an add", lambda writer: add(writer, "g")),
    ("a modify", lambda writer: writer.modify_s(dn_of("g"), [(ldap.MOD_REPLACE, "sn", [b"t"])])),
    ("a rename", lambda writer: writer.rename_s(dn_of("g"), "cn=k", delold=1)),
    ("a delete", lambda writer: writer.delete_s(dn_of("k"))),
]


def follows(writer):
    """What differs in refreshOnly: after each write one search from the cookie of the last."""
    held, wrong = {}, []
    refresh(held)
    if not is_same(held, writer):
        wrong.append("refreshOnly, all")
    for what, write in WRITES:
        write(writer)
        refresh(held)
        if not is_same(held, writer):
            wrong.append(f"refreshOnly, {what}")
    return held, wrong


def persists(held, writer):
    """What differs in refreshAndPersist: one search from that cookie on, beside the writes."""
    consumer, wrong = Consumer(held), []
    search = consumer.syncrepl_search(BASE, ldap.SCOPE_SUBTREE, mode="refreshAndPersist")
    poll_until(consumer, search, lambda: consumer.is_refreshed)
    if not (consumer.is_refreshed and is_same(held, writer)):
        wrong.append("refreshAndPersist, refresh")
    for what, write in WRITES:
        write(writer)
        poll_until(consumer, search, lambda: is_same(held, writer))
        if not is_same(held, writer):
            wrong.append(f"refreshAndPersist, {what}")
    consumer.unbind_s()
    return wrong


def main():
    writer = ldap.initialize(url)
    writer.simple_bind_s(name, password)
    held, wrong = follows(writer)
    wrong += persists(held, writer)
    for what in wrong:
        print("wrong", what)
    return 1 if wrong else 0


sys.exit(main())
