"""Says whether two LDAP servers have the same entries, and waits for it. An entry is its name with
its user attributes, entryUUID and entryCSN. Where they differ, each difference is a line.

usage: same.py SECONDS BASE URL OTHER_URL
"""
import sys
import time

import ldap
import ldap.dn

ATTRIBUTES = ["*", "entryUUID", "entryCSN"]


def name_of(dn):
    """A name without regard to case and to spaces around separators."""
    return ldap.dn.dn2str(ldap.dn.str2dn(dn)).lower()


def entries_of(url, base):
    """The entries of a server by their names, or None where it does not answer."""
    try:
        server = ldap.initialize(url)
        server.set_option(ldap.OPT_NETWORK_TIMEOUT, 5)
        found = server.search_ext_s(base, ldap.SCOPE_SUBTREE, "(objectClass=*)", ATTRIBUTES, timeout=20)
        server.unbind_s()
    except ldap.NO_SUCH_OBJECT:
        return {}
    except ldap.LDAPError:
        return None
    return {
        name_of(dn): {kind.lower(): sorted(values) for kind, values in attributes.items()}
        for dn, attributes in found
        if dn is not None
    }


def differences(one, other):
    """What differs, a line for each entry."""
    if one is None or other is None:
        yield "a server does not answer"
        return
    for name in sorted(one.keys() | other.keys()):
        if name not in other:
            yield f"{name}: only at the first"
        elif name not in one:
            yield f"{name}: only at the second"
        elif one[name] != other[name]:
            kinds = sorted(
                kind
                for kind in one[name].keys() | other[name].keys()
                if one[name].get(kind) != other[name].get(kind)
            )
            yield f"{name}: {', '.join(kinds)}"


def main():
    seconds, base, url, other_url = sys.argv[1:]
    until = time.monotonic() + float(seconds)
    while True:
        found = list(differences(entries_of(url, base), entries_of(other_url, base)))
        if not found or time.monotonic() > until:
            break
        time.sleep(0.2)
    for line in found[:20]:
        print(line)
    sys.exit(1 if found else 0)


main()
