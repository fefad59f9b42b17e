"""Messages of LDAP (RFC 4511) with content synchronisation (RFC 4533) in the Distinguished
Encoding Rules, and the texts of CSNs, identities and cookies."""
import datetime
import functools
import re

SYNC = "1.3.6.1.4.1.4203.1.9.1."
SYNC_STATE, SYNC_DONE, SYNC_INFO = SYNC + "2", SYNC + "3", SYNC + "4"
EPOCH = datetime.datetime(1970, 1, 1)
ADD, MODIFY, DELETE = 1, 2, 3


def element(tag, *parts):
    body = b"".join(parts)
    length = len(body)
    if length < 128:
        return bytes([tag, length]) + body
    octets = length.to_bytes((length.bit_length() + 7) // 8, "big")
    return bytes([tag, 128 | len(octets)]) + octets + body


def integer(tag, value):
    return element(tag, value.to_bytes(value.bit_length() // 8 + 1, "big"))


def text(value):
    return element(0x04, value.encode())


def true():
    return element(0x01, b"\xff")


def false():
    return element(0x01, b"\0")


def message(operation, *controls):
    """All messages of a script have the message ID 1."""
    attached = element(0xA0, *controls) if controls else b""
    return element(0x30, integer(0x02, 1), operation, attached)


def control(name, value):
    return element(0x30, text(name), element(0x04, value))


def cookie_of(value):
    return text(value) if value is not None else b""


def state_control(state, uuid, cookie):
    return control(SYNC_STATE, element(
        0x30, integer(0x0A, state), element(0x04, uuid.to_bytes(16, "big")), cookie_of(cookie)))


def entry_message(entry, state, cookie=None):
    """An entry whole, and last its identity and its CSN."""
    marks = [("entryUUID", [uuid_text(entry.uuid)]), ("entryCSN", [csn_text(entry.csn)])]
    attributes = [
        element(0x30, text(kind), element(0x31, *map(text, values)))
        for kind, values in entry.attributes + marks
    ]
    found = element(0x64, text(entry.name), element(0x30, *attributes))
    return message(found, state_control(state, entry.uuid, cookie))


def delete_message(uuid, name, cookie=None):
    """A deleted entry has its name and no attributes."""
    return message(element(0x64, text(name), element(0x30)), state_control(DELETE, uuid, cookie))


def info(value):
    return message(element(0x79, element(0x80, SYNC_INFO.encode()), element(0x81, value)))


def id_set(deletes, uuids):
    identities = [element(0x04, uuid.to_bytes(16, "big")) for uuid in uuids]
    return info(element(0xA3, true() if deletes else b"", element(0x31, *identities)))


def present_phase_over():
    """refreshPresent without a cookie, where the refresh goes on."""
    return info(element(0xA2, false()))


def refresh_over(deletes, cookie):
    """The end of a refresh, after which the search persists."""
    return info(element(0xA1 if deletes else 0xA2, text(cookie)))


def done(code, *controls):
    return message(element(0x65, integer(0x0A, code), text(""), text("")), *controls)


def search_done(deletes, cookie):
    """The end of a search that is a refresh alone."""
    value = element(0x30, text(cookie), true() if deletes else b"")
    return done(0, control(SYNC_DONE, value))


# ---- a CSN is microseconds, a count and a server's number


@functools.lru_cache(2**16)
def csn_text(csn):
    micros, count, server = csn
    moment = EPOCH + datetime.timedelta(microseconds=micros)
    return f"{moment:%Y%m%d%H%M%S.%f}Z#{count:06x}#{server:03x}#000000"


def uuid_text(uuid):
    digits = f"{uuid:032x}"
    return "-".join([digits[:8], digits[8:12], digits[12:16], digits[16:20], digits[20:]])


def cookie_text(history, csn):
    return f"rid=000,sid={csn[2]:03x},csn={csn_text(csn)},gen={history:032x}"


COOKIE = re.compile(
    r"rid=\d{3},sid=[0-9a-f]{3},csn=(\d{14})\.(\d{6})Z#([0-9a-f]{6})#([0-9a-f]{3})#000000,"
    r"gen=([0-9a-f]{32})")


def cookie_parts(cookie):
    """The CSN and the history of a cookie that a directory wrote."""
    time, micros, count, server, history = COOKIE.fullmatch(cookie).groups()
    moment = datetime.datetime.strptime(time, "%Y%m%d%H%M%S") - EPOCH
    whole = moment // datetime.timedelta(microseconds=1) + int(micros)
    return (whole, int(count, 16), int(server, 16)), int(history, 16)
