"""BGP messages, as far as the programs of this folder look into them (RFC 4271, 5492, 6793, 7911, 9072)."""

import struct

MARKER = b"\xff" * 16
OPEN, UPDATE, NOTIFICATION, KEEPALIVE, ROUTE_REFRESH = range(1, 6)
SMALLEST = 19
FOUR_BYTES, ADD_PATH = 65, 69
IPV4_UNICAST = (1, 1)


class NotBgp(Exception):
    """Bytes of a stream that begin no message."""


class Open:
    """What an OPEN says: the speaker's AS, whether it has AS numbers of four bytes, and in which directions it takes
    part in ADD-PATH for IPv4 unicast."""

    def __init__(self, raw):
        (self.asn,) = struct.unpack(">H", raw[20:22])
        self.wide, self.receives_paths, self.sends_paths = False, False, False
        for code, value in capabilities(raw[28:]):
            if code == FOUR_BYTES and len(value) == 4:
                self.wide, self.asn = True, int.from_bytes(value, "big")
            elif code == ADD_PATH:
                self.take_paths(value)

    def take_paths(self, value):
        """Takes the families of an ADD-PATH capability."""
        for family, subfamily, mode in struct.iter_unpack(">HBB", value[:len(value) // 4 * 4]):
            if (family, subfamily) == IPV4_UNICAST:
                self.receives_paths, self.sends_paths = bool(mode & 1), bool(mode & 2)


def open_of(raw):
    """What an OPEN says, or None for another message or one that is too short."""
    return Open(raw) if len(raw) >= 29 and raw[18] == OPEN else None


def capabilities(data):
    """The capabilities of the optional parameters, which begin with their length. What doesn't fit ends them."""
    found = []
    for kind, value in parameters(data):
        while kind == 2 and len(value) >= 2:
            found.append((value[0], value[2:2 + value[1]]))
            value = value[2 + value[1]:]
    return found


def parameters(data):
    """The optional parameters with their types."""
    width, data = (2, data[4:]) if data[:2] == b"\xff\xff" else (1, data[1:])
    found = []
    while len(data) > width:
        size = int.from_bytes(data[1:1 + width], "big")
        found.append((data[0], data[1 + width:1 + width + size]))
        data = data[1 + width + size:]
    return found


def cut(buffer):
    """Takes the first message off the bytes of a stream, or gives None where it isn't whole yet."""
    if not MARKER.startswith(buffer[:16]):
        raise NotBgp
    if len(buffer) < SMALLEST:
        return None
    size = int.from_bytes(buffer[16:18], "big")
    if size < SMALLEST:
        raise NotBgp
    if len(buffer) < size:
        return None
    raw = bytes(buffer[:size])
    del buffer[:size]
    return raw


def align(buffer):
    """Drops what stands before the first header of a message, and gives how many bytes that were. Bytes that may begin
    one stay."""
    at = 0
    while at < len(buffer) and not begins(buffer[at:at + SMALLEST]):
        at += 1
    del buffer[:at]
    return at


def begins(head):
    """Whether these bytes are a message's first, or may become that."""
    if not MARKER.startswith(head[:16]):
        return False
    return len(head) < SMALLEST or int.from_bytes(head[16:18], "big") >= SMALLEST and OPEN <= head[18] <= ROUTE_REFRESH


def is_tagged(raw):
    """Whether a message has prefixes of IPv4 in its own fields, which in an ADD-PATH session have path identifiers."""
    if len(raw) < 23 or raw[18] != UPDATE:
        return False
    withdrawn = int.from_bytes(raw[19:21], "big")
    attributes = int.from_bytes(raw[21 + withdrawn:23 + withdrawn], "big")
    return withdrawn > 0 or len(raw) > 23 + attributes
