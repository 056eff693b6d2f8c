"""What the tests read: BGP messages, TCP connections, captures and BMP streams, written from the standards alone."""

import struct

OWN, PEER, OTHER = "192.0.2.1", "192.0.2.10", "192.0.2.20"
OWN_AS, PEER_AS, WIDE_AS = 64500, 64510, 400_000
START = 1_700_000_000
KEEPALIVE = b"\xff" * 16 + b"\0\x13\4"
END_OF_RIB = b"\xff" * 16 + b"\0\x17\2" + bytes(4)


def packed(address):
    """An IPv4 address as its bytes."""
    return bytes(int(part) for part in address.split("."))


# ---- BGP (RFC 4271)

def message(kind, body=b""):
    """A message."""
    return b"\xff" * 16 + struct.pack(">HB", 19 + len(body), kind) + body


def capability(code, value):
    """A capability in a parameter of its own (RFC 5492)."""
    return bytes((2, 2 + len(value), code, len(value))) + value


def four_bytes(asn):
    """The capability of AS numbers of four bytes (RFC 6793)."""
    return capability(65, struct.pack(">I", asn))


def add_path(mode):
    """The capability of ADD-PATH for IPv4 unicast (RFC 7911)."""
    return capability(69, bytes((0, 1, 1, mode)))


def opened(asn, *capabilities, short=None):
    """An OPEN. `short` is the AS in its two bytes, where that isn't the usual one."""
    parameters = b"".join(capabilities)
    if short is None:
        short = asn if asn < 65536 else 23456
    return message(1, struct.pack(">BHH4sB", 4, short, 90, packed(PEER), len(parameters)) + parameters)


def update(prefix, path=(PEER_AS,), withdrawn=b"", wide=True, communities=b""):
    """An UPDATE that announces one prefix, or none."""
    numbers = struct.pack(">BB%d%s" % (len(path), "I" if wide else "H"), 2, len(path), *path)
    block = b"\x40\1\1\0" + b"\x40\2" + bytes((len(numbers),)) + numbers + b"\x40\3\4" + packed(PEER) + communities
    block = block if prefix else b""
    return message(2, struct.pack(">H", len(withdrawn)) + withdrawn + struct.pack(">H", len(block)) + block + prefix)


def prefix(text):
    """A prefix of an UPDATE."""
    address, bits = text.split("/")
    return bytes((int(bits),)) + packed(address)[:(int(bits) + 7) // 8]


def notification(code=6, subcode=2):
    """A NOTIFICATION."""
    return message(3, bytes((code, subcode)))


# ---- TCP over IPv4

def segment(source, source_port, target, target_port, seq, data=b"", flags=16):
    """A packet of IPv4 with a segment of TCP."""
    tcp = struct.pack(">HHIIBBHHH", source_port, target_port, seq % 2 ** 32, 0, 0x50, flags, 65535, 0, 0) + data
    return struct.pack(">BBHHHBBH4s4s", 0x45, 0, 20 + len(tcp), 0, 0, 64, 6, 0, packed(source), packed(target)) + tcp


class Talk:
    """A TCP connection between the router and a neighbour, whose packets are kept with their times in microseconds."""

    def __init__(self, peer=PEER, port=40_000, at=START * 1_000_000, seq=1000):
        self.peer, self.port, self.time = peer, port, at
        self.next = {True: seq, False: seq + 7_000_000}
        self.packets = []

    def say(self, sent, data=b"", flags=16, step=1000):
        """A packet of one side, so many microseconds after the one before."""
        self.time += step
        ends = (OWN, 179, self.peer, self.port) if sent else (self.peer, self.port, OWN, 179)
        self.packets.append((self.time, segment(*ends, self.next[sent], data, flags)))
        self.next[sent] += len(data) + (1 if flags & 3 else 0)
        return self

    def connect(self):
        """The neighbour opens the connection."""
        return self.say(False, flags=2).say(True, flags=18).say(False)

    def establish(self, sent_open=None, received_open=None):
        """The session comes up."""
        self.connect()
        self.say(True, sent_open or opened(OWN_AS, four_bytes(OWN_AS)))
        self.say(False, received_open or opened(PEER_AS, four_bytes(PEER_AS)))
        return self.say(True, KEEPALIVE).say(False, KEEPALIVE)


# ---- captures

def ethernet(packet, *tags):
    """A packet in a frame of Ethernet, with these VLAN tags' types."""
    frame = bytes(12)
    for tag in tags:
        frame += struct.pack(">HH", tag, 5)
    return frame + (b"\x08\0" if packet[0] >> 4 == 4 else b"\x86\xdd") + packet


LINKS = {
    0: lambda packet: struct.pack("<I", 2) + packet,
    1: ethernet,
    101: lambda packet: packet,
    108: lambda packet: struct.pack(">I", 2) + packet,
    113: lambda packet: bytes(14) + b"\x08\0" + packet,
    228: lambda packet: packet,
    276: lambda packet: b"\x08\0" + bytes(18) + packet,
}


def pcap(packets, link=1, order="<", nano=False, frame=None):
    """A pcap file of packets with their times."""
    found = struct.pack(order + "IHHiIII", 0xA1B23C4D if nano else 0xA1B2C3D4, 2, 4, 0, 0, 262_144, link)
    for time, packet in packets:
        data = (frame or LINKS[link])(packet)
        fraction = time % 1_000_000 * (1000 if nano else 1)
        found += struct.pack(order + "4I", time // 1_000_000, fraction, len(data), len(data)) + data
    return found


def block(order, kind, body):
    """A block of pcapng."""
    body += bytes(-len(body) % 4)
    return struct.pack(order + "II", kind, 12 + len(body)) + body + struct.pack(order + "I", 12 + len(body))


def pcapng(packets, link=1, order="<", resolution=None, offset=0):
    """A pcapng file: a section with one interface, whose unit of time is a power of ten, or of two from 0x80 on."""
    found = block(order, 0x0A0D0D0A, struct.pack(order + "IHHq", 0x1A2B3C4D, 1, 0, -1))
    options = b"" if resolution is None else struct.pack(order + "HHB3x", 9, 1, resolution)
    if offset:
        options += struct.pack(order + "HHq", 14, 8, offset)
    found += block(order, 1, struct.pack(order + "HHI", link, 0, 0) + options)
    resolution = 6 if resolution is None else resolution
    units = 2 ** (resolution & 127) if resolution & 128 else 10 ** resolution
    for time, packet in packets:
        data, when = LINKS[link](packet), -(-(time - offset * 1_000_000) * units // 1_000_000)
        front = struct.pack(order + "5I", 0, when >> 32, when & 0xFFFFFFFF, len(data), len(data))
        found += block(order, 6, front + data)
    return found


# ---- MRT (RFC 6396)

def record(second, kind, subtype, body):
    """A record."""
    return struct.pack(">IHHI", second, kind, subtype, len(body)) + body


def exchanged(time, subtype, rest, peer_as=PEER_AS, peer=PEER, own_as=OWN_AS, own=OWN, micros=True):
    """A record of a session: its message or its two states as a pair. The time is in microseconds."""
    if isinstance(rest, tuple):
        rest = struct.pack(">HH", *rest)
    front = struct.pack(">II" if subtype in (4, 5, 7, 9, 11) else ">HH", peer_as, own_as)
    body = front + struct.pack(">HH", 0, 1) + packed(peer) + packed(own) + rest
    if micros:
        return record(time // 1_000_000, 17, subtype, struct.pack(">I", time % 1_000_000) + body)
    return record(time // 1_000_000, 16, subtype, body)


# ---- BMP (RFC 7854)

def bmp(kind, body=b""):
    """A message of BMP."""
    return struct.pack(">BIB", 3, 6 + len(body), kind) + body


def of_peer(time, flags=0, asn=PEER_AS, peer=PEER, kind=0):
    """The header of a message of a peer. The time is in microseconds."""
    address, when = packed(peer), divmod(time, 1_000_000)
    return struct.pack(">BB8s12x4sI4sII", kind, flags, bytes(8), address, asn, address, *when)


def peer_up(time, sent, received, **peer):
    """A Peer Up with both OPENs."""
    return bmp(3, of_peer(time, **peer) + bytes(12) + packed(OWN) + struct.pack(">HH", 179, 40_000) + sent + received)


def peer_down(time, reason, rest=b"", **peer):
    """A Peer Down."""
    return bmp(2, of_peer(time, **peer) + bytes((reason,)) + rest)


def monitored(time, flags, *raw, **peer):
    """Route Monitoring of some UPDATEs."""
    return bmp(0, of_peer(time, flags, **peer) + b"".join(raw))
