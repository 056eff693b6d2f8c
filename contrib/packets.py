"""Captured packets as TCP segments: files of pcap and of pcapng, link layers, IPv4 and TCP."""

import collections
import socket
import struct

import mrt

SECOND = mrt.SECOND
IPV4, IPV6, TCP = 0x0800, 0x86DD, 6
VLAN_TAGS = (0x8100, 0x88A8, 0x9100)
FIN, SYN, RST = 1, 2, 4
WRAP = 1 << 32

# A part of a TCP stream, with its place among all: `cut` says how many of its bytes the capture lacks.
Segment = collections.namedtuple("Segment", "time place source source_port target target_port seq flags payload cut")


# ---- files

def packets(data, notes, name):
    """The packets of a capture in their order, each with its time in microseconds, its link layer and its bytes."""
    magic = data[:4]
    if magic == b"\x0a\x0d\x0d\x0a":
        return pcapng(data, notes, name)
    for order in "<>":
        for number, unit in ((0xA1B2C3D4, 1), (0xA1B23C4D, 1000)):
            if magic == struct.pack(order + "I", number):
                return pcap(data, order, unit, notes, name)
    raise mrt.Unreadable(f"{name}: neither pcap nor pcapng")


def pcap(data, order, unit, notes, name):
    """The packets of a pcap file. `unit` is how many of its units of time make a microsecond."""
    if len(data) < 24:
        raise mrt.Unreadable(f"{name}: the header of the capture isn't whole")
    link = struct.unpack(order + "I", data[20:24])[0] & 0xFFFF
    at = 24
    while at < len(data):
        if len(data) - at < 16:
            break
        second, fraction, size, _ = struct.unpack_from(order + "4I", data, at)
        if len(data) - at - 16 < size:
            break
        yield second * SECOND + fraction // unit, link, data[at + 16:at + 16 + size]
        at += 16 + size
    notes.left_out("bytes behind the last whole packet of a capture", len(data) - at)


def pcapng(data, notes, name):
    """The packets of a pcapng file."""
    at, order, links = 0, "<", []
    while len(data) - at >= 12:
        if data[at:at + 4] == b"\x0a\x0d\x0d\x0a":
            order, links = byte_order(data[at + 8:at + 12], name), []
        kind, size = struct.unpack_from(order + "II", data, at)
        if size < 12 or size % 4:
            raise mrt.Unreadable(f"{name}: no block of pcapng begins at byte {at}")
        if len(data) - at < size:
            break
        body = data[at + 8:at + size - 4]
        if kind == 1:
            links.append(interface(body, order, name, at))
        elif kind in (2, 6):
            yield packet_of(kind, body, order, links, f"{name}: the packet at byte {at}")
        elif kind == 3:
            notes.left_out("packets without a time (simple packet blocks)")
        at += size
    if at == 0:
        raise mrt.Unreadable(f"{name}: the header of the capture isn't whole")
    notes.left_out("bytes behind the last whole packet of a capture", len(data) - at)


def byte_order(magic, name):
    """The byte order of a section."""
    for order in "<>":
        if magic == struct.pack(order + "I", 0x1A2B3C4D):
            return order
    raise mrt.Unreadable(f"{name}: a section of pcapng has no byte order")


def interface(body, order, name, at):
    """The link layer of an interface, how many of its units of time make a second, and the seconds to add."""
    if len(body) < 8:
        raise mrt.Unreadable(f"{name}: the interface at byte {at} is too short")
    units, offset = SECOND, 0
    for code, value in options(body[8:], order):
        if code == 9 and value:
            units = 2 ** (value[0] & 0x7F) if value[0] & 0x80 else 10 ** value[0]
        elif code == 14 and len(value) == 8:
            (offset,) = struct.unpack(order + "q", value)
    return struct.unpack(order + "H", body[:2])[0], units, offset


def options(data, order):
    """The options of a block."""
    while len(data) >= 4:
        code, size = struct.unpack(order + "HH", data[:4])
        if code == 0:
            return
        yield code, data[4:4 + size]
        data = data[4 + (size + 3) // 4 * 4:]


def packet_of(kind, body, order, links, name):
    """The packet of an enhanced packet block, or of the older packet block."""
    if len(body) < 20:
        raise mrt.Unreadable(f"{name} is too short")
    number, high, low, size, _ = struct.unpack(order + ("H2x" if kind == 2 else "I") + "4I", body[:20])
    if number >= len(links) or len(body) - 20 < size:
        raise mrt.Unreadable(f"{name} names no interface, or isn't whole")
    link, units, offset = links[number]
    return ((high << 32 | low) * SECOND // units) + offset * SECOND, link, body[20:20 + size]


# ---- layers

def ethernet(frame):
    """What an Ethernet frame holds, behind its VLAN tags."""
    at = 12
    while int.from_bytes(frame[at:at + 2], "big") in VLAN_TAGS:
        at += 4
    return int.from_bytes(frame[at:at + 2], "big"), frame[at + 2:]


def cooked(kind_at, size):
    """The reader of a Linux cooked header. Tags of VLANs may stand behind it, too."""
    def read(frame):
        kind, rest = int.from_bytes(frame[kind_at:kind_at + 2], "big"), frame[size:]
        while kind in VLAN_TAGS:
            kind, rest = int.from_bytes(rest[2:4], "big"), rest[4:]
        return kind, rest
    return read


def raw(frame):
    """A packet without a link layer."""
    return {4: IPV4, 6: IPV6}.get(frame[0] >> 4 if frame else 0, 0), frame


def loopback(frame):
    """What a frame of a BSD loopback holds. Its family stands in the order of some machine."""
    family = min(int.from_bytes(frame[:4], order) for order in ("little", "big")) if len(frame) >= 4 else 0
    return {socket.AF_INET: IPV4, 10: IPV6, 24: IPV6, 28: IPV6, 30: IPV6}.get(family, 0), frame[4:]


LINKS = {0: loopback, 1: ethernet, 12: raw, 14: raw, 101: raw, 108: loopback, 113: cooked(14, 16), 228: raw, 229: raw,
         276: cooked(0, 20)}


def segments(found, port, notes):
    """The segments of a TCP port among packets, which have their places. Times that run back are held at the time
    before."""
    last = 0
    for place, (time, link, frame) in found:
        if time < last:
            notes.changed("packets older than one before them have its time")
        last = max(last, time)
        if link not in LINKS:
            notes.left_out(f"packets of link layer {link}, which isn't read")
            continue
        kind, packet = LINKS[link](frame)
        if kind == IPV4:
            segment = segment_of((last, place), packet, port, notes)
            if segment:
                yield segment
        elif kind == IPV6:
            notes.left_out(f"packets over IPv6 to or from TCP port {port}" if is_ipv6_of(packet, port)
                           else f"packets that aren't of TCP port {port}")
        else:
            notes.left_out("packets that are neither IPv4 nor IPv6")


def is_ipv6_of(packet, port):
    """Whether an IPv6 packet is of a TCP port, where TCP stands right behind the header."""
    return len(packet) >= 44 and packet[6] == TCP and port in struct.unpack(">HH", packet[40:44])


def segment_of(moment, packet, port, notes):
    """The segment of an IPv4 packet, or None where it is none of the port."""
    start = (packet[0] & 15) * 4 if packet else 0
    if start < 20 or len(packet) < start or packet[9] != TCP:
        notes.left_out(f"packets that aren't of TCP port {port}")
        return None
    if int.from_bytes(packet[6:8], "big") & 0x3FFF:
        notes.left_out("fragments of IPv4 packets of TCP")
        return None
    tcp = packet[start:]
    if len(tcp) < 4 or port not in struct.unpack(">HH", tcp[:4]):
        notes.left_out(f"packets that aren't of TCP port {port}")
        return None
    # (an offloading network card may leave the length at 0)
    size = int.from_bytes(packet[2:4], "big") or len(packet)
    offset = (tcp[12] >> 4) * 4 if len(tcp) >= 20 else 0
    if offset < 20 or size < start + offset or len(tcp) < offset:
        notes.left_out("packets whose TCP header isn't whole")
        return None
    source_port, target_port, seq = struct.unpack(">HHI", tcp[:8])
    payload = tcp[offset:size - start]
    return Segment(*moment, packet[12:16], source_port, packet[16:20], target_port, seq, tcp[13], payload,
                   size - start - offset - len(payload))


# ---- streams

class Stream:
    """One direction of a TCP connection, whose bytes are put in order. Where bytes are missing for `PATIENCE`, the
    stream is lost: no more of it is kept."""

    PATIENCE = 60 * SECOND

    def __init__(self):
        self.first = self.next = self.gap = None
        self.held = []
        self.missed = 0
        self.lost = False

    def open(self, seq):
        """A SYN with this number begins the stream."""
        self.first, self.next = seq, (seq + 1) % WRAP

    def take(self, segment):
        """The bytes that this segment adds at the end of what is in order."""
        if self.next is None:
            self.next = segment.seq
        self.lost = self.lost or self.gap is not None and segment.time > self.gap[0] + self.PATIENCE
        if self.lost:
            self.missed += len(segment.payload)
            return b""
        if distance(segment.seq, self.next) > 0:
            self.gap = self.gap or (segment.time, segment.place)
            self.held.append(segment)
            self.missed += len(segment.payload)
            return b""
        return self.fresh(segment) + self.filled()

    def fresh(self, segment):
        """What a segment that isn't ahead has of new bytes."""
        data = segment.payload[-distance(segment.seq, self.next):]
        self.next = (self.next + len(data)) % WRAP
        return data

    def filled(self):
        """The bytes of the segments that were held back, as far as none is missing before them."""
        data = b""
        self.held.sort(key=lambda held: distance(held.seq, self.next))
        while self.held and distance(self.held[0].seq, self.next) <= 0:
            self.missed -= len(self.held[0].payload)
            data += self.fresh(self.held.pop(0))
        self.gap = min(((held.time, held.place) for held in self.held), default=None)
        return data


def distance(seq, other):
    """How far a number of a stream is ahead of another."""
    return (seq - other + WRAP // 2) % WRAP - WRAP // 2
