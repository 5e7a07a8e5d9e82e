#!/usr/bin/env python3
"""Vectors for `drip.c`: cases of handshakes and readers, and the answers to them.

  vectors.py FOLDER      writes FOLDER/drip.bin and FOLDER/drip.out

The answers are this file's own reading of Core (Connection Setup, and the lengths of replies,
events and errors), written without the engine; the tests hold the program to them.
"""
import struct
import sys

SUCCESS = "HHHIIIIHHBBBBBBBBxxxx"
ORDERS, NO_ORDERS = (b"l", b"B"), (b"\0", b"L", b"b")


def mark(order):
    return ">" if order == b"B" else "<"


def number(order, width, data, at):
    return struct.unpack_from(mark(order) + width, data, at)[0]


# ---- handshakes


def padded(text):
    return text + bytes(-len(text) % 4)


def success(order, vendor, rest):
    fields = (0x12345678, 0x00400000, 0x001FFFFF, 256, len(vendor), 65535, 1, 2, 0, 1, 32, 8, 9, 254)
    behind = padded(vendor) + rest
    head = struct.pack(mark(order) + "BxHHH", 1, 11, 0, 8 + len(behind) // 4)
    return head + struct.pack(mark(order) + SUCCESS[3:], *fields) + behind


def failed(order, length, reason):
    return struct.pack(mark(order) + "BBHHH", 0, length, 11, 0, len(reason) // 4) + reason


def authenticate(order, reason):
    return struct.pack(mark(order) + "B5xH", 2, len(reason) // 4) + reason


def shortened(order, reply, length):
    """The reply cut to length bytes, which its length field owns up to."""
    return reply[:6] + struct.pack(mark(order) + "H", (length - 8) // 4) + reply[8:length]


def setup_sign(order, reply):
    """What a whole reply is: its sign and what is said of it."""
    if reply[0] == 0:
        end = 8 + reply[1]
        words = [number(order, "H", reply, at) for at in (2, 4, 6)]
        return ("F", words, reply[8:end]) if end <= len(reply) else ("x", [], b"")
    if reply[0] == 2:
        return "A", [number(order, "H", reply, 6)], reply[8:]
    if reply[0] == 1 and len(reply) >= 40:
        words = list(struct.unpack_from(mark(order) + SUCCESS, reply, 2))
        end = 40 + words[7]
        return ("S", words, reply[40:end]) if end <= len(reply) else ("x", [], b"")
    return "x", [], b""


def handshake(order, room, data):
    """The line that answers a handshake's case."""
    if not 8 <= room <= 262148:
        return "handshake  refused 9"
    if order not in (b"l", b"B"):
        return "handshake  refused 13"
    signs, target = "-", 8
    for count in range(1, len(data) + 1):
        if count > target:
            return "handshake " + signs + " refused 7"
        if count == 8:
            target = 8 + 4 * number(order, "H", data, 6)
        if target > room:
            return "handshake " + signs + " refused 2"
        signs += "-" if count < target else setup_sign(order, data)[0]
    if len(data) < target:
        return "handshake " + signs + " refused 15"
    sign, words, text = setup_sign(order, data)
    if sign == "x":
        return "handshake " + signs + " refused 14"
    return "handshake " + " ".join([signs] + [str(w) for w in words] + [text.hex()])


def whole(order):
    """A success, of which others are made."""
    return success(order, b"vendor", b"formats.")


def successes(order):
    """Successes, whole and with a length that leaves out what is behind it."""
    yield success(order, b"The X.Org Foundation", bytes(range(16)))
    yield success(order, b"seven c", b"")
    yield success(order, b"", b"")
    for length in range(8, len(whole(order)) + 1, 4):
        yield shortened(order, whole(order), length)


def failures(order):
    """Failures, whose reason ends before the reply does, with it, or passes its end; and further authentication."""
    for length in range(7):
        yield failed(order, length, b"why?")
    yield failed(order, 0, b"")
    yield failed(order, 1, b"")
    yield authenticate(order, b"")
    yield authenticate(order, b"more, please")


def strange(order):
    """Replies with a status that none has."""
    for status in (3, 128, 255):
        yield bytes([status]) + whole(order)[1:]


def recorded(order):
    """Replies of a real server."""
    for name in ("", "-failed"):
        yield open("tests/setups/%s%s.setup" % (order.decode(), name), "rb").read()


def cut(order):
    """A success up to every length."""
    reply = whole(order)
    yield from (reply[:count] for count in range(len(reply)))


def replies(order):
    """The replies of a byte order, in a room that is large enough."""
    for kind in (successes, failures, strange, recorded, cut):
        yield from ((order, 65536, reply) for reply in kind(order))


def tight(order):
    """Rooms around what a reply needs, and a byte too many."""
    reply = whole(order)
    for room in (0, 7, 8, len(reply) - 1, len(reply)):
        yield order, room, reply
    yield order, 8, failed(order, 0, b"")
    yield order, 65536, reply + b"\0"


def handshakes():
    for order in ORDERS:
        yield from replies(order)
        yield from tight(order)
    yield from ((order, 64, whole(b"B")) for order in NO_ORDERS)
    yield b"L", 7, whole(b"B")


# ---- readers


def total(order, head):
    """The length of the packet that begins with these eight bytes."""
    extra = head[0] == 1 or head[0] & 0x7F == 35
    return 32 + (4 * number(order, "I", head, 4) if extra else 0)


def class_of(code):
    """The word of what a packet is that begins with this byte."""
    if code < 2:
        return ("error", "reply")[code]
    return ("sent-" if code > 127 else "") + ("generic" if code in (35, 163) else "event")


def reader(order, room, data):
    """The line that answers a reader's case."""
    if not 32 <= room <= 65536:
        return "reader refused 9"
    if order not in (b"l", b"B"):
        return "reader refused 13"
    line, packet = "reader", b""
    for byte in data:
        packet += bytes([byte])
        target = 32 if len(packet) < 32 else total(order, packet)
        if target > room:
            return line + " refused 2"
        if len(packet) < target:
            line += " %d" % (target - len(packet))
        else:
            line, packet = line + " packet %s " % class_of(packet[0]) + packet.hex(), b""
    return line


def packet(order, code, field, more=0):
    head = struct.pack(mark(order) + "BBHI", code, 7, 258, field)
    return head + bytes(range(24)) + bytes((3 * i) % 256 for i in range(more))


# Code, field of the length and bytes behind the 32: of packets that have more bytes, and of others.
KINDS = ((1, 0, 0), (1, 1, 4), (35, 2, 8), (163, 2, 8), (129, 5, 0), (0, 9, 0), (2, 1 << 31, 0))


def run(order):
    """A packet of each kind."""
    return b"".join(packet(order, *kind) for kind in KINDS)


def rooms(order):
    """The run in a large room, in one that is just enough, and in others."""
    for room in (65536, 40, 0, 31, 32, 35, 36, 39):
        yield order, room, run(order)


def starts(order):
    """The run's first packet up to every length."""
    for count in range(33):
        yield order, 64, run(order)[:count]


def longest(order):
    """Replies around 65,536 bytes and beyond."""
    for field in (16376, 16377, 1 << 30, (1 << 32) - 1):
        yield order, 65536, packet(order, 1, field)


def codes(order):
    """Packets of 32 bytes with every first byte."""
    yield order, 32, b"".join(packet(order, code, 0) for code in range(256))


def readers():
    for order in ORDERS:
        yield from rooms(order)
        yield from starts(order)
        yield from longest(order)
        yield from codes(order)
    yield from ((order, 64, run(b"B")) for order in NO_ORDERS)
    yield b"L", 31, run(b"B")
    yield b"l", 65536, open("tests/streams/xeyes.bin", "rb").read()


def main(folder):
    with open(folder + "/drip.bin", "wb") as cases, open(folder + "/drip.out", "w") as answers:
        for kind, answer, listed in ((b"h", handshake, handshakes), (b"r", reader, readers)):
            for order, room, data in listed():
                cases.write(kind + order + struct.pack("<II", room, len(data)) + data)
                answers.write(answer(order, room, data) + "\n")


if __name__ == "__main__":
    if len(sys.argv) != 2:
        sys.exit(__doc__)
    main(sys.argv[1])
