#!/usr/bin/env python3
"""A second reading of savepoints, written from docs/SAVEPOINT.md alone.

second.py check FILE ..     each file is read, and written again as the same bytes
second.py page PAGE         the worked file of the page: its values, every cut of it, and each of its bytes changed
"""
import sys

LAST_NUMBER = 2**63 - 1
REPLY, EVENT = 0, 1
NUMBERS = ("last written", "next reply expected", "last read")
ROOMS = ("order", "K", "S", "reader's order", "P")
IDS = ("next", "last", "step")
ORDERS = (ord("l"), ord("B"))
MODES = ("keep", "DiscardReply", "DiscardReplyAndError")


class Bad(Exception):
    """The bytes are no savepoint."""


def need(fact):
    if not fact:
        raise Bad


class File:
    """Bytes that are taken from the front."""

    def __init__(self, data):
        self.data, self.at = data, 0

    def take(self, size):
        need(size <= len(self.data) - self.at)
        self.at += size
        return self.data[self.at - size:self.at]

    def number(self, width):
        return int.from_bytes(self.take(width), "little")

    def numbers(self, names):
        need(self.number(4) == len(names))
        return {name: self.number(8) for name in names}


def put(number, width):
    return number.to_bytes(width, "little")


# ---- items

def read_request(file):
    code = file.number(1)
    need(code <= 5)
    return {"mode": MODES[code // 2], "descriptors": code % 2 == 1}


def write_request(request):
    return put(2 * MODES.index(request["mode"]) + request["descriptors"], 1)


def read_record(file, kind):
    number, size = file.number(8), file.number(4)
    need(file.take(4) == bytes((0, kind, 0, 0)))
    need(32 <= size <= 65536)
    return {"number": number, "packet": file.take(size)}


def write_record(record, kind):
    return put(record["number"], 8) + put(len(record["packet"]), 4) + bytes((0, kind, 0, 0)) + record["packet"]


# ---- the whole

def target(order, filled):
    """How many bytes the packet has that begins so."""
    if len(filled) < 32 or (filled[0] != 1 and filled[0] % 128 != 35):
        return 32
    return 32 + 4 * int.from_bytes(filled[4:8], "little" if order == ord("l") else "big")


def used(state):
    return sum(16 + len(record["packet"]) for record in state["replies"] + state["events"])


def sound(state):
    """The refusals of the page, once the sections are read."""
    rooms, numbers, ids, filled = state["rooms"], state["numbers"], state["ids"], state["filled"]
    replies = [record["number"] for record in state["replies"]]
    aim = target(rooms["reader's order"], filled)
    need(rooms["order"] in ORDERS and rooms["reader's order"] in ORDERS)
    need(1 <= rooms["K"] <= 65536 and 48 <= rooms["S"] <= 16777216 and 32 <= rooms["P"] <= 65536)
    need(all(number <= LAST_NUMBER for number in numbers.values()))
    need(len(state["outstanding"]) <= min(numbers["last written"], rooms["K"]))
    need(all(record["number"] <= numbers["last read"] for record in state["replies"] + state["events"]))
    need(replies == sorted(replies))
    need(used(state) <= rooms["S"])
    need(len(filled) < aim <= rooms["P"])
    need(ids["step"] in (1 << power for power in range(32)))
    need(ids["last"] < 2**32 and ids["next"] <= ids["last"] + ids["step"])


def parse(data):
    """The state that the bytes are the savepoint of, or None."""
    try:
        file = File(data)
        state = {
            "numbers": file.numbers(NUMBERS),
            "rooms": file.numbers(ROOMS),
            "outstanding": [read_request(file) for _ in range(file.number(4))],
            "replies": [read_record(file, REPLY) for _ in range(file.number(4))],
            "events": [read_record(file, EVENT) for _ in range(file.number(4))],
            "filled": file.take(file.number(4)),
            "ids": file.numbers(IDS),
        }
        need(file.at == len(data))
        sound(state)
        return state
    except Bad:
        return None


def section(items):
    return put(len(items), 4) + b"".join(items)


def write(state):
    """The savepoint of a state."""
    def numbers(name):
        return section([put(number, 8) for number in state[name].values()])

    return b"".join((
        numbers("numbers"),
        numbers("rooms"),
        section([write_request(request) for request in state["outstanding"]]),
        section([write_record(record, REPLY) for record in state["replies"]]),
        section([write_record(record, EVENT) for record in state["events"]]),
        put(len(state["filled"]), 4) + state["filled"],
        numbers("ids"),
    ))


# ---- the page

def worked(page):
    """The worked file of the page and what is written beside its bytes: (offset, bytes, name, value)."""
    block = page.split("```savepoint\n", 1)[1].split("```", 1)[0]
    data, said = b"", []
    for line in block.splitlines():
        offset, rest = line.split(None, 1)
        digits, _, text = rest.partition("  ")
        name, _, value = text.strip().partition(": ")
        assert int(offset) == len(data), f"the offset of: {line}"
        said.append((int(offset), bytes.fromhex(digits), name, value))
        data += bytes.fromhex(digits)
    return data, said


def shown(state):
    """The values of a state, in the file's order and in the words of the page."""
    rows = [("numbers", "3")] + [(name, f"{number:,}") for name, number in state["numbers"].items()]
    rows += [("orders and lengths", "5")]
    rows += [(name, chr(number) if "order" in name else f"{number:,}") for name, number in state["rooms"].items()]
    first = state["numbers"]["last written"] + 1 - len(state["outstanding"])
    rows += [("outstanding requests", str(len(state["outstanding"])))]
    for number, request in enumerate(state["outstanding"], first):
        rows.append((f"request {number:,}", request["mode"] + (", descriptors" if request["descriptors"] else "")))
    for name in ("replies", "events"):
        rows.append((name, str(len(state[name]))))
        for record in state[name]:
            rows += [("number", f"{record['number']:,}"), ("packet length", str(len(record["packet"])))]
            rows.append(("descriptors, kind, zeros", f"0, {'reply' if name == 'replies' else 'event'}"))
    rows.append(("partial packet", str(len(state["filled"]))))
    rows += [("ids", "3")] + [(name, f"{number:,}") for name, number in state["ids"].items()]
    return rows


def page(name):
    data, said = worked(open(name, encoding="utf-8").read())
    state = parse(data)
    assert state is not None, "the worked file is no savepoint"
    assert write(state) == data, "it is written as other bytes"
    named = [(key, value) for _, _, key, value in said if value]
    assert named == shown(state), f"the page says otherwise: {[pair for pair in zip(named, shown(state)) if pair[0] != pair[1]]}"
    for size in range(len(data)):
        assert parse(data[:size]) is None, f"cut to {size} bytes it is read"
    assert parse(data + b"\0") is None, "with a byte behind it it is read"
    kept = 0
    for at in range(len(data)):
        for value in sorted({0, 1, 2, 5, 6, 127, 128, 255, data[at] ^ 1, (data[at] + 1) % 256, (data[at] - 1) % 256} - {data[at]}):
            other = data[:at] + bytes((value,)) + data[at + 1:]
            found = parse(other)
            assert found is None or write(found) == other, f"byte {at} as {value}: it is written as other bytes"
            kept += found is not None
    print(f"savepoint: the page's worked file of {len(data)} bytes is read as the page says; "
          f"{kept} of its changed copies are savepoints too, and are written as they were")


def check(names):
    for name in names:
        data = open(name, "rb").read()
        state = parse(data)
        assert state is not None, f"{name} is no savepoint"
        assert write(state) == data, f"{name} is written as other bytes"
        print(f"{name}: {len(data)} bytes, {len(state['outstanding'])} requests, {len(state['replies'])} replies, "
              f"{len(state['events'])} events, {len(state['filled'])} bytes of a packet")
    print(f"savepoint: {len(names)} files are savepoints to the second reading too, which writes them alike")


if __name__ == "__main__":
    if len(sys.argv) == 3 and sys.argv[1] == "page":
        page(sys.argv[2])
    elif len(sys.argv) > 2 and sys.argv[1] == "check":
        check(sys.argv[2:])
    else:
        sys.exit(__doc__)
