#!/usr/bin/env python3
"""The lines of `state` and `state full` (docs/REPLAY.md) beside savepoints: equal exactly where the states are.

states.py PROGRAM SEED COUNT   so many clients, with neighbours of each that differ in one part of the state alone
"""
import copy
import itertools
import random
import subprocess
import sys

import script
import second

LETTERS = "nNrRbB"     # by the byte of a request in a savepoint


# ---- the lines of a state, written from the page

def digest(data):
    """64-bit FNV-1a."""
    now = 0xcbf29ce484222325
    for byte in data:
        now = (now ^ byte) * 0x100000001b3 % 2**64
    return f" {now:016x}" if data else ""


def digits(data):
    return f" {data.hex()}" if data else ""


def before(state):
    """What stands before the bar."""
    def records(name):
        return "".join(f" {record['number']}:{len(record['packet'])}" for record in state[name])

    written, expected, read = state["numbers"].values()
    letters = [LETTERS[second.write_request(request)[0]] for request in state["outstanding"]]
    first = f" {written + 1 - len(letters)}" if letters else ""
    runs = "".join(f" {len(list(run))}{letter}" for letter, run in itertools.groupby(letters))
    return (f"state written {written} expected {expected} read {read} out{first}{runs}"
            f" events{records('events')} replies{records('replies')} waiting used {second.used(state)}")


def behind(state, full):
    order, k, s, reader, p = state["rooms"].values()
    records = [second.write_record(record, second.EVENT) for record in state["events"]]
    records += [second.write_record(record, second.REPLY) for record in state["replies"]]
    held = "".join(digits(record[16:]) for record in records) if full else digest(b"".join(records))
    filled = state["filled"]
    return (f" |{' full' if full else ''} order {chr(order)} rooms {k} {s} held{held}"
            f" reader {chr(reader)} {p} {len(filled)}{(digits if full else digest)(filled)}"
            f" ids {' '.join(str(number) for number in state['ids'].values())} handshake l 262148 0")


# ---- neighbours: one part changed, by a step of chance

def other(chance, key, value):
    """Another value of one part."""
    if isinstance(value, bytes):
        at = chance.randrange(len(value))
        return value[:at] + bytes((value[at] ^ 1 << chance.randrange(8),)) + value[at + 1:]
    if "order" in key:
        return sum(second.ORDERS) - value
    if key == "mode":
        return chance.choice(second.MODES)
    if key == "descriptors":
        return not value
    return value * 2 if key == "step" else value + chance.choice((-1, 1))


def one(name, key):
    """A value of a table, or of an item of a list."""
    def change(chance, state):
        table = state[name] if isinstance(state[name], dict) else chance.choice(state[name])
        table[key] = other(chance, key, table[key])
    return change


def fewer(name):
    def change(chance, state):
        state[name] = state[name][:-1]
    return change


def swapped(name):
    def change(chance, state):
        state[name][:2] = state[name][1::-1]
    return change


def cut(name):
    """The bytes of two packets, with the cut between them at another place."""
    def change(chance, state):
        a, b = state[name]
        whole = a["packet"] + b["packet"]
        at = len(b["packet"]) if len(a["packet"]) != len(b["packet"]) else len(a["packet"]) - 1
        a["packet"], b["packet"] = whole[:at], whole[at:]
    return change


def moved(chance, state):
    state["events"].append(state["replies"].pop())


def byte_of_filled(chance, state):
    state["filled"] = other(chance, "filled", state["filled"])


TABLES = (("numbers", second.NUMBERS), ("rooms", second.ROOMS), ("ids", second.IDS), ("outstanding", ("mode", "descriptors")),
          ("replies", ("number", "packet")), ("events", ("number", "packet")))
PARTS = {f"{name}: {key}": one(name, key) for name, keys in TABLES for key in keys}
PARTS |= {f"{name}: one fewer": fewer(name) for name in ("outstanding", "replies", "events", "filled")}
PARTS |= {f"{name}: swapped": swapped(name) for name in ("outstanding", "replies", "events")}
PARTS |= {f"{name}: cut otherwise": cut(name) for name in ("replies", "events")}
PARTS |= {"an event for a reply": moved, "a byte of the partial packet": byte_of_filled}


def neighbour(chance, state, part):
    """A sound one, or None."""
    next_to = copy.deepcopy(state)
    try:
        PARTS[part](chance, next_to)
        data = second.write(next_to)
    except (IndexError, ValueError, OverflowError):
        return None
    return next_to if second.parse(data) and next_to["rooms"]["S"] <= script.STORE and data != second.write(state) else None


def clients(chance, count):
    """Sound clients, each with its neighbours; and how many neighbours each part gave."""
    states, found = [], dict.fromkeys(PARTS, 0)
    while count:
        state = script.client(chance)
        if second.parse(second.write(state)) is None or state["rooms"]["S"] > script.STORE:
            continue
        count -= 1
        near = {part: neighbour(chance, state, part) for part in PARTS}
        states += [state] + [next_to for next_to in near.values() if next_to]
        found = {part: found[part] + (near[part] is not None) for part in PARTS}
    return states, found


def large(chance, state):
    """One whose line is longer than what `replay` gathers before it writes."""
    next_to = copy.deepcopy(state)
    next_to["rooms"]["S"] = script.STORE
    next_to["events"] = [{"number": 0, "packet": chance.randbytes(65536)} for _ in range(11)]
    return next_to


# ---- what savepoints leave out: lines from a fresh connection that lead to different states, each row of one part

REPLY = "intake 01{:02x}{:02x}00" + "00" * 28
HELD = ["send fds", "send fds", "fds 7 8 9"]
LEFT_OUT = {
    "waiting": (["fds 7"], ["fds 8"], ["fds 7 8"], ["fds 8 7"]),
    "held descriptors": (HELD + [REPLY.format(1, 1), REPLY.format(2, 2)], HELD + [REPLY.format(2, 1), REPLY.format(1, 2)],
                         HELD + [REPLY.format(1, 1), REPLY.format(1, 2)], ["fds 9"] + HELD + [REPLY.format(1, 1), REPLY.format(2, 2)]),
    "no ids": ([], ["ids 0 1"], ["ids 1 1"]),
    "handshake": ([], ["new 9 480 B", "hello", "new"], ["hfill 00", "hadvance 1"], ["hfill 01", "hadvance 1"],
                  ["hfill 0000", "hadvance 2"], ["hfill 0001", "hadvance 2"], ["hfill 0100000000000000", "hadvance 8"]),
}
EVENT = "intake 0200{:02x}00" + "00" * 28
# One state by several ways: replies among the events otherwise, records at other places, bytes of old packets behind them.
SAME = (["ids 1 1", "send reply", REPLY.format(0, 1), EVENT.format(1)], ["send reply", EVENT.format(1), REPLY.format(0, 1), "ids 1 1"],
        ["ids 1 1", "send reply", EVENT.format(0), "feed " + "ff" * 40, "reader", EVENT.format(1), "poll_event", REPLY.format(0, 1)])


def answers(program, lines):
    run = subprocess.run([program], input="".join(line + "\n" for line in lines), capture_output=True, text=True, check=True)
    return run.stdout.splitlines()[:-1]


def told(program, lines):
    """The two lines of `state` that some lines lead to."""
    return answers(program, lines + ["state", "state full"])[-2:]


def main(program, seed, count):
    chance = random.Random(seed)
    states, found = clients(chance, count)
    states.append(large(chance, states[0]))
    assert min(found.values()) >= 5, f"a part was hardly changed: {found}"
    saves = [f"save {second.write(state).hex()}" for state in states]
    lines = [line for save in saves for line in (save.replace("save", "restore"), "save", "state", "state full")]
    given = answers(program, lines)
    assert len(given) == len(lines), f"{len(given)} answers to {len(lines)} lines"
    for at, (state, save) in enumerate(zip(states, saves)):
        wanted = ["restore ok", save] + [before(state) + behind(state, full) for full in (False, True)]
        for line, want in zip(given[4 * at:4 * at + 4], wanted):
            assert line == want, f"client {at}:\n{line}\nfor\n{want}"
    for which in (2, 3):
        pairs = set(zip(given[1::4], given[which::4]))
        assert len(pairs) == len(set(given[1::4])) == len(set(given[which::4])), "lines are equal elsewhere than savepoints"
    for part, ways in LEFT_OUT.items():
        for which in (0, 1):
            shown = [told(program, way)[which] for way in ways]
            assert len(set(shown)) == len(ways), f"two states print one line: {part}:\n" + "\n".join(shown)
    assert len({tuple(answers(program, way + ["save", "state", "state full"])[-3:]) for way in SAME}) == 1, "one state has two lines"
    print(f"states: {len(set(saves))} clients, {sum(found.values())} of them changed in one of {len(PARTS)} parts, have lines that differ;"
          f" so have {sum(len(ways) for ways in LEFT_OUT.values())} states of what savepoints leave out")


if __name__ == "__main__":
    if len(sys.argv) != 4:
        sys.exit(__doc__)
    main(sys.argv[1], int(sys.argv[2]), int(sys.argv[3]))
