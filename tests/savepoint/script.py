#!/usr/bin/env python3
"""A script of `replay` (docs/REPLAY.md) with savepoints, and its answers by the second reading.

script.py SEED COUNT NAME   writes NAME.txt and NAME.out: so many clients, each restored, saved, and restored from damaged copies
"""
import random
import sys

import second

STORE = 4194304     # the longest packet store that `replay` has
DAMAGES = 4


def packet(chance, size):
    return bytes(chance.randrange(256) for _ in range(size))


def records(chance, numbers):
    return [{"number": number, "packet": packet(chance, chance.choice((32, 32, 33, 36, 64)))} for number in numbers]


def number(chance, most):
    return chance.choice((0, most, chance.randrange(most + 1)))


def filled(chance, order, room):
    """Some bytes of a packet that mostly fits its buffer."""
    data = bytearray(packet(chance, chance.choice((0, 1, 5, 31, 32, 33, 40, 63))))
    if data:
        data[0] = chance.choice((0, 1, 1, 2, 35, 163))
    units = chance.choice((1, 2, 8, 9, (room - 32) // 4, (room - 28) // 4))
    if len(data) >= 8:
        data[4:8] = units.to_bytes(4, "little" if order == ord("l") else "big")
    return bytes(data)


def client(chance):
    """A state, mostly a sound one, with each value at an edge or anywhere."""
    most = second.LAST_NUMBER
    written, read = (chance.choice((0, 1, 2, 70000, most, number(chance, most))) for _ in range(2))
    requests = chance.choice((1, 2, 3, 5, 8, 16, 65536))
    order, room = chance.choice(second.ORDERS), chance.choice((32, 33, 36, 48, 64, 100, 65536))
    lengths = (chance.choice(second.ORDERS), requests, chance.choice((48, 96, 200, 500, 4096, STORE, STORE + 1)), order, room)
    count = min(requests, written, chance.choice((0, 1, 2, 3, 9)))
    last, step = chance.choice((0, 5, 2**21, 2**32 - 1)), 1 << chance.choice((0, 1, 5, 31, 32))
    return {
        "numbers": dict(zip(second.NUMBERS, (written, number(chance, most), read))),
        "rooms": dict(zip(second.ROOMS, lengths)),
        "outstanding": [{"mode": chance.choice(second.MODES), "descriptors": chance.random() < 0.5} for _ in range(count)],
        "replies": records(chance, sorted(number(chance, read) for _ in range(chance.randrange(3)))),
        "events": records(chance, (number(chance, read) for _ in range(chance.randrange(3)))),
        "filled": filled(chance, order, room),
        "ids": dict(zip(second.IDS, (chance.choice((0, last, last + step, last + step + 1)), last, step))),
    }


def damaged(chance, data):
    """One fault: cut, longer, a byte in, out or changed, or a count or a length near an edge."""
    data, at = bytearray(data), chance.randrange(len(data))
    fields = [0, 4, 12, 20, 28, 32, 40, 48, 56, 64, 72] + [len(data) - back for back in (28, 24, 16, 8)]
    match chance.randrange(8):
        case 0: del data[at:]
        case 1: data += packet(chance, chance.randrange(1, 9))
        case 2: del data[at]
        case 3: data.insert(at, chance.randrange(256))
        case 4: data[at] ^= 1 << chance.randrange(8)
        case 5: data[at] = (data[at] + 1) % 256
        case 6: data[at] = (data[at] - 1) % 256
        case _: data[chance.choice(fields)] = chance.choice((0, 1, 2, 3, 4, 5, 6, 255))
    return bytes(data)


def main(seed, count, name):
    chance, lines, answers, now = random.Random(seed), [], [], None
    for _ in range(count):
        data = second.write(client(chance))
        while second.parse(data) is None and chance.random() < 0.9:
            data = second.write(client(chance))
        for file in [data] + [damaged(chance, data) for _ in range(DAMAGES)]:
            state = second.parse(file)
            refusal = 19 if state is None else 9 if state["rooms"]["S"] > STORE else 0
            lines.append(f"restore {file.hex()}")
            answers.append(f"restore refused {refusal}" if refusal else "restore ok")
            now = now if refusal else file
            if now is not None:
                lines.append("save")
                answers.append(f"save {now.hex()}")
    with open(f"{name}.txt", "w", encoding="ascii") as script, open(f"{name}.out", "w", encoding="ascii") as out:
        script.write("".join(line + "\n" for line in lines))
        out.write("".join(line + "\n" for line in answers + [f"end {len(lines)} {len(lines)}"]))


if __name__ == "__main__":
    if len(sys.argv) != 4:
        sys.exit(__doc__)
    main(int(sys.argv[1]), int(sys.argv[2]), sys.argv[3])
