#!/usr/bin/env python3
"""By hand: single edits of sound.c and saved.c, each of which the fuzz test must see, since the library then answers otherwise.

edits.py [COUNT]    so many calls with seed 1 for each edit; needs the static library
"""
import pathlib
import re
import subprocess
import sys

ROOT = pathlib.Path(__file__).resolve().parents[2]
HERE, WORK = ROOT / "tests/fuzz", ROOT / "target/fuzz/edits"
NAMES = sorted(p.stem for p in HERE.glob("*.c") if p.stem not in ("broken", "libfuzzer"))

SOUND = [
    ('c->state_len == SLOTS && ', 'c->state_len >= SLOTS && '),
    ('within(c->requests_len, 1, 65536)', 'within(c->requests_len, 1, 65535)'),
    ('within(c->requests_len, 1, 65536)', 'within(c->requests_len, 1, 65537)'),
    ('within(c->requests_len, 1, 65536)', 'within(c->requests_len, 2, 65536)'),
    ('within(c->store_len, 48, 16777216)', 'within(c->store_len, 49, 16777216)'),
    ('within(c->store_len, 48, 16777216)', 'within(c->store_len, 47, 16777216)'),
    ('within(c->store_len, 48, 16777216)', 'within(c->store_len, 48, 16777217)'),
    ('within(c->store_len, 48, 16777216)', 'within(c->store_len, 48, 16777215)'),
    ('c->slots_len == DESCRIPTORS', 'c->slots_len >= DESCRIPTORS'),
    ('c->slots_len == DESCRIPTORS', 'c->slots_len <= DESCRIPTORS'),
    ('for (int i = UNUSED;', 'for (int i = UNUSED + 1;'),
    ('i < SLOTS; i++', 'i < SLOTS - 1; i++'),
    ('c->requests_len == c->state[K] &&', 'c->requests_len >= c->state[K] &&'),
    ('c->requests_len == c->state[K] &&', 'c->requests_len <= c->state[K] &&'),
    ('c->store_len == c->state[S]', 'c->store_len >= c->state[S]'),
    ('c->store_len == c->state[S]', 'c->store_len <= c->state[S]'),
    ("return n == 'l' || n == 'B';", "return n == 'l';"),
    ("return n == 'l' || n == 'B';", "return n == 'l' || n == 'B' || n == 'b';"),
    ("return n == 'l' || n == 'B';", "return (uint8_t)n == 'l' || n == 'B';"),
    ('s[WRITTEN] <= most_number &&', 's[WRITTEN] <= most_number + 1 &&'),
    ('s[EXPECTED] <= most_number &&', 's[EXPECTED] <= most_number + 1 &&'),
    ('s[LAST_READ] <= most_number;', 's[LAST_READ] <= most_number + 1;'),
    ('s[WRITTEN] <= most_number &&', 's[WRITTEN] < most_number &&'),
    ('s[EXPECTED] <= most_number &&', 's[EXPECTED] < most_number &&'),
    ('s[LAST_READ] <= most_number;', 's[LAST_READ] < most_number;'),
    ('within(first, 1, written + 1)', 'within(first, 0, written + 1)'),
    ('within(first, 1, written + 1)', 'within(first, 2, written + 1)'),
    ('within(first, 1, written + 1)', 'within(first, 1, written)'),
    ('written + 1 - first > c->state[K]', 'written - first > c->state[K]'),
    ('written + 1 - first > c->state[K]', 'written + 1 - first >= c->state[K]'),
    ('n = first; n <= written', 'n = first; n < written'),
    ('n = first; n <= written', 'n = first + 1; n <= written'),
    ('n % c->state[K]] > 5', 'n % c->state[K]] > 6'),
    ('n % c->state[K]] > 5', 'n % c->state[K]] > 4'),
    ('n % c->state[K]] > 5', '(n + 1) % c->state[K]] > 5'),
    ('end > store_len ||', 'end > store_len + 1 ||'),
    ('end - at < HEADER)', 'end - at < HEADER + 33)'),
    ('within(length, LEAST_PACKET,', 'within(length, LEAST_PACKET - 1,'),
    ('within(length, LEAST_PACKET,', 'within(length, LEAST_PACKET + 1,'),
    ('LEAST_PACKET, MOST_PACKET)', 'LEAST_PACKET, MOST_PACKET + 1)'),
    ('LEAST_PACKET, MOST_PACKET)', 'LEAST_PACKET, MOST_PACKET - 1)'),
    ('end - at - HEADER < length', 'end - at - HEADER + 1 < length'),
    ('end - at - HEADER < length', 'end - at - HEADER <= length'),
    ('head[13] > 1 ||', 'head[13] > 2 ||'),
    ('head[13] == 1 && head[12] != 0', 'head[13] == 1 && head[12] > 1'),
    ('head[13] == 1 && head[12] != 0', 'head[13] == 0 && head[12] != 0'),
    ('head[14] == 0 && head[15] == 0', 'head[15] == 0'),
    ('head[14] == 0 && head[15] == 0', 'head[14] == 0'),
    ('if (end > c->store_len || at > end) return false;', 'if (end > c->store_len) return false;'),
    ('number > c->state[LAST_READ]', 'number > c->state[LAST_READ] + 1'),
    ('number > c->state[LAST_READ]', 'number >= c->state[LAST_READ]'),
    ('head[13] == 0 && number < last', 'head[13] == 0 && number + 1 < last'),
    ('head[13] == 0 && number < last', 'head[13] == 0 && number <= last'),
    ('head[13] == 0 && number < last', 'number < last'),
    ('if (head[13] == 0) last = number;', 'last = number;'),
    ('held += head[12];', 'held += head[12] & 127;'),
    ('return held == c->state[HELD];', 'return held <= c->state[HELD];'),
    ('return held == c->state[HELD];', 'return held >= c->state[HELD];'),
    ('s[WAITING] <= DESCRIPTORS;', 's[WAITING] <= DESCRIPTORS + 1;'),
    ('s[WAITING] <= DESCRIPTORS;', 's[WAITING] < DESCRIPTORS;'),
    ("2, s[ORDER] == 'l'", "2, s[ORDER] == 'B'"),
    ('(packet[0] & 0x7f) != 11 &&', 'packet[0] != 11 &&'),
    ('(packet[0] & 0x7f) != 11 &&', '(packet[0] & 0x7f) != 12 &&'),
    ('number > s[WRITTEN] &&', 'number >= s[WRITTEN] &&'),
    ('number > s[WRITTEN] &&', 'number > s[WRITTEN] + 1 &&'),
    ('number > s[WRITTEN] && number <= most_number;', 'number > s[WRITTEN];'),
    ('number <= most_number;', 'number < most_number;'),
    ('code <= 1', 'code <= 3'),
    ('code <= 1', 'code < 1'),
    ('(code & 0x7f) == 35 ? 4', 'code == 35 ? 4'),
    ('(code & 0x7f) == 35 ? 4', '(code & 0x3f) == 35 ? 4'),
    ('(code & 0x7f) == 35 ? 4', '(code & 0x7f) == 36 ? 4'),
    ('code >= 128 ?', 'code > 128 ?'),
    ('code >= 128 ?', 'code >= 127 ?'),
    ('buf[0] != 1 &&', 'buf[0] != 2 &&'),
    ('(buf[0] & 0x7f) != 35', 'buf[0] != 35'),
    ('(buf[0] & 0x7f) != 35', '(buf[0] & 0x3f) != 35'),
    ('within(buf_len, 32, 65536)', 'within(buf_len, 33, 65536)'),
    ('within(buf_len, 32, 65536)', 'within(buf_len, 32, 65537)'),
    ('within(buf_len, 32, 65536)', 'within(buf_len, 32, 65535)'),
    ('row[1] >= row[2] ||', 'row[1] > row[2] ||'),
    ('if (row_len != 3 || !an_order(row[0]) || !within(buf_len, 32',
     'if (row_len < 3 || !an_order(row[0]) || !within(buf_len, 32'),
    ('row[2] > buf_len) return false;\n    return row[2] == (row[1] < 32',
     'row[2] > buf_len + 1) return false;\n    return row[2] == (row[1] < 32'),
    ('row[1] < 32 ? 32', 'row[1] <= 32 ? 32'),
    ('row[1] < 32 ? 32', 'row[1] < 31 ? 32'),
    ("packet_target(buf, row[0] == 'l')", "packet_target(buf, row[0] == 'B')"),
    ('within(buf_len, 8, 262148)', 'within(buf_len, 9, 262148)'),
    ('within(buf_len, 8, 262148)', 'within(buf_len, 8, 262149)'),
    ('within(buf_len, 8, 262148)', 'within(buf_len, 8, 262147)'),
    ('row[1] > row[2] ||', 'row[1] >= row[2] ||'),
    ('row[1] > row[2] ||', 'row[1] > row[2] + 1 ||'),
    ('row[1] < 8 ? 8 :', 'row[1] <= 8 ? 8 :'),
    ('row[1] < 8 ? 8 :', 'row[1] < 7 ? 8 :'),
    ("buf + 6, 2, row[0] == 'l'", "buf + 6, 2, row[0] == 'B'"),
    ('step != 0 &&', 'step >= 0 &&'),
    ('(step & (step - 1)) == 0', 'step > 0'),
    ('step <= UINT32_MAX &&', 'step <= UINT32_MAX + 1ull &&'),
    ('last <= UINT32_MAX &&', 'last <= UINT32_MAX + 1ull &&'),
    ('last <= UINT32_MAX &&', 'last < UINT32_MAX &&'),
    ('next <= last + step', 'next <= last + step + 1'),
    ('next <= last + step', 'next < last + step'),
    ('if (row_len != 3) return false;', 'if (row_len < 3) return false;'),
]


SAVED = [
    ('need(r, number(r, 4) == count);', 'need(r, number(r, 4) <= count);'),
    ('need(r, number(r, 4) == count);', 'need(r, number(r, 4) >= count);'),
    ('n == 108 || n == 66', 'n == 108'),
    ('n == 108 || n == 66', 'n == 108 || n == 66 || n == 98'),
    ('n == 108 || n == 66', '(uint8_t)n == 108 || n == 66'),
    ('n[0] <= last_number &&', 'n[0] <= last_number + 1 &&'),
    ('n[1] <= last_number &&', 'n[1] <= last_number + 1 &&'),
    ('n[2] <= last_number);', 'n[2] <= last_number + 1);'),
    ('n[0] <= last_number &&', 'n[0] < last_number &&'),
    ('n[1] <= last_number &&', 'n[1] < last_number &&'),
    ('n[2] <= last_number);', 'n[2] < last_number);'),
    ('an_order(l[0]) &&', ''),
    ('an_order(l[3]) &&', ''),
    ('within(l[1], 1, 65536)', 'within(l[1], 0, 65536)'),
    ('within(l[1], 1, 65536)', 'within(l[1], 2, 65536)'),
    ('within(l[1], 1, 65536)', 'within(l[1], 1, 65535)'),
    ('within(l[1], 1, 65536)', 'within(l[1], 1, 65537)'),
    ('within(l[2], 48, 16777216)', 'within(l[2], 47, 16777216)'),
    ('within(l[2], 48, 16777216)', 'within(l[2], 49, 16777216)'),
    ('within(l[2], 48, 16777216)', 'within(l[2], 48, 16777215)'),
    ('within(l[2], 48, 16777216)', 'within(l[2], 48, 16777217)'),
    ('within(l[4], 32, 65536)', 'within(l[4], 33, 65536)'),
    ('within(l[4], 32, 65536)', 'within(l[4], 32, 65535)'),
    ('within(l[4], 32, 65536)', 'within(l[4], 32, 65537)'),
    ('outstanding <= n[0] &&', 'outstanding <= n[0] + 1 &&'),
    ('outstanding <= n[0] &&', 'outstanding < n[0] &&'),
    ('outstanding <= l[1]);', 'outstanding <= l[1] + 1);'),
    ('outstanding <= l[1]);', 'outstanding < l[1]);'),
    ('requests[i] <= 5', 'requests[i] <= 6'),
    ('requests[i] <= 5', 'requests[i] <= 4'),
    ('i < outstanding; i++', 'i + 1 < outstanding; i++'),
    ('fixed[0] == 0 &&', 'fixed[0] <= 1 &&'),
    ('fixed[1] == kind &&', 'fixed[1] <= 1 &&'),
    ('fixed[2] == 0 &&', ''),
    ('&& fixed[3] == 0)', ')'),
    ('within(length, 32, 65536)', 'within(length, 31, 65536)'),
    ('within(length, 32, 65536)', 'within(length, 33, 65536)'),
    ('within(length, 32, 65536)', 'within(length, 32, 65535)'),
    ('within(length, 32, 65536)', 'within(length, 32, 65537)'),
    ('filed <= last_read', 'filed <= last_read + 1'),
    ('filed <= last_read', 'filed < last_read'),
    ('kind == 1 || before <= filed', 'before <= filed'),
    ('kind == 1 || before <= filed', 'kind == 1 || before <= filed + 1'),
    ('kind == 1 || before <= filed', 'kind == 1 || before < filed'),
    ('used <= l[2]', 'used <= l[2] + 1'),
    ('used <= l[2]', 'used < l[2]'),
    ('used += HEADER + length;', 'used += length;'),
    ('used += records(&r, 1, n[2]);', 'records(&r, 1, n[2]);'),
    ('size < 32 ||', 'size < 31 ||'),
    ('size < 32 ||', 'size <= 32 ||'),
    ('filled[0] != 1 &&', 'filled[0] != 2 &&'),
    ('filled[0] % 128 != 35', 'filled[0] != 35'),
    ('filled[0] % 128 != 35', 'filled[0] % 64 != 35'),
    ('order == 108);', 'order == 66);'),
    ('count < wanted(', 'count <= wanted('),
    ('l[3]) <= l[4]', 'l[3]) <= l[4] + 1'),
    ('l[3]) <= l[4]', 'l[3]) < l[4]'),
    ('step != 0 &&', ''),
    ('(step & (step - 1)) == 0', 'step > 0'),
    ('step <= most &&', 'step <= most + 1 &&'),
    ('last <= most &&', 'last <= most + 1 &&'),
    ('last <= most &&', 'last < most &&'),
    ('next <= last + step', 'next <= last + step + 1'),
    ('next <= last + step', 'next < last + step'),
    ('r.size == 0', 'r.size <= 1'),
]


def cc(*words):
    subprocess.run(["cc", "-std=c11", "-O2", "-w", f"-I{ROOT}/include", f"-I{HERE}", *map(str, words)], check=True)


def seen(name, text, count):
    """The call in which the fuzz test with this text for a file finds a fault, or None."""
    (WORK / f"{name}.c").write_text(text)
    others = [WORK / f"{other}.o" for other in NAMES if other != name]
    cc(WORK / f"{name}.c", *others, ROOT / "target/staticlib/libxiengmado.a", "-o", WORK / "fuzz")
    run = subprocess.run([WORK / "fuzz", "1", count], capture_output=True, text=True)
    fault = re.search(r"FAULT in call (\d+)", run.stdout)
    return fault and int(fault[1])


def missed(name, edits, count):
    text = (HERE / f"{name}.c").read_text()
    found, last = [("nothing", "nothing")] if seen(name, text, count) else [], (0, "")
    for old, new in edits:
        call = seen(name, text.replace(old, new, 1), count) if old in text else None
        last = max(last, (call or 0, f"{old} -> {new}"))
        if call is None:
            found.append((old, new))
    for old, new in found:
        print(f"edits: FAILED, {old} -> {new}")
    print(f"edits: {len(edits)} edits of {name}.c, {len(edits) - len(found)} seen, the last at call {last[0]:,}: {last[1]}", flush=True)
    return found


def main():
    count = sys.argv[1] if len(sys.argv) > 1 else "1500000"
    WORK.mkdir(parents=True, exist_ok=True)
    for name in NAMES:
        cc("-c", HERE / f"{name}.c", "-o", WORK / f"{name}.o")
    sys.exit(bool(missed("saved", SAVED, count) + missed("sound", SOUND, count)))


main()
