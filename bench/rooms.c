/* The moves of the rooms, timed beside plain C in one run (docs/BENCH.md; `make bench`).
 *
 * First both sides are given the same inputs, drawn at random, refusals among them, and every
 * answer and every lent byte is compared: where they differ the program says so and exits with 1.
 * Then each row is timed in alternating runs, and a Markdown table is written. */
#define _POSIX_C_SOURCE 199309L
#include <stdbool.h>
#include <stdint.h>
#include <stdio.h>
#include <stdlib.h>
#include <string.h>
#include <time.h>

/* ---- the proved side: a slice is a pointer and a length, a window two numbers */

extern bool bench_copy(uint8_t *dst, size_t dst_len, size_t at, const uint8_t *src, size_t src_len);
extern bool bench_slide(uint8_t *s, size_t len, size_t from, size_t to, size_t n);
extern bool bench_legal(const uint8_t *room, size_t len, uint64_t first, size_t count);
extern size_t bench_walk(const uint8_t *store, size_t len, size_t start, size_t end, uint64_t last);
extern bool bench_append(size_t *window, uint8_t *store, size_t len, uint64_t last,
                         const uint8_t *packet, size_t packet_len);
extern size_t bench_take(size_t *window, uint8_t *store, size_t len, uint64_t last, uint8_t *out,
                         size_t out_len);

/* ---- the plain side: the same tests, the same layout, memmove for every move of bytes */

#define APART __attribute__((noinline, noclone))
#define UNSOUND SIZE_MAX

enum { HEADER = 16, LEAST_PACKET = 32, MOST_PACKET = 65536, MOST_STORE = 16777216 };
enum { NUMBER = 0, LENGTH = 8, COUNT = 12, KIND = 13, ZERO = 14 };
enum { REPLY = 0, EVENT = 1, LAST_BYTE = 5 };

static uint64_t number_at(const uint8_t *record) {
    uint64_t x;
    memcpy(&x, record + NUMBER, sizeof x);
    return x;
}

static uint32_t length_at(const uint8_t *record) {
    uint32_t x;
    memcpy(&x, record + LENGTH, sizeof x);
    return x;
}

APART static bool plain_copy(uint8_t *dst, size_t dst_len, size_t at, const uint8_t *src,
                             size_t src_len) {
    if (dst_len < at || dst_len - at < src_len)
        return false;
    memmove(dst + at, src, src_len);
    return true;
}

APART static bool plain_slide(uint8_t *s, size_t len, size_t from, size_t to, size_t n) {
    if (len < n || len - n < from || len - n < to)
        return false;
    memmove(s + to, s + from, n);
    return true;
}

static bool plain_run(const uint8_t *room, size_t lo, size_t hi) {
    uint8_t most = 0;
    for (size_t i = lo; i < hi; i++)
        most = room[i] > most ? room[i] : most;
    return most <= LAST_BYTE;
}

APART static bool plain_legal(const uint8_t *room, size_t len, uint64_t first, size_t count) {
    if (len < 1 || len < count)
        return false;
    size_t start = first % len;
    if (count <= len - start)
        return plain_run(room, start, start + count);
    return plain_run(room, start, len) && plain_run(room, 0, count - (len - start));
}

static inline size_t walk(const uint8_t *store, size_t len, size_t start, size_t end,
                          uint64_t last) {
    if (MOST_STORE < len || len < end || end < start)
        return UNSOUND;
    uint64_t from = 0;
    size_t sum = 0;
    for (size_t at = start; at < end;) {
        const uint8_t *record = store + at;
        if (end - at < HEADER + LEAST_PACKET)
            return UNSOUND;
        size_t length = length_at(record);
        if (end - at - HEADER < length || length < LEAST_PACKET || MOST_PACKET < length)
            return UNSOUND;
        if (EVENT < record[KIND] || (record[KIND] == EVENT && record[COUNT] != 0))
            return UNSOUND;
        if (record[ZERO] != 0 || record[ZERO + 1] != 0)
            return UNSOUND;
        uint64_t number = number_at(record);
        if (last < number)
            return UNSOUND;
        if (record[KIND] == REPLY) {
            if (number < from)
                return UNSOUND;
            from = number;
        }
        sum += record[COUNT];
        at += HEADER + length;
    }
    return sum;
}

APART static size_t plain_walk(const uint8_t *store, size_t len, size_t start, size_t end,
                               uint64_t last) {
    return walk(store, len, start, end, last);
}

static void put_record(uint8_t *record, uint64_t number, uint8_t count, uint8_t kind,
                       const uint8_t *packet, size_t len) {
    uint32_t length = (uint32_t)len;
    memcpy(record + NUMBER, &number, sizeof number);
    memcpy(record + LENGTH, &length, sizeof length);
    record[COUNT] = count;
    record[KIND] = kind;
    record[ZERO] = record[ZERO + 1] = 0;
    memmove(record + HEADER, packet, len);
}

APART static bool plain_append(size_t *window, uint8_t *store, size_t len, uint64_t last,
                               const uint8_t *packet, size_t packet_len) {
    size_t start = window[0], end = window[1];
    if (walk(store, len, start, end, last) == UNSOUND)
        return false;
    if (packet_len < LEAST_PACKET || MOST_PACKET < packet_len)
        return false;
    if (len - (end - start) < HEADER + packet_len)
        return false;
    if (start == end || len - end < HEADER + packet_len) {
        memmove(store, store + start, end - start);
        end -= start;
        start = 0;
    }
    put_record(store + end, last, 0, EVENT, packet, packet_len);
    window[0] = start;
    window[1] = end + HEADER + packet_len;
    return true;
}

APART static size_t plain_take(size_t *window, uint8_t *store, size_t len, uint64_t last,
                               uint8_t *out, size_t out_len) {
    size_t start = window[0], end = window[1];
    if (walk(store, len, start, end, last) == UNSOUND)
        return 0;
    size_t at = start;
    while (at < end && store[at + KIND] != EVENT)
        at += HEADER + length_at(store + at);
    if (at >= end)
        return 0;
    size_t length = length_at(store + at), size = HEADER + length, next = at + size;
    if (out_len < length)
        return 0;
    memmove(out, store + at + HEADER, length);
    if (end - next < at - start) {
        memmove(store + at, store + next, end - next);
        window[1] = end - size;
    } else {
        memmove(store + start + size, store + start, at - start);
        window[0] = start + size;
    }
    return length;
}

/* ---- the same answers */

static uint64_t seed = 1;

/* a number below n (xorshift64*) */
static size_t below(size_t n) {
    seed ^= seed >> 12;
    seed ^= seed << 25;
    seed ^= seed >> 27;
    return (size_t)((seed * 2685821657736338717u) >> 33) % n;
}

static void same(bool yes, const char *what) {
    if (!yes) {
        fprintf(stderr, "rooms: the two sides differ: %s\n", what);
        exit(1);
    }
}

enum { AREA = 4096 };
static uint8_t one[AREA], two[AREA], from_one[AREA], from_two[AREA];

static void fill_both(void) {
    for (size_t i = 0; i < AREA; i++)
        one[i] = two[i] = (uint8_t)below(256);
}

static void same_moves(void) {
    for (int turn = 0; turn < 20000; turn++) {
        if (turn % 100 == 0)
            fill_both();
        size_t len = below(AREA + 1), a = below(len + 2), b = below(len + 2), n = below(len + 2);
        if (turn % 2 == 0)
            n = below(100);
        same(bench_slide(one, len, a, b, n) == plain_slide(two, len, a, b, n), "a slide's answer");
        same(memcmp(one, two, AREA) == 0, "a slide's bytes");
        n %= AREA;
        for (size_t i = 0; i < n; i++)
            from_one[i] = (uint8_t)below(256);
        same(bench_copy(one, len, a, from_one, n) == plain_copy(two, len, a, from_one, n),
             "a copy's answer");
        same(memcmp(one, two, AREA) == 0, "a copy's bytes");
    }
}

static void same_legality(void) {
    for (int turn = 0; turn < 20000; turn++) {
        size_t len = below(turn % 2 == 0 ? 40 : AREA);
        for (size_t i = 0; i < len; i++)
            one[i] = (uint8_t)below(6);
        if (len > 0 && below(2) == 0)
            one[below(len)] = (uint8_t)below(256);
        size_t count = below(len + 2);
        uint64_t first = below(1000000);
        same(bench_legal(one, len, first, count) == plain_legal(one, len, first, count),
             "legality");
    }
}

/* at most so many records of both kinds from 0 on, packets of 32 bytes to the longest; their end */
static size_t some_records(uint8_t *store, size_t len, size_t most, size_t longest, uint64_t *last) {
    static const uint8_t packet[MOST_PACKET];
    size_t end = 0;
    *last = 0;
    for (size_t k = 0; k < most; k++) {
        size_t length = LEAST_PACKET + 4 * below((longest - LEAST_PACKET) / 4 + 1);
        if (len - end < HEADER + length)
            break;
        bool reply = below(2) == 0;
        *last += below(3);
        put_record(store + end, *last, reply ? (uint8_t)below(4) : 0, reply ? REPLY : EVENT, packet,
                   length);
        end += HEADER + length;
    }
    return end;
}

static void same_walks(void) {
    for (int turn = 0; turn < 20000; turn++) {
        uint64_t last;
        size_t end = some_records(one, AREA, below(30), 100, &last), start = 0;
        if (below(2) == 0 && end > 0)
            one[below(end)] ^= (uint8_t)(1u << below(8));
        if (below(8) == 0)
            last = below(20);
        if (below(8) == 0)
            end = below(AREA + 2);
        if (below(8) == 0)
            start = below(AREA);
        same(bench_walk(one, AREA, start, end, last) == plain_walk(one, AREA, start, end, last),
             "a walk");
    }
}

static void same_store(void) {
    size_t mine[2] = {0, 0}, theirs[2] = {0, 0};
    uint64_t last = 1;
    uint8_t packet[200];
    memset(from_one, 0, AREA);
    memset(from_two, 0, AREA);
    fill_both();
    for (int turn = 0; turn < 200000; turn++) {
        if (turn % 1000 == 0) {
            mine[0] = theirs[0] = 0;
            mine[1] = theirs[1] = some_records(one, AREA, below(30), 100, &last);
            memcpy(two, one, AREA);
        }
        if (below(2) == 0) {
            size_t n = below(sizeof packet);
            for (size_t i = 0; i < n; i++)
                packet[i] = (uint8_t)below(256);
            last += below(2);
            same(bench_append(mine, one, AREA, last, packet, n)
                     == plain_append(theirs, two, AREA, last, packet, n),
                 "an append's answer");
        } else {
            size_t n = below(8) == 0 ? below(200) : AREA;
            same(bench_take(mine, one, AREA, last, from_one, n)
                     == plain_take(theirs, two, AREA, last, from_two, n),
                 "a take's answer");
            same(memcmp(from_one, from_two, AREA) == 0, "a packet taken");
        }
        same(mine[0] == theirs[0] && mine[1] == theirs[1], "a window");
        same(memcmp(one, two, AREA) == 0, "a store");
    }
}

/* ---- timing */

/* the value is used, and memory may have changed: no call is moved or dropped */
#define KEEP(x) __asm__ volatile("" : : "r"(x) : "memory")

enum { RUNS = 401, SIXTEEN_KIB = 16384, RECORDS = 10000, REQUESTS = 65536, STORE = 65536 };

static uint8_t area[1 << 24], other[1 << 24], out[MOST_PACKET];
static size_t records_end, window[2];
static uint64_t records_last;
static size_t amount;   /* bytes that a row moves */
static uint64_t first;  /* the first outstanding request */
/* memmove itself, by a pointer that the compiler can't see through */
static void *(*volatile bare)(void *, const void *, size_t) = memmove;

#define TIMED(name, expression)                                                                    \
    static void name(long turns) {                                                                 \
        for (long i = 0; i < turns; i++)                                                           \
            KEEP(expression);                                                                      \
    }

TIMED(copy_proved, bench_copy(area, sizeof area, 0, other, amount))
TIMED(copy_plain, bare(area, other, amount))
TIMED(down_proved, bench_slide(area, sizeof area, 48, 0, amount))
TIMED(down_plain, bare(area, area + 48, amount))
TIMED(up_proved, bench_slide(area, sizeof area, 0, 48, amount))
TIMED(up_plain, bare(area + 48, area, amount))
TIMED(walk_proved, bench_walk(area, sizeof area, 0, records_end, records_last))
TIMED(walk_plain, plain_walk(area, sizeof area, 0, records_end, records_last))
TIMED(legal_proved, bench_legal(area, REQUESTS, first, REQUESTS))
TIMED(legal_plain, plain_legal(area, REQUESTS, first, REQUESTS))

static void event_proved(long turns) {
    for (long i = 0; i < turns; i++) {
        window[0] = window[1] = 0;
        KEEP(bench_append(window, area, STORE, 1, other, LEAST_PACKET));
        KEEP(bench_take(window, area, STORE, 1, out, sizeof out));
    }
}

static void event_plain(long turns) {
    for (long i = 0; i < turns; i++) {
        window[0] = window[1] = 0;
        KEEP(plain_append(window, area, STORE, 1, other, LEAST_PACKET));
        KEEP(plain_take(window, area, STORE, 1, out, sizeof out));
    }
}

static void event_bare(long turns) {
    for (long i = 0; i < turns; i++) {
        KEEP(bare(area + HEADER, other, LEAST_PACKET));
        KEEP(bare(out, area + HEADER, LEAST_PACKET));
    }
}

static double now(void) {
    struct timespec t;
    clock_gettime(CLOCK_MONOTONIC, &t);
    return (double)t.tv_sec * 1e9 + (double)t.tv_nsec;
}

static double run(void (*side)(long), long turns) {
    double start = now();
    side(turns);
    return (now() - start) / (double)turns;
}

static int rising(const void *a, const void *b) {
    double x = *(const double *)a, y = *(const double *)b;
    return (x > y) - (x < y);
}

/* of all runs: a tenth below, the middle, a tenth above */
struct Figure {
    double low, median, high;
};

static struct Figure figure(double *runs) {
    qsort(runs, RUNS, sizeof *runs, rising);
    return (struct Figure){runs[RUNS / 10], runs[RUNS / 2], runs[RUNS - 1 - RUNS / 10]};
}

/* two sides, what a turn of each takes; and, of each two runs side by side, ratio and difference */
struct Beside {
    struct Figure proved, plain, ratio, over;
};

/* alternating runs of about a tenth of a millisecond, after one of each that isn't counted */
static struct Beside beside(void (*proved)(long), void (*plain)(long)) {
    static double mine[RUNS], theirs[RUNS], ratio[RUNS], over[RUNS];
    long turns = 1;
    while (run(proved, turns) * (double)turns < 1e5)
        turns *= 2;
    run(plain, turns);
    for (int i = 0; i < RUNS; i++) {
        mine[i] = run(proved, turns);
        theirs[i] = run(plain, turns);
        ratio[i] = mine[i] / theirs[i];
        over[i] = mine[i] - theirs[i];
    }
    return (struct Beside){figure(mine), figure(theirs), figure(ratio), figure(over)};
}

static void cell(struct Figure f, double per) {
    printf(" %.2f (%.2f to %.2f) |", f.median / per, f.low / per, f.high / per);
}

/* a row of the table; the times are divided by `per` */
static void row(const char *what, struct Beside b, double per, const char *goal, bool met,
                const char *reached) {
    printf("| %s |", what);
    cell(b.proved, per);
    cell(b.plain, per);
    cell(b.ratio, 1);
    printf(" %s | %s%s |\n", goal, goal[0] == 0 ? "" : met ? "yes" : "NO", reached);
}

static void moves(size_t n, const char *size) {
    static const char *const names[] = {"copy", "slide down by 48", "slide up by 48"};
    void (*const proved[])(long) = {copy_proved, down_proved, up_proved};
    void (*const plain[])(long) = {copy_plain, down_plain, up_plain};
    char what[64];
    amount = n;
    for (int i = 0; i < 3; i++) {
        snprintf(what, sizeof what, "%s, %s", names[i], size);
        struct Beside b = beside(proved[i], plain[i]);
        row(what, b, 1, "ratio at most 3", b.ratio.median <= 3, "");
    }
}

static void events(void) {
    char reached[32];
    struct Beside b = beside(event_proved, event_bare);
    snprintf(reached, sizeof reached, ": %.1f", b.over.median);
    row("event in and out, beside two copies", b, 1, "under 30 ns over", b.over.median < 30, reached);
    row("event in and out, beside plain C", beside(event_proved, event_plain), 1, "", true, "");
}

static void walks(const char *what, size_t longest, bool goal) {
    char reached[32] = "";
    seed = 7;
    records_end = some_records(area, sizeof area, RECORDS, longest, &records_last);
    size_t found = plain_walk(area, sizeof area, 0, records_end, records_last);
    same(found != UNSOUND, "a sound store");
    same(bench_walk(area, sizeof area, 0, records_end, records_last) == found, "a long walk");
    struct Beside b = beside(walk_proved, walk_plain);
    double each = b.proved.median / RECORDS;
    if (goal)
        snprintf(reached, sizeof reached, ": %.2f", each);
    row(what, b, RECORDS, goal ? "at most 4 ns each" : "", each <= 4, reached);
}

static void legality(const char *what, uint64_t from) {
    char reached[32];
    for (size_t i = 0; i < REQUESTS; i++)
        area[i] = (uint8_t)below(6);
    first = from;
    same(bench_legal(area, REQUESTS, first, REQUESTS), "a legal room");
    struct Beside b = beside(legal_proved, legal_plain);
    double rate = REQUESTS / b.proved.median;
    snprintf(reached, sizeof reached, ": %.0f", rate);
    row(what, b, 1, "at least 4 bytes a ns", rate >= 4, reached);
}

int main(void) {
    same_moves();
    same_legality();
    same_walks();
    same_store();
    for (size_t i = 0; i < sizeof other; i++)
        area[i] = other[i] = (uint8_t)(i * 31);
    printf("| move | proved, ns | plain, ns | ratio | goal | met |\n|---|---|---|---|---|---|\n");
    moves(48, "48 bytes");
    moves(SIXTEEN_KIB, "16 KiB");
    events();
    walks("walk, each of 10,000 packets of 32 bytes", LEAST_PACKET, true);
    walks("walk, each of 10,000 packets of 32 to 256 bytes", 256, false);
    legality("legality of 65,536 requests, in one part", 0);
    legality("legality of 65,536 requests, in two parts", REQUESTS / 2);
    return 0;
}
