#include "saved.h"

#include <string.h>

/* ---- writing ---- */

/* The places of the numbers in the row of a connection. */
enum { ORDER, K, S, WRITTEN, EXPECTED, LAST_READ, FIRST, START, END };

enum { HEADER = 16, KIND_AT = 13, FIXED = 116 };

static uint8_t *put(uint8_t *at, uint64_t number, size_t width) {
    for (size_t i = 0; i < width; i++) at[i] = (uint8_t)(number >> 8 * i);
    return at + width;
}

static uint8_t *put_numbers(uint8_t *at, const uint64_t *numbers, size_t count) {
    at = put(at, count, 4);
    for (size_t i = 0; i < count; i++) at = put(at, numbers[i], 8);
    return at;
}

size_t saved_size(const struct saved *s) {
    const uint64_t *state = s->connection.state;
    return FIXED + (state[WRITTEN] + 1 - state[FIRST]) + (state[END] - state[START]) + s->reader[1];
}

/* The records of a kind, as the store has them. */
static uint8_t *put_records(uint8_t *at, const struct client *c, uint8_t kind) {
    uint8_t *count_at = at;
    uint64_t count = 0;
    at += 4;
    for (uint64_t i = c->state[START], size; i < c->state[END]; i += size) {
        const uint8_t *record = c->store + i;
        size = HEADER + number_at(record + 8, 4, true);
        if (record[KIND_AT] != kind) continue;
        memcpy(at, record, size);
        at += size;
        count++;
    }
    put(count_at, count, 4);
    return at;
}

void saved_write(const struct saved *s, uint8_t *out) {
    const struct client *c = &s->connection;
    const uint64_t *state = c->state;
    uint64_t numbers[] = {state[WRITTEN], state[EXPECTED], state[LAST_READ]};
    uint64_t lengths[] = {state[ORDER], state[K], state[S], s->reader[0], s->buf_len};
    out = put_numbers(out, numbers, 3);
    out = put_numbers(out, lengths, 5);
    out = put(out, state[WRITTEN] + 1 - state[FIRST], 4);
    /* A request's byte in its room is the file's too. */
    for (uint64_t n = state[FIRST]; n <= state[WRITTEN]; n++) *out++ = c->requests[n % state[K]];
    out = put_records(out, c, 0);
    out = put_records(out, c, 1);
    out = put(out, s->reader[1], 4);
    memcpy(out, s->buf, s->reader[1]);
    put_numbers(out + s->reader[1], s->ids, 3);
}

/* ---- reading ---- */

static const uint64_t last_number = INT64_MAX;

/* What is left of a file, and whether it was long enough so far. */
struct rest {
    const uint8_t *at;
    size_t size;
    bool good;
};

static const uint8_t *take(struct rest *r, uint64_t size) {
    const uint8_t *at = r->at;
    if (!r->good || size > r->size) {
        r->good = false;
        return NULL;
    }
    r->at += size;
    r->size -= size;
    return at;
}

static uint64_t number(struct rest *r, size_t width) {
    const uint8_t *at = take(r, width);
    return at == NULL ? 0 : number_at(at, width, true);
}

static void need(struct rest *r, bool fact) {
    if (!fact) r->good = false;
}

static void numbers(struct rest *r, uint64_t *to, size_t count) {
    need(r, number(r, 4) == count);
    for (size_t i = 0; i < count; i++) to[i] = number(r, 8);
}

static bool an_order(uint64_t n) {
    return n == 108 || n == 66;
}

static bool within(uint64_t n, uint64_t least, uint64_t most) {
    return least <= n && n <= most;
}

/* A list of records of a kind; their bytes. */
static uint64_t records(struct rest *r, uint8_t kind, uint64_t last_read) {
    uint64_t count = number(r, 4), used = 0, before = 0;
    for (uint64_t i = 0; i < count && r->good; i++) {
        uint64_t filed = number(r, 8), length = number(r, 4);
        const uint8_t *fixed = take(r, 4);
        need(r, fixed != NULL && fixed[0] == 0 && fixed[1] == kind && fixed[2] == 0 && fixed[3] == 0);
        need(r, within(length, 32, 65536) && filed <= last_read);
        need(r, kind == 1 || before <= filed);
        take(r, length);
        used += HEADER + length;
        before = filed;
    }
    return used;
}

/* How many bytes the packet has of which these are the first. */
static uint64_t wanted(const uint8_t *filled, uint64_t size, uint64_t order) {
    if (size < 32 || (filled[0] != 1 && filled[0] % 128 != 35)) return 32;
    return 32 + 4 * number_at(filled + 4, 4, order == 108);
}

static bool an_allocator(const uint64_t *ids) {
    uint64_t next = ids[0], last = ids[1], step = ids[2], most = UINT32_MAX;
    bool power = step != 0 && (step & (step - 1)) == 0;
    return power && step <= most && last <= most && next <= last + step;
}

bool saved_reads(const uint8_t *bytes, size_t size, uint64_t rooms[3]) {
    struct rest r = {bytes, size, true};
    uint64_t n[3], l[5], ids[3];
    numbers(&r, n, 3);
    numbers(&r, l, 5);
    need(&r, n[0] <= last_number && n[1] <= last_number && n[2] <= last_number);
    need(&r, an_order(l[0]) && within(l[1], 1, 65536) && within(l[2], 48, 16777216));
    need(&r, an_order(l[3]) && within(l[4], 32, 65536));
    uint64_t outstanding = number(&r, 4);
    need(&r, outstanding <= n[0] && outstanding <= l[1]);
    const uint8_t *requests = take(&r, outstanding);
    for (uint64_t i = 0; r.good && i < outstanding; i++) need(&r, requests[i] <= 5);
    uint64_t used = records(&r, 0, n[2]);
    used += records(&r, 1, n[2]);
    need(&r, used <= l[2]);
    uint64_t count = number(&r, 4);
    const uint8_t *filled = take(&r, count);
    if (r.good) need(&r, count < wanted(filled, count, l[3]) && wanted(filled, count, l[3]) <= l[4]);
    numbers(&r, ids, 3);
    need(&r, an_allocator(ids) && r.size == 0);
    for (int i = 0; i < 3; i++) rooms[i] = l[i == 2 ? 4 : 1 + i];
    return r.good;
}
