#include "sound.h"

/* The numbers of a connection's state, in their order. */
enum {
    ORDER, K, S, WRITTEN, EXPECTED, LAST_READ, FIRST, START, END, CLOSED, HELD, WAITING, UNUSED, SLOTS = 16
};

enum { HEADER = 16, LEAST_PACKET = 32, MOST_PACKET = 65536, DESCRIPTORS = 256 };

static const uint64_t most_number = INT64_MAX; /* 2^63 - 1 */

static bool within(uint64_t n, uint64_t least, uint64_t most) {
    return least <= n && n <= most;
}

static bool an_order(uint64_t n) {
    return n == 'l' || n == 'B';
}

uint64_t number_at(const uint8_t *bytes, size_t width, bool little) {
    uint64_t n = 0;
    for (size_t i = 0; i < width; i++) n = n << 8 | bytes[little ? width - 1 - i : i];
    return n;
}

/* Rooms: K is 1 to 65,536 bytes, S 48 to 16,777,216, 256 places for descriptors, 16 numbers. */
bool client_rooms(const struct client *c) {
    return c->state_len == SLOTS && within(c->requests_len, 1, 65536) &&
           within(c->store_len, 48, 16777216) && c->slots_len == DESCRIPTORS;
}

/* "its lent lengths are those given at the start"; the last four numbers of the row are 0 */
static bool lengths(const struct client *c) {
    for (int i = UNUSED; i < SLOTS; i++) {
        if (c->state[i] != 0) return false;
    }
    return c->requests_len == c->state[K] && c->store_len == c->state[S];
}

/* "its full numbers are in range" */
static bool numbers(const uint64_t *s) {
    return s[WRITTEN] <= most_number && s[EXPECTED] <= most_number && s[LAST_READ] <= most_number;
}

/* "outstanding requests are a run without gaps from 1 or more up to the last written and at most K,
 * each request byte is legal": that of number n is at n modulo K, and 0 to 5 mean something. */
static bool outstanding(const struct client *c) {
    uint64_t first = c->state[FIRST], written = c->state[WRITTEN];
    if (!within(first, 1, written + 1) || written + 1 - first > c->state[K]) return false;
    for (uint64_t n = first; n <= written; n++) {
        if (c->requests[n % c->state[K]] > 5) return false;
    }
    return true;
}

/* A record: number (8 bytes, the least first), packet length (4), count of descriptors (1), kind (1:
 * 0 a reply, 1 an event, which has no descriptors), two zero bytes, and the packet. */
bool record_stands(const uint8_t *store, size_t store_len, size_t at, size_t end) {
    if (end > store_len || at > end || end - at < HEADER) return false;
    const uint8_t *head = store + at;
    uint64_t length = number_at(head + 8, 4, true);
    if (!within(length, LEAST_PACKET, MOST_PACKET) || end - at - HEADER < length) return false;
    if (head[13] > 1 || (head[13] == 1 && head[12] != 0)) return false;
    return head[14] == 0 && head[15] == 0;
}

/* "the store reads as held records whose costs add up to the used count, reply numbers never fall, no
 * held number is above the last read"; their descriptors add up to those held. */
static bool records(const struct client *c) {
    uint64_t at = c->state[START], end = c->state[END], last = 0, held = 0;
    if (end > c->store_len || at > end) return false;
    while (at < end) {
        if (!record_stands(c->store, c->store_len, at, end)) return false;
        const uint8_t *head = c->store + at;
        uint64_t number = number_at(head, 8, true);
        if (number > c->state[LAST_READ]) return false;
        if (head[13] == 0 && number < last) return false;
        if (head[13] == 0) last = number;
        held += head[12];
        at += HEADER + number_at(head + 8, 4, true);
    }
    return held == c->state[HELD];
}

/* "descriptors number at most 256" */
static bool descriptors(const uint64_t *s) {
    return s[CLOSED] <= DESCRIPTORS && s[HELD] <= DESCRIPTORS && s[WAITING] <= DESCRIPTORS &&
           s[CLOSED] + s[HELD] + s[WAITING] <= DESCRIPTORS;
}

bool client_sound(const struct client *c) {
    return client_rooms(c) && lengths(c) && an_order(c->state[ORDER]) && numbers(c->state) &&
           outstanding(c) && records(c) && descriptors(c->state);
}

/* "A numbered packet whose full number is above the last written": that number is the least at or above
 * the last read that has the packet's 16 bits, unless it would pass the last one of all, which is 3. */
bool packet_ahead(const uint64_t *s, const uint8_t *packet) {
    uint64_t wire = number_at(packet + 2, 2, s[ORDER] == 'l');
    uint64_t number = s[LAST_READ] + (uint16_t)(wire - s[LAST_READ]);
    return (packet[0] & 0x7f) != 11 && number > s[WRITTEN] && number <= most_number;
}

/* "error, reply, event or generic event, and for the last two whether SendEvent made it (top bit set)": codes
 * 0 and 1 are the first two, and 35 is the generic event, with that bit or without; each kind of event has
 * two numbers, and the second says that it was sent. */
uint8_t class_of(uint8_t code) {
    if (code <= 1) return code;
    uint8_t kind = (code & 0x7f) == 35 ? 4 : 2;
    return code >= 128 ? kind + 1 : kind;
}

/* How long a packet is that begins so, all of its first 32 bytes being there. */
static uint64_t packet_target(const uint8_t *buf, bool little) {
    if (buf[0] != 1 && (buf[0] & 0x7f) != 35) return 32;
    return 32 + 4 * number_at(buf + 4, 4, little);
}

/* "its target is what the bytes filled so far give (32 at first), fits its buffer and isn't passed;
 * a reader's isn't reached either" */
bool reader_sound(const uint64_t *row, size_t row_len, const uint8_t *buf, size_t buf_len) {
    if (row_len != 3 || !an_order(row[0]) || !within(buf_len, 32, 65536)) return false;
    if (row[1] >= row[2] || row[2] > buf_len) return false;
    return row[2] == (row[1] < 32 ? 32 : packet_target(buf, row[0] == 'l'));
}

/* the same with 8 at first; a handshake's target may be reached */
bool handshake_sound(const uint64_t *row, size_t row_len, const uint8_t *buf, size_t buf_len) {
    if (row_len != 3 || !an_order(row[0]) || !within(buf_len, 8, 262148)) return false;
    if (row[1] > row[2] || row[2] > buf_len) return false;
    return row[2] == (row[1] < 8 ? 8 : 8 + 4 * number_at(buf + 6, 2, row[0] == 'l'));
}

/* "its step is a power of two, step and last id are below 2^32 and its next is at most last + step" */
bool ids_sound(const uint64_t *row, size_t row_len) {
    if (row_len != 3) return false;
    uint64_t next = row[0], last = row[1], step = row[2];
    bool power = step != 0 && (step & (step - 1)) == 0;
    return power && step <= UINT32_MAX && last <= UINT32_MAX && next <= last + step;
}
