/* The calls without rooms of a connection: numbers, packets, XC-MISC and ids. */
#include "calls.h"
#include "lent.h"
#include "parts.h"
#include "report.h"
#include "sound.h"
#include "source.h"
#include "xiengmado.h"

static uint8_t bytes[XM_MOST_PACKET + 1];
static uint32_t words[XM_MOST_PACKET / 4];

static uint8_t some_order(void) {
    return (uint8_t)(once(8) ? below(256) : once(2) ? XM_LITTLE : XM_BIG);
}

static void put(uint8_t *at, uint64_t number, size_t width, uint8_t order) {
    for (size_t i = 0; i < width; i++) at[order == XM_LITTLE ? i : width - 1 - i] = (uint8_t)(number >> 8 * i);
}

/* ---- numbers ---- */

void full_number(void) {
    uint64_t *number = lend_number(8), read = wide();
    uint16_t wire = (uint16_t)(once(2) ? read + below(5) - 2 : below(65536));
    uint64_t ahead = (uint16_t)(wire - read), most = INT64_MAX;
    uint32_t answer = xm_full_number(read, wire, number);
    report_answer(answer, true);
    bool fits = read <= most && ahead <= most - read;
    if ((answer == XM_DONE) != fits || (fits && *number != read + ahead)) report_fault("another number is due");
}

void send(void) {
    uint64_t *number = lend_number(8), *next = lend_number(8);
    uint64_t written = once(4) ? INT64_MAX - below(3) : wide();
    uint64_t expected = once(2) ? written - 65536 + below(5) : wide();
    report_answer(xm_send(written, expected, once(2), number, next), true);
}

/* ---- packets ---- */

void packet_length(void) {
    static const uint8_t codes[] = {0, 1, 11, 35, 129, 163};
    uint8_t code = once(2) ? PICK(codes) : (uint8_t)below(256), *class = lend_number(1);
    uint32_t field = (uint32_t)wide();
    bool more = code == 1 || code == 35 || code == 163;
    size_t due = 32 + (more ? 4 * (size_t)field : 0);
    if (xm_packet_length(code, field, class) != due) report_fault("another length is due");
    report_answer(XM_DONE, true);
    report_class(XM_DONE, *class, &code);
}

/* A packet of any kind, mostly a whole one; its length goes to size. */
static uint8_t *lend_packet(uint8_t order, uint8_t first, size_t *size) {
    static const size_t sizes[] = {0, 1, 31, 33, 36, 40, 64, 100};
    *size = once(100) ? 65536 + below(2) : once(3) ? PICK(sizes) : 32 + 4 * below(4);
    fill(bytes, *size);
    if (*size >= 32) {
        if (!once(8)) bytes[0] = first;
        put(bytes + 4, once(6) ? wide() : below(5), 4, order);
        put(bytes + 8, once(6) ? wide() : below(5), once(2) ? 4 : 2, order);
    }
    return lend(INPUT, bytes, *size, READ);
}

void check_packet(void) {
    uint8_t order = some_order(), first = (uint8_t)below(256);
    size_t size;
    uint8_t *packet = lend_packet(order, first, &size);
    report_answer(xm_check_packet(order, packet, size, first), true);
}

void error_fields(void) {
    uint8_t order = some_order(), *code = lend_number(1), *major = lend_number(1);
    uint16_t *sequence = lend_number(2), *minor = lend_number(2);
    uint32_t *value = lend_number(4);
    size_t size;
    uint8_t *packet = lend_packet(order, 0, &size);
    report_answer(xm_error(order, packet, size, code, sequence, value, minor, major), true);
}

/* ---- XC-MISC ---- */

static uint8_t *lend_request(size_t *out_len) {
    *out_len = below(12);
    return lend(OUT, bytes, *out_len, WRITE);
}

static void request_answer(uint32_t answer, const size_t *size) {
    lent_limit(OUT, *size);
    report_answer(answer, true);
}

void version_request(void) {
    size_t out_len, *size = lend_number(sizeof *size);
    uint8_t *out = lend_request(&out_len), order = some_order(), opcode = (uint8_t)below(256);
    uint16_t major = (uint16_t)below(65536), minor = (uint16_t)below(65536);
    request_answer(xm_xc_misc_get_version_request(order, opcode, major, minor, out, out_len, size), size);
}

void range_request(void) {
    size_t out_len, *size = lend_number(sizeof *size);
    uint8_t *out = lend_request(&out_len), order = some_order(), opcode = (uint8_t)below(256);
    request_answer(xm_xc_misc_get_xid_range_request(order, opcode, out, out_len, size), size);
}

void list_request(void) {
    size_t out_len, *size = lend_number(sizeof *size);
    uint8_t *out = lend_request(&out_len), order = some_order(), opcode = (uint8_t)below(256);
    request_answer(xm_xc_misc_get_xid_list_request(order, opcode, (uint32_t)wide(), out, out_len, size), size);
}

void version_reply(void) {
    uint16_t *sequence = lend_number(2), *major = lend_number(2), *minor = lend_number(2);
    uint32_t *length = lend_number(4);
    uint8_t order = some_order();
    size_t size;
    uint8_t *packet = lend_packet(order, 1, &size);
    report_answer(xm_xc_misc_get_version_reply(order, packet, size, sequence, length, major, minor), true);
}

void range_reply(void) {
    uint16_t *sequence = lend_number(2);
    uint32_t *length = lend_number(4), *start = lend_number(4), *count = lend_number(4);
    uint8_t order = some_order();
    size_t size;
    uint8_t *packet = lend_packet(order, 1, &size);
    report_answer(xm_xc_misc_get_xid_range_reply(order, packet, size, sequence, length, start, count), true);
}

void list_reply(void) {
    uint16_t *sequence = lend_number(2);
    uint32_t *length = lend_number(4), *count = lend_number(4);
    uint8_t order = some_order();
    size_t size, ids_len = once(50) ? XM_MOST_PACKET / 4 : below(6);
    uint8_t *packet = lend_packet(order, 1, &size);
    uint32_t *ids = lend(FDS, words, 4 * ids_len, WRITE);
    uint32_t answer = xm_xc_misc_get_xid_list_reply(order, packet, size, ids, ids_len, sequence, length, count);
    lent_limit(FDS, 4 * (size_t)*count);
    report_answer(answer, true);
}

/* ---- ids ---- */

/* An allocator that accepted calls lead on, and a copy of it with a fault or two. */
static uint64_t home_ids[XM_SLOTS + 1], trial_ids[XM_SLOTS + 1];

void fresh_ids(void) {
    xm_ids_new(home_ids, XM_SLOTS, 0x200000, 0x1fffff);
}

static size_t try_row(bool spoilt) {
    static const size_t lengths[] = {0, 1, 2, 4};
    for (size_t i = 0; i < XM_SLOTS; i++) trial_ids[i] = home_ids[i];
    for (uint64_t faults = spoilt ? 1 + below(2) : 0; faults > 0; faults--) {
        uint64_t *slot = &trial_ids[below(XM_SLOTS)];
        *slot = once(3) ? wide() : once(2) ? *slot + 1 - below(3) : home_ids[below(XM_SLOTS)];
    }
    return once(16) ? PICK(lengths) : XM_SLOTS;
}

static uint64_t *lend_row(size_t *length) {
    *length = try_row(once(3));
    return lend(STATE, trial_ids, 8 * *length, WRITE);
}

struct part lend_ids(void) {
    size_t length = try_row(once(8));
    return (struct part){lend(IDS, trial_ids, 8 * length, READ), length, NULL, 0};
}

void ids_home(const struct part *p) {
    for (size_t i = 0; i < XM_SLOTS; i++) home_ids[i] = p->row[i];
}

static void ids_settle(uint32_t answer, const uint64_t *row, size_t length, bool sound) {
    report_answer(answer, sound);
    if (answer != XM_DONE) return;
    if (!ids_sound(row, length)) report_fault("the allocator that is left is not sound");
    for (size_t i = 0; i < XM_SLOTS; i++) home_ids[i] = row[i];
}

void ids_new(void) {
    size_t length;
    uint64_t *row = lend_row(&length);
    uint32_t base = (uint32_t)wide(), mask = once(8) ? 0 : (uint32_t)wide();
    ids_settle(xm_ids_new(row, length, base, mask), row, length, length == XM_SLOTS);
}

void ids_generate_id(void) {
    size_t length;
    uint64_t *row = lend_row(&length);
    uint32_t *id = lend_number(4);
    bool sound = ids_sound(row, length);
    ids_settle(xm_ids_generate_id(row, length, id), row, length, sound);
}

void ids_update_xid_range(void) {
    size_t length;
    uint64_t *row = lend_row(&length);
    uint32_t start = (uint32_t)wide(), count = once(2) ? (uint32_t)below(9) : (uint32_t)wide();
    bool sound = ids_sound(row, length);
    ids_settle(xm_ids_update_xid_range(row, length, start, count), row, length, sound);
}
