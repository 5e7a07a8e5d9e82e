/* The calls of savepoints, compared with saved.c byte for byte. */
#include <string.h>

#include "calls.h"
#include "parts.h"
#include "report.h"
#include "saved.h"
#include "source.h"
#include "world.h"

/* What is lent to the call that runs, beside the connection. */
static struct part reader, ids;

static struct saved whole(void) {
    return (struct saved){lent, reader.row, ids.row, reader.buf, reader.buf_len};
}

static bool all_sound(void) {
    return client_sound(&lent) && reader_sound(reader.row, reader.row_len, reader.buf, reader.buf_len) &&
           ids_sound(ids.row, ids.row_len);
}

#define LENT_READER reader.row, reader.row_len, reader.buf, reader.buf_len
#define LENT_IDS ids.row, ids.row_len

/* ---- writing ---- */

/* Lends a whole client, mostly without descriptors; the refusal that is due, but for 8. */
static uint32_t lend_all(void) {
    if (once(4)) lend_some(0);
    else lend_bare(0);
    reader = lend_reader();
    ids = lend_ids();
    if (!all_sound()) return XM_BAD_ROOM;
    const uint64_t *s = lent.state;
    return s[XM_STATE_CLOSED] + s[XM_STATE_HELD] + s[XM_STATE_WAITING] > 0 ? XM_HAS_DESCRIPTORS : XM_DONE;
}

static void expect(uint32_t answer, uint32_t due) {
    report_answer(answer, due != XM_BAD_ROOM);
    if (answer != due) report_fault("another answer is due");
}

void savepoint_length(void) {
    uint32_t due = lend_all();
    size_t *length = lend_number(sizeof *length);
    expect(xm_savepoint_length(LENT, LENT_READER, LENT_IDS, length), due);
    struct saved s = whole();
    if (due == XM_DONE && *length != saved_size(&s)) report_fault("another length is due");
}

void save(void) {
    static uint8_t bytes[MOST_SAVED + 64], second[MOST_SAVED];
    uint32_t due = lend_all();
    struct saved s = whole();
    size_t size = due == XM_DONE ? saved_size(&s) : 116, *length = lend_number(sizeof *length);
    size_t out_len = size > MOST_SAVED || once(8) ? below(116) : size + below(8) - once(4);
    uint8_t *out = lend(OUT, bytes, out_len, WRITE);
    uint32_t answer = xm_save(LENT, LENT_READER, LENT_IDS, out, out_len, length);
    if (due == XM_DONE && out_len < size) due = XM_OUT_SHORT;
    lent_limit(OUT, size);
    expect(answer, due);
    if (due != XM_DONE) return;
    saved_write(&s, second);
    if (*length != size || memcmp(out, second, size) != 0) report_fault("other bytes are due");
}

/* ---- reading ---- */

/* The savepoint that is being made, and its size. */
static uint8_t file[MOST_SAVED + 64];
static size_t file_size;

/* The places of the numbers in front, and how many. */
static const size_t fields[] = {4, 12, 20, 32, 40, 48, 56, 64};

static void put(size_t at, uint64_t number, size_t width) {
    for (size_t i = 0; i < width; i++) file[at + i] = (uint8_t)(number >> 8 * i);
}

/* A number in front, or one of the allocator's: anything, or one more or less. */
static void spoil_field(void) {
    size_t at = once(3) ? file_size - 8 * (1 + below(3)) : PICK(fields);
    uint64_t was = number_at(file + at, 8, true);
    put(at, once(3) ? wide() : was + 1 - 2 * below(2), 8);
}

/* A length of a room at an edge of its range. */
static void spoil_length(void) {
    static const uint64_t edges[] = {0, 1, 31, 32, 47, 48, 65535, 65536, 65537};
    put(40 + 8 * below(4), once(200) ? 16777216 + below(2) : PICK(edges), 8);
}

static void insert(size_t at) {
    memmove(file + at + 1, file + at, file_size++ - at);
    file[at] = (uint8_t)below(256);
}

static void leave_out(size_t at) {
    memmove(file + at, file + at + 1, --file_size - at);
}

/* A byte in or out, somewhere. */
static void spoil_size(void) {
    size_t at = below(file_size);
    if (once(2)) insert(once(8) ? file_size : at);
    else leave_out(at);
}

/* The first record, of a whole file, a byte longer or shorter. */
static void stretch(void) {
    size_t at = 76 + number_at(file + 72, 4, true);
    if (number_at(file + at, 4, true) == 0) at += 4;
    if (number_at(file + at, 4, true) == 0) return;
    uint64_t length = number_at(file + at + 12, 4, true);
    size_t end = at + 20 + length;
    bool longer = once(2);
    put(at + 12, longer ? length + 1 : length - 1, 4);
    if (longer) insert(end);
    else leave_out(end - 1);
}

/* A bit of the first bytes of the partial packet, of which so many are in a whole file; half of them are the first's. */
static void spoil_partial(size_t filled) {
    size_t at = file_size - 28 - filled;
    if (filled > 0) file[at + (once(2) ? 0 : below(filled < 8 ? filled : 8))] ^= (uint8_t)(1u << below(8));
}

/* A whole file with a fault of its own, or a buffer that the partial packet just fits, or just not. */
static void spoil_whole(const uint64_t *partial) {
    uint64_t outstanding = number_at(file + 72, 4, true);
    switch (below(6)) {
    case 0: stretch(); break;
    case 1: spoil_partial(partial[XM_READER_FILLED]); break;
    case 3: if (outstanding > 0) file[76 + below(outstanding)] = (uint8_t)below(8); break;
    case 2: put(file_size - 8, 1ull << below(34), 8); break;
    case 4: put(64, partial[XM_READER_TARGET] - below(2), 8); break;
    default: put(once(2) ? 32 : 56, below(256), 8);
    }
}

static void spoil_file(void) {
    size_t front = file_size < 400 ? file_size : 400, at = below(once(2) ? front : file_size);
    switch (below(8)) {
    case 0: spoil_field(); break;
    case 1: spoil_length(); break;
    case 2: spoil_size(); break;
    case 3: file_size = at; break;
    case 4: file[at] ^= (uint8_t)(1u << below(8)); break;
    case 5: file[at] += 1; break;
    case 6: file[at] -= 1; break;
    default: file[at] = (uint8_t)below(256);
    }
}

/* A client that was never used. */
static void idle(void) {
    memset(file, 0, file_size = 116);
    static const uint64_t lengths[] = {XM_LITTLE, 8, 500, XM_LITTLE, 100};
    put(0, 3, 4);
    put(28, 5, 4);
    for (size_t i = 0; i < 5; i++) put(32 + 8 * i, lengths[i], 8);
    put(88, 3, 4);
    put(108, 1, 8);
}

/* The same with an event of about the most bytes. */
static void large(void) {
    size_t length = XM_MOST_PACKET - 1 + below(3);
    idle();
    memmove(file + 84 + XM_RECORD_HEADER + length, file + 84, file_size - 84);
    memset(file + 84, 0, XM_RECORD_HEADER + length);
    file_size += XM_RECORD_HEADER + length;
    put(48, 70000, 8);
    put(80, 1, 4);
    put(92, length, 4);
    put(97, 1, 1);
}

/* The savepoint of the clients at home, and a fault or two. */
static void some_file(void) {
    struct saved s;
    uint32_t due = lend_all();
    s = whole();
    if (once(300)) {
        large();
    } else if (due == XM_DONE && saved_size(&s) <= MOST_SAVED) {
        saved_write(&s, file);
        file_size = saved_size(&s);
        if (once(4)) spoil_whole(s.reader);
    } else {
        idle();
    }
    if (!once(3)) spoil_file();
    if (once(6) && file_size >= 116) spoil_file();
    lend_nothing();
}

/* A room of the length that the file asks for, where there can be one, or near it. */
static size_t asked(size_t at, size_t most, size_t otherwise) {
    uint64_t length = file_size < at + 8 ? otherwise : number_at(file + at, 8, true);
    if (length > most) length = otherwise;
    if (once(24) && length > 0) length -= 1;
    if (once(24) && length < most) length += 1;
    return length;
}

static size_t row_length(size_t due) {
    return once(24) ? below(due + 2) : due;
}

/* Rooms, rows and a buffer full of anything. */
static void lend_rooms(void) {
    static uint64_t rows[2][XM_SLOTS + 1];
    static uint8_t buffer[XM_MOST_PACKET_BUFFER + 1];
    trial.requests_len = asked(40, XM_MOST_REQUESTS + 1, 8);
    trial.store_len = asked(48, XM_MOST_STORE + 1, 500);
    trial.slots_len = row_length(XM_DESCRIPTORS);
    trial.state_len = row_length(XM_CONNECTION_SLOTS);
    fill(trial.requests, trial.requests_len);
    fill(trial.store, trial.store_len);
    fill((uint8_t *)trial.state, 8 * trial.state_len);
    fill((uint8_t *)rows, sizeof rows);
    reader = (struct part){NULL, row_length(XM_SLOTS), NULL, asked(64, XM_MOST_PACKET_BUFFER + 1, 100)};
    ids = (struct part){NULL, row_length(XM_SLOTS), NULL, 0};
    fill(buffer, reader.buf_len);
    lend_world(&trial, W_STATE | W_REQUESTS | W_STORE);
    reader.row = lend(READER, rows[0], 8 * reader.row_len, WRITE);
    reader.buf = lend(BUFFER, buffer, reader.buf_len, WRITE);
    ids.row = lend(IDS, rows[1], 8 * ids.row_len, WRITE);
}

static bool rows_fit(void) {
    return lent.state_len == XM_CONNECTION_SLOTS && lent.slots_len == XM_DESCRIPTORS && reader.row_len == XM_SLOTS &&
           ids.row_len == XM_SLOTS;
}

static uint32_t due_to_restore(void) {
    uint64_t rooms[3];
    if (!saved_reads(file, file_size, rooms)) return XM_BAD_SAVEPOINT;
    bool fit = lent.requests_len == rooms[0] && lent.store_len == rooms[1] && reader.buf_len == rooms[2];
    return fit && rows_fit() ? XM_DONE : XM_BAD_ROOM;
}

/* No slot of the request room was written but those of outstanding requests. */
static bool slots_kept(void) {
    uint64_t first = lent.state[XM_STATE_FIRST], run = lent.state[XM_STATE_WRITTEN] + 1 - first;
    for (size_t i = 0; i < lent.requests_len; i++) {
        uint64_t place = (i + lent.requests_len - first % lent.requests_len) % lent.requests_len;
        if (place >= run && lent.requests[i] != trial.requests[i]) return false;
    }
    return true;
}

/* What was restored is sound, and its savepoint is the file. */
static void look(void) {
    static uint8_t again[MOST_SAVED + 64];
    struct saved s = whole();
    if (!all_sound()) report_fault("what was restored is not sound");
    if (saved_size(&s) != file_size) report_fault("what was restored has another length");
    saved_write(&s, again);
    if (memcmp(again, file, file_size) != 0) report_fault("what was restored has other bytes");
    if (!slots_kept()) report_fault("a request that is not outstanding is written");
}

/* Once in four it is gone on with. */
static void go_on(void) {
    if (!once(4)) return;
    go_home();
    reader_home(&reader);
    ids_home(&ids);
}

void restore(void) {
    some_file();
    lend_rooms();
    const uint8_t *bytes = lend(INPUT, file, file_size, READ);
    uint32_t due = due_to_restore();
    uint32_t answer = xm_restore(bytes, file_size, LENT, LENT_READER, LENT_IDS);
    if (answer == XM_DONE && due == XM_DONE) {
        lent_limit(STORE, lent.state[XM_STATE_END]);
        lent_limit(BUFFER, reader.row[XM_READER_FILLED]);
    }
    expect(answer, due);
    if (answer != XM_DONE) return;
    look();
    go_on();
}
