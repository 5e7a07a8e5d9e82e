/* The calls of the packet reader and of the handshake: three numbers beside a buffer. */
#include <string.h>

#include "calls.h"
#include "lent.h"
#include "parts.h"
#include "report.h"
#include "sound.h"
#include "source.h"
#include "xiengmado.h"

/* One that accepted calls lead on, with a byte more than the longest buffer has. */
struct stream {
    uint64_t row[XM_SLOTS + 1];
    uint8_t buf[XM_MOST_SETUP_BUFFER + 1];
    size_t row_len, buf_len;
};

typedef bool sound_test(const uint64_t *, size_t, const uint8_t *, size_t);

/* The reader and the handshake: home, the rules' test, and which buffers there are. */
struct kind {
    struct stream home;
    sound_test *sound;
    size_t least, most;
};

static struct kind reader = {.sound = reader_sound, .least = XM_LEAST_PACKET_BUFFER, .most = XM_MOST_PACKET_BUFFER};
static struct kind connect = {.sound = handshake_sound, .least = XM_LEAST_SETUP_BUFFER, .most = XM_MOST_SETUP_BUFFER};
static struct stream trial;

/* What is lent to the call that runs. */
static uint64_t *row;
static const uint8_t *buf;

static void copy(struct stream *to, const struct stream *from) {
    memcpy(to->row, from->row, sizeof to->row);
    memcpy(to->buf, from->buf, from->buf_len);
    to->row_len = from->row_len;
    to->buf_len = from->buf_len;
}

void fresh_readers(void) {
    reader.home.row_len = connect.home.row_len = XM_SLOTS;
    reader.home.buf_len = connect.home.buf_len = 100;
    memset(reader.home.buf, 0, 100);
    memset(connect.home.buf, 0, 100);
    xm_reader_new(reader.home.row, XM_SLOTS, XM_LITTLE, reader.home.buf, 100);
    xm_connect_new(connect.home.row, XM_SLOTS, XM_LITTLE, connect.home.buf, 100);
}

/* Half of the changed bits are the first byte's. */
static void spoil(const struct kind *kind) {
    static const size_t lengths[] = {0, 1, 2, 4};
    uint64_t *slot = &trial.row[below(XM_SLOTS)];
    size_t length = trial.buf_len, target = trial.row[XM_READER_TARGET];
    size_t edges[] = {0, kind->least - 1, target - 1, target, length - 1, length + 1, kind->most, kind->most + 1};
    switch (below(6)) {
    case 0: *slot = wide(); break;
    case 1: *slot += 1 - below(3); break;
    case 2: *slot = trial.row[below(XM_SLOTS)]; break;
    case 3: trial.row_len = PICK(lengths); break;
    case 4: length = edges[once(40) ? below(8) : below(6)]; break;
    default: trial.buf[once(2) ? 0 : below(trial.buf_len < 9 ? trial.buf_len : 9)] ^= (uint8_t)(1u << below(8));
    }
    if (length > kind->most + 1) length = 0;
    if (length > trial.buf_len) memset(trial.buf + trial.buf_len, 0, length - trial.buf_len);
    trial.buf_len = length;
}

static void lend_trial(enum access access) {
    row = lend(STATE, trial.row, 8 * trial.row_len, access);
    buf = lend(INPUT, trial.buf, trial.buf_len, READ);
}

/* Lends home, or once in three a spoilt copy; whether it is sound. */
static bool lend_some(const struct kind *kind, enum access access) {
    copy(&trial, &kind->home);
    if (once(3)) spoil(kind);
    lend_trial(access);
    return kind->sound(row, trial.row_len, buf, trial.buf_len);
}

static void settle(struct kind *kind, uint32_t answer, bool sound) {
    report_answer(answer, sound);
    if (answer != XM_DONE) return;
    if (!kind->sound(row, trial.row_len, buf, trial.buf_len)) report_fault("what is left is not sound");
    memcpy(trial.row, row, 8 * trial.row_len);
    copy(&kind->home, &trial);
}

#define LENT row, trial.row_len, buf, trial.buf_len

struct part lend_reader(void) {
    copy(&trial, &reader.home);
    if (once(8)) spoil(&reader);
    return (struct part){lend(READER, trial.row, 8 * trial.row_len, READ), trial.row_len,
                         lend(BUFFER, trial.buf, trial.buf_len, READ), trial.buf_len};
}

void reader_home(const struct part *p) {
    memcpy(reader.home.row, p->row, 8 * p->row_len);
    memcpy(reader.home.buf, p->buf, p->buf_len);
    reader.home.row_len = p->row_len;
    reader.home.buf_len = p->buf_len;
}

/* ---- the calls that both have ---- */

typedef enum xm_refusal new_call(uint64_t *, size_t, uint8_t, const uint8_t *, size_t);
typedef enum xm_refusal capacity_call(const uint64_t *, size_t, const uint8_t *, size_t, size_t *);
typedef enum xm_refusal place_call(const uint64_t *, size_t, const uint8_t *, size_t, size_t *, size_t *);

static void new_by(struct kind *kind, new_call *call) {
    size_t sizes[] = {0, kind->least - 1, kind->least, 36, 48, 64, 100, 100, 200, 200, 600};
    trial.buf_len = once(300) ? kind->most + below(2) : PICK(sizes);
    trial.row_len = once(8) ? below(XM_SLOTS + 2) : XM_SLOTS;
    for (int i = 0; i < XM_SLOTS; i++) trial.row[i] = wide();
    fill(trial.buf, trial.buf_len);
    lend_trial(WRITE);
    uint8_t order = (uint8_t)(once(6) ? below(256) : once(2) ? XM_LITTLE : XM_BIG);
    bool range = kind->least <= trial.buf_len && trial.buf_len <= kind->most;
    settle(kind, call(row, trial.row_len, order, buf, trial.buf_len), range && trial.row_len == XM_SLOTS);
}

static void capacity_by(struct kind *kind, capacity_call *call) {
    bool sound = lend_some(kind, READ);
    size_t *size = lend_number(sizeof *size);
    settle(kind, call(LENT, size), sound);
}

static void place_by(struct kind *kind, place_call *call) {
    bool sound = lend_some(kind, READ);
    size_t *start = lend_number(sizeof *start), *size = lend_number(sizeof *size);
    settle(kind, call(LENT, start, size), sound);
}

/* Bytes come into home's unfilled part: their number. A small length field, as a rule. */
static uint64_t bytes_come(struct stream *s, size_t field, size_t width) {
    static const uint8_t codes[] = {0, 1, 1, 2, 129, 35, 163, 28};
    uint64_t filled = s->row[XM_READER_FILLED], remain = s->row[XM_READER_TARGET] - filled;
    fill(s->buf + filled, remain);
    if (filled == 0 && !once(8)) s->buf[0] = PICK(codes);
    for (size_t i = 0; i < width && !once(30); i++) {
        bool low = i == (s->row[XM_READER_ORDER] == XM_LITTLE ? 0 : width - 1);
        if (filled <= field + i) s->buf[field + i] = (uint8_t)(low ? below(24) : once(60));
    }
    return once(12) ? remain + 1 : once(12) ? wide() : once(2) ? remain : below(remain + 1);
}

void reader_new(void) {
    new_by(&reader, xm_reader_new);
}

void reader_remaining_capacity(void) {
    capacity_by(&reader, xm_reader_remaining_capacity);
}

void reader_buffer(void) {
    place_by(&reader, xm_reader_buffer);
}

void reader_advance(void) {
    uint64_t amount = bytes_come(&reader.home, 4, 4);
    bool sound = lend_some(&reader, WRITE);
    size_t *size = lend_number(sizeof *size);
    uint8_t *class = lend_number(1);
    uint32_t answer = xm_reader_advance(LENT, amount, size, class);
    settle(&reader, answer, sound);
    report_outcome(answer, *size > 0);
    report_class(answer, *class, *size > 0 ? buf : NULL);
}

void connect_new(void) {
    new_by(&connect, xm_connect_new);
}

void connect_remaining_capacity(void) {
    capacity_by(&connect, xm_connect_remaining_capacity);
}

void connect_buffer(void) {
    place_by(&connect, xm_connect_buffer);
}

void connect_advance(void) {
    uint64_t amount = bytes_come(&connect.home, 6, 2);
    uint8_t *bytes = connect.home.buf;
    if (!once(8) && connect.home.row[XM_READER_FILLED] < 24) memset(bytes + 24, (int)below(3), 2);
    if (!once(4) && connect.home.row[XM_READER_FILLED] < 2) bytes[1] = (uint8_t)below(9);
    bool sound = lend_some(&connect, WRITE);
    uint8_t *complete = lend_number(1);
    uint32_t answer = xm_connect_advance(LENT, amount, complete);
    settle(&connect, answer, sound);
    report_outcome(answer, *complete);
}

/* ---- the handshake's own ---- */

void connect_setup(void) {
    static uint32_t fields[XM_SETUP_FIELDS + 1];
    bool sound = lend_some(&connect, READ);
    size_t count = once(4) ? below(XM_SETUP_FIELDS + 2) : XM_SETUP_FIELDS;
    uint8_t *status = lend_number(1);
    uint32_t *out = lend(FDS, fields, 4 * count, WRITE);
    uint32_t answer = xm_connect_setup(LENT, status, out, count);
    settle(&connect, answer, sound);
    report_outcome(answer, *status);
}

void connect_vendor(void) {
    place_by(&connect, xm_connect_vendor);
}

void connect_reason(void) {
    place_by(&connect, xm_connect_reason);
}

void setup_request(void) {
    static uint8_t bytes[131100];
    static const size_t longs[] = {65535, 65536};
    size_t name_len = once(300) ? PICK(longs) : below(21), auth_len = once(300) ? PICK(longs) : below(21);
    fill(bytes, 64);
    uint8_t *name = lend(INPUT, bytes, name_len, READ), *auth = lend(SECOND, bytes, auth_len, READ);
    size_t due = 12 + (name_len + 3) / 4 * 4 + (auth_len + 3) / 4 * 4, *size = lend_number(sizeof *size);
    size_t out_len = once(4) ? below(due) : due + below(4) - 1;
    uint8_t *out = lend(OUT, bytes, out_len, WRITE);
    uint8_t order = (uint8_t)(once(8) ? below(256) : once(2) ? XM_LITTLE : XM_BIG);
    uint32_t answer = xm_setup_request(order, name, name_len, auth, auth_len, out, out_len, size);
    lent_limit(OUT, *size);
    report_answer(answer, true);
}
