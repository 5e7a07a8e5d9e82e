/*
 * The fuzz test's own test: calls that break a promise, put before those of the library by the
 * linker's --wrap. The environment variable BROKEN says which; the fuzz test must see each of them.
 */
#include <stdlib.h>

#include "xiengmado.h"

static int broken(void) {
    static int which = -1;
    if (which < 0) which = atoi(getenv("BROKEN"));
    return which;
}

#define STATE uint64_t *state, size_t state_len
#define REQUESTS uint8_t *requests, size_t requests_len
#define STORE uint8_t *store, size_t store_len
#define SLOTS uint32_t *slots, size_t slots_len
#define READER uint64_t *reader, size_t reader_len, uint8_t *buf, size_t buf_len
#define IDS uint64_t *ids, size_t ids_len
#define LENT state, state_len, requests, requests_len, store, store_len, slots, slots_len

uint32_t __real_xm_send_request(STATE, REQUESTS, STORE, SLOTS, uint8_t kind, uint64_t *number);
uint32_t __wrap_xm_send_request(STATE, REQUESTS, STORE, SLOTS, uint8_t kind, uint64_t *number) {
    uint32_t answer = __real_xm_send_request(LENT, kind, number);
    if (broken() == 1) requests[requests_len] ^= 1;                  /* a byte behind a slice */
    if (broken() == 2) requests[-1] ^= 1;                            /* a byte in front of one */
    if (broken() == 3) store[store_len - 1] ^= 1;                    /* a byte lent to be read */
    if (broken() == 4 && answer != 0 && slots_len > 9) slots[9]++;   /* a change by a refusal */
    if (broken() == 5 && answer == XM_SYNC_FIRST) return XM_NO_ROOM; /* a refusal never given */
    if (broken() == 6 && answer == XM_NO_ROOM) return XM_BAD_ROOM;   /* 9 for a sound state */
    if (broken() == 7 && answer == XM_NO_ROOM) return XM_OUT_SHORT;  /* a refusal not listed */
    return answer;
}

uint32_t __real_xm_poll_for_reply(STATE, REQUESTS, STORE, SLOTS, uint64_t number, uint8_t *out,
                                  size_t out_len, uint8_t *result, size_t *size, uint8_t *class);
uint32_t __wrap_xm_poll_for_reply(STATE, REQUESTS, STORE, SLOTS, uint64_t number, uint8_t *out,
                                  size_t out_len, uint8_t *result, size_t *size, uint8_t *class) {
    uint32_t answer = __real_xm_poll_for_reply(LENT, number, out, out_len, result, size, class);
    if (broken() == 8 && answer == XM_BAD_ROOM) return XM_OUT_SHORT;               /* 9 was due */
    if (broken() == 9 && answer == 0 && *size < out_len) out[*size] ^= 1;          /* behind the packet */
    if (broken() == 10 && answer == 0 && *result == 2) state[XM_STATE_WAITING]--;  /* unsound, at times */
    if (broken() == 11 && answer == 0) *result = 0;                                /* outcomes missed */
    if (broken() == 12 && answer != 0) *size = 0;                                  /* a number changed */
    if (broken() == 13 && answer == 0) result[1] = 0;                              /* beside a number */
    if (broken() == 31 && answer == 0 && *result == 1) *class = XM_CLASS_REPLY;    /* a class of no packet */
    if (broken() == 32 && answer == XM_OUT_SHORT) *class = XM_CLASS_REPLY;         /* a class by a refusal */
    return answer;
}

uint32_t __real_xm_connect_advance(uint64_t *row, size_t row_len, const uint8_t *buf,
                                   size_t buf_len, size_t amount, uint8_t *complete);
uint32_t __wrap_xm_connect_advance(uint64_t *row, size_t row_len, const uint8_t *buf,
                                   size_t buf_len, size_t amount, uint8_t *complete) {
    uint32_t answer = __real_xm_connect_advance(row, row_len, buf, buf_len, amount, complete);
    if (broken() == 14 && answer == 0) row[XM_READER_TARGET] |= 1; /* a target that the bytes don't give */
    if (broken() == 15 && answer == XM_OVER_ADVANCE) row[XM_READER_FILLED]++;
    return answer;
}

uint32_t __real_xm_ids_generate_id(uint64_t *ids, size_t ids_len, uint32_t *id);
uint32_t __wrap_xm_ids_generate_id(uint64_t *ids, size_t ids_len, uint32_t *id) {
    uint32_t answer = __real_xm_ids_generate_id(ids, ids_len, id);
    if (broken() == 16 && answer == 0) ids[XM_IDS_NEXT] += ids[XM_IDS_STEP]; /* past the last, at times */
    if (broken() == 17 && answer == 0) ids[ids_len] = 0;
    return answer;
}

uint32_t __real_xm_save(STATE, REQUESTS, STORE, SLOTS, READER, IDS, uint8_t *out, size_t out_len, size_t *length);
uint32_t __wrap_xm_save(STATE, REQUESTS, STORE, SLOTS, READER, IDS, uint8_t *out, size_t out_len, size_t *length) {
    uint32_t answer = __real_xm_save(LENT, reader, reader_len, buf, buf_len, ids, ids_len, out, out_len, length);
    if (broken() == 18 && answer == XM_HAS_DESCRIPTORS && out_len < 116) return XM_OUT_SHORT; /* 8 before 18 */
    if (broken() == 19 && answer == 0) out[28] ^= 1;                          /* another byte */
    if (broken() == 20 && answer == 0) *length -= 1;                          /* another length */
    if (broken() == 21 && answer == 0 && *length < out_len) out[*length] ^= 1; /* behind the output */
    return answer;
}

uint32_t __real_xm_restore(const uint8_t *bytes, size_t bytes_len, STATE, REQUESTS, STORE, SLOTS, READER, IDS);
uint32_t __wrap_xm_restore(const uint8_t *bytes, size_t bytes_len, STATE, REQUESTS, STORE, SLOTS, READER, IDS) {
    uint32_t answer =
        __real_xm_restore(bytes, bytes_len, LENT, reader, reader_len, buf, buf_len, ids, ids_len);
    if (broken() == 22 && answer == XM_BAD_SAVEPOINT && requests_len == 1) return XM_BAD_ROOM; /* 9 before 19 */
    if (broken() == 23 && answer == 0 && reader[XM_READER_FILLED] == 0) buf[0] = 0;    /* an unused byte */
    if (broken() == 24 && answer == 0) requests[state[XM_STATE_WRITTEN] % requests_len] ^= 1; /* another request */
    if (broken() == 25 && answer == 0) state[XM_STATE_EXPECTED] ^= 1;                  /* another number */
    if (broken() == 26 && answer == XM_BAD_ROOM) ids[0] = 7;                           /* a change by a refusal */
    return answer;
}

uint32_t __real_xm_enqueue_packet(STATE, REQUESTS, STORE, SLOTS, const uint8_t *packet, size_t packet_len,
                                  uint8_t *place, uint64_t *number, uint8_t *class);
uint32_t __wrap_xm_enqueue_packet(STATE, REQUESTS, STORE, SLOTS, const uint8_t *packet, size_t packet_len,
                                  uint8_t *place, uint64_t *number, uint8_t *class) {
    uint32_t answer = __real_xm_enqueue_packet(LENT, packet, packet_len, place, number, class);
    if (broken() == 27 && answer == XM_AHEAD && store_len == 48) return XM_NO_ROOM; /* 5 before 20 */
    if (broken() == 28 && answer == XM_FEW_DESCRIPTORS) return XM_AHEAD;            /* 20 for what was asked */
    if (broken() == 33 && answer == 0 && packet[0] == 129) *class = XM_CLASS_REPLY; /* the top bit dropped */
    if (broken() == 34 && answer == 0 && *place == XM_DROPPED) *class = 0;          /* a reply dropped: no class */
    return answer;
}

uint32_t __real_xm_enqueue_packets(STATE, REQUESTS, STORE, SLOTS, const uint8_t *bytes, size_t bytes_len,
                                   size_t *size, size_t *count, uint32_t *stop);
uint32_t __wrap_xm_enqueue_packets(STATE, REQUESTS, STORE, SLOTS, const uint8_t *bytes, size_t bytes_len,
                                   size_t *size, size_t *count, uint32_t *stop) {
    uint32_t answer = __real_xm_enqueue_packets(LENT, bytes, bytes_len, size, count, stop);
    if (answer != 0 || *stop != XM_AHEAD) return answer;
    if (broken() == 29) *stop = XM_NO_ROOM;                                     /* 5 before 20 */
    if (broken() == 30) state[XM_STATE_READ] = state[XM_STATE_WRITTEN] + 1;     /* what is ahead, read */
    return answer;
}

uint32_t __real_xm_reader_advance(uint64_t *row, size_t row_len, const uint8_t *buf, size_t buf_len,
                                  size_t amount, size_t *size, uint8_t *class);
uint32_t __wrap_xm_reader_advance(uint64_t *row, size_t row_len, const uint8_t *buf, size_t buf_len,
                                  size_t amount, size_t *size, uint8_t *class) {
    uint32_t answer = __real_xm_reader_advance(row, row_len, buf, buf_len, amount, size, class);
    if (broken() == 35 && answer == 0 && *size == 0 && buf[0] == 1) *class = XM_CLASS_REPLY; /* too early */
    return answer;
}

uint32_t __real_xm_poll_for_event_with_sequence(STATE, REQUESTS, STORE, SLOTS, uint8_t *out, size_t out_len,
                                                uint8_t *found, uint64_t *number, size_t *size, uint8_t *class);
uint32_t __wrap_xm_poll_for_event_with_sequence(STATE, REQUESTS, STORE, SLOTS, uint8_t *out, size_t out_len,
                                                uint8_t *found, uint64_t *number, size_t *size, uint8_t *class) {
    uint32_t answer = __real_xm_poll_for_event_with_sequence(LENT, out, out_len, found, number, size, class);
    if (broken() == 36 && answer == 0 && *found && out[0] == 0) *class = XM_CLASS_EVENT; /* an error is none */
    return answer;
}

uint32_t __real_xm_poll_for_events(STATE, REQUESTS, STORE, SLOTS, uint8_t *out, size_t out_len, uint64_t *marks,
                                   size_t marks_len, size_t *count, size_t *size, uint32_t *stop);
uint32_t __wrap_xm_poll_for_events(STATE, REQUESTS, STORE, SLOTS, uint8_t *out, size_t out_len, uint64_t *marks,
                                   size_t marks_len, size_t *count, size_t *size, uint32_t *stop) {
    uint32_t answer = __real_xm_poll_for_events(LENT, out, out_len, marks, marks_len, count, size, stop);
    if (answer != 0 || *count < 2) return answer;
    uint64_t *second = marks + XM_MARKS;
    if (broken() == 37 && second[XM_MARK_CLASS] == XM_CLASS_SENT_GENERIC) second[XM_MARK_CLASS]--; /* not sent */
    if (broken() == 38) second[XM_MARK_CLASS] = marks[XM_MARK_CLASS];                       /* the first's class */
    return answer;
}
