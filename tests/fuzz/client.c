/* The calls of a connection, and the two that look into its rooms. */
#include <string.h>

#include "calls.h"
#include "report.h"
#include "source.h"
#include "world.h"

static uint8_t bytes[XM_MOST_PACKET + 1];
static uint32_t list[XM_DESCRIPTORS + 64];

void fresh_client(void) {
    home.state_len = XM_CONNECTION_SLOTS;
    home.slots_len = XM_DESCRIPTORS;
    home.requests_len = 8;
    home.store_len = 500;
    memset(home.requests, 0, home.requests_len);
    memset(home.store, 0, home.store_len);
    memset(home.slots, 0, sizeof home.slots);
    xm_connection_new(home.state, XM_CONNECTION_SLOTS, XM_LITTLE, home.requests, home.requests_len,
                      home.store, home.store_len, home.slots, home.slots_len);
}

/* A number that says something about home: at an edge of it, held, or any. */
static uint64_t some_number(void) {
    const uint64_t *s = home.state;
    size_t at;
    switch (below(6)) {
    case 0: return s[XM_STATE_READ] - below(3) + 1;
    case 1: return s[XM_STATE_FIRST] + below(3);
    case 2: return s[XM_STATE_WRITTEN] + below(3) - 1;
    case 3: return wide();
    default:
        at = some_record();
        return at < s[XM_STATE_END] ? number_at(home.store + at, 8, true) : s[XM_STATE_READ];
    }
}

static const size_t out_sizes[] = {0, 31, 32, 33, 36, 100, 200, 600, 600, 600, 600, 5000};

static uint8_t *lend_out(size_t *size) {
    *size = once(500) ? XM_MOST_PACKET : PICK(out_sizes);
    return lend(OUT, bytes, *size, WRITE);
}

static uint32_t *lend_fds(size_t *count) {
    static const size_t counts[] = {0, 1, 2, 3, 255, 256, 257};
    *count = PICK(counts);
    return lend(FDS, list, 4 * *count, WRITE);
}

void connection_new(void) {
    static const size_t requests[] = {0, 1, 3, 7, 8, 64, 64}, stores[] = {47, 48, 49, 96, 200, 500, 1024, 1024, 2000};
    static const size_t slots[] = {0, 255, 256, 257}, rows[] = {0, 3, 15, 17};
    trial.requests_len = once(200) ? 65536 + below(2) : PICK(requests);
    trial.store_len = once(2000) ? 16777216 + below(2) : once(100) ? 65552 + below(100) : PICK(stores);
    trial.slots_len = once(8) ? PICK(slots) : XM_DESCRIPTORS;
    trial.state_len = once(8) ? PICK(rows) : XM_CONNECTION_SLOTS;
    fill(trial.requests, trial.requests_len);
    fill(trial.store, trial.store_len);
    fill((uint8_t *)trial.slots, 4 * trial.slots_len);
    fill((uint8_t *)trial.state, 8 * trial.state_len);
    lend_world(&trial, W_STATE);
    uint8_t order = (uint8_t)(once(6) ? below(256) : once(2) ? XM_LITTLE : XM_BIG);
    bool sound = client_rooms(&lent);
    settle(xm_connection_new(LENT_STATE, order, LENT_REQUESTS, LENT_STORE, LENT_SLOTS), sound);
}

void send_request(void) {
    bool sound = lend_some(W_STATE | W_REQUESTS);
    uint8_t kind = (uint8_t)(once(16) ? below(256) : below(3));
    uint64_t *number = lend_number(8);
    settle(xm_send_request(LENT, kind, number), sound && kind <= XM_REPLY_WITH_FDS);
}

void discard_reply(void) {
    bool sound = lend_some(W_STATE | W_REQUESTS | W_STORE | W_SLOTS);
    uint8_t mode = (uint8_t)(once(16) ? below(256) : 1 + below(2));
    uint64_t number = some_number();
    bool a_mode = mode == XM_DISCARD_REPLY || mode == XM_DISCARD_REPLY_AND_ERROR;
    settle(xm_discard_reply(LENT, number, mode), sound && a_mode);
}

void enqueue_fds(void) {
    bool sound = lend_some(W_STATE | W_SLOTS);
    size_t count = once(20) ? below(XM_DESCRIPTORS + 64) : below(5);
    for (size_t i = 0; i < count; i++) list[i] = (uint32_t)below(UINT32_MAX);
    uint32_t *given = lend(INPUT, list, 4 * count, READ);
    settle(xm_enqueue_fds(LENT, given, count), sound);
}

/* A packet: mostly one that a server could send to home. Its length. */
static size_t some_packet(void) {
    static const size_t sizes[] = {0, 1, 31, 33, 36, 64, 100, 400};
    static const uint8_t codes[] = {0, 0, 1, 1, 1, 1, 2, 11, 28, 35, 128, 129, 163};
    const uint64_t *s = home.state;
    size_t size = once(home.store_len > 65536 ? 8 : 1000) ? 65536 + below(2) : once(4) ? PICK(sizes) : 32;
    fill(bytes, size);
    if (size < 4) return size;
    uint64_t ahead = s[XM_STATE_WRITTEN] - s[XM_STATE_READ];
    uint64_t number = s[XM_STATE_READ] + (once(8) ? wide() : below(ahead < 5 ? ahead + 1 : 5));
    bool little = s[XM_STATE_ORDER] == XM_LITTLE;
    bytes[0] = once(6) ? (uint8_t)below(256) : PICK(codes);
    bytes[1] = (uint8_t)(once(6) ? below(256) : below(3));
    bytes[2] = (uint8_t)(little ? number : number >> 8);
    bytes[3] = (uint8_t)(little ? number >> 8 : number);
    return size;
}

void enqueue_packet(void) {
    bool sound = lend_some(W_STATE | W_STORE | W_SLOTS);
    size_t size = some_packet();
    uint8_t *packet = lend(INPUT, bytes, size, READ), *place = lend_number(1), *class = lend_number(1);
    uint64_t *number = lend_number(8);
    bool ahead = sound && size >= 32 && size <= XM_MOST_PACKET && packet_ahead(lent.state, packet);
    uint32_t answer = xm_enqueue_packet(LENT, packet, size, place, number, class);
    settle(answer, sound);
    if ((answer == XM_AHEAD) != ahead) report_fault("refused by 20 elsewhere than ahead");
    report_outcome(answer, *place);
    report_class(answer, *class, packet);
}

void poll_for_reply_or_error(void) {
    bool sound = lend_some(W_STATE | W_STORE | W_SLOTS);
    size_t out_len, fds_len, *size = lend_number(sizeof *size), *count = lend_number(sizeof *count);
    uint8_t *out = lend_out(&out_len), *found = lend_number(1), *class = lend_number(1);
    uint32_t *fds = lend_fds(&fds_len), answer;
    answer = xm_poll_for_reply_or_error(LENT, some_number(), out, out_len, fds, fds_len, found, size, count, class);
    lent_limit(OUT, *size);
    lent_limit(FDS, 4 * *count);
    settle(answer, sound);
    report_outcome(answer, *found);
    report_class(answer, *class, *found ? out : NULL);
}

void prepare_check(void) {
    bool sound = lend_some(0);
    uint8_t *sync = lend_number(1);
    uint32_t answer = xm_prepare_check_for_reply_or_error(LENT, some_number(), sync);
    settle(answer, sound);
    report_outcome(answer, *sync);
}

typedef enum xm_refusal poll(uint64_t *, size_t, const uint8_t *, size_t, uint8_t *, size_t, uint32_t *, size_t,
                             uint64_t, uint8_t *, size_t, uint8_t *, size_t *, uint8_t *);

static void poll_by(poll *call) {
    bool sound = lend_some(W_STATE | W_STORE | W_SLOTS);
    size_t out_len, *size = lend_number(sizeof *size);
    uint8_t *out = lend_out(&out_len), *result = lend_number(1), *class = lend_number(1);
    uint32_t answer = call(LENT, some_number(), out, out_len, result, size, class);
    lent_limit(OUT, *size);
    settle(answer, sound);
    report_outcome(answer, *result);
    report_class(answer, *class, *result == XM_REPLY ? out : NULL);
}

void poll_check(void) {
    poll_by(xm_poll_check_for_reply_or_error);
}

void poll_for_reply(void) {
    poll_by(xm_poll_for_reply);
}

void poll_for_event(void) {
    bool sound = lend_some(W_STATE | W_STORE);
    size_t out_len, *size = lend_number(sizeof *size);
    uint8_t *out = lend_out(&out_len), *found = lend_number(1), *class = lend_number(1);
    uint64_t *number = lend_number(8);
    uint32_t answer = xm_poll_for_event_with_sequence(LENT, out, out_len, found, number, size, class);
    lent_limit(OUT, *size);
    settle(answer, sound);
    report_outcome(answer, *found);
    report_class(answer, *class, *found ? out : NULL);
}

void take_closed_fds(void) {
    bool sound = lend_some(W_STATE | W_SLOTS);
    size_t fds_len, *count = lend_number(sizeof *count);
    uint32_t *fds = lend_fds(&fds_len);
    uint32_t answer = xm_take_closed_fds(LENT, fds, fds_len, count);
    lent_limit(FDS, 4 * *count);
    settle(answer, sound);
    report_outcome(answer, *count > 0);
}

void request_at(void) {
    lend_some(0);
    uint8_t *descriptors = lend_number(1), *mode = lend_number(1);
    bool room = lent.requests_len >= 1 && lent.requests_len <= XM_MOST_REQUESTS;
    uint32_t answer = xm_request_at(LENT_REQUESTS, some_number(), descriptors, mode);
    report_answer(answer, room);
    report_outcome(answer, *mode);
}

void record_at(void) {
    lend_some(0);
    uint64_t *number = lend_number(8), end = once(3) ? wide() : home.state[XM_STATE_END];
    size_t at = once(3) ? wide() : some_record(), *size = lend_number(sizeof *size);
    uint8_t *kind = lend_number(1), *count = lend_number(1);
    bool stands = record_stands(lent.store, lent.store_len, at, end);
    uint32_t answer = xm_record_at(LENT_STORE, at, end, kind, number, size, count);
    report_answer(answer, stands);
    report_outcome(answer, *kind);
}
