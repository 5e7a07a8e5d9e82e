/* The calls that make many steps. */
#include "calls.h"
#include "report.h"
#include "source.h"
#include "world.h"

enum { MOST_BYTES = 2048, MOST_MARKS = 64 };

static uint8_t bytes[MOST_BYTES];
static uint64_t marks[MOST_MARKS];

/* The end, something of the call's own, or the refusal of a step. */
static unsigned outcome(uint32_t stop, uint32_t own) {
    return stop == XM_STOP_END ? 0 : stop == own ? 1 : 2;
}

void send_requests(void) {
    bool sound = lend_some(W_STATE | W_REQUESTS);
    size_t size = below(20), *count = lend_number(sizeof *count);
    for (size_t i = 0; i < size; i++) bytes[i] = (uint8_t)(once(40) ? below(256) : below(3));
    uint8_t *kinds = lend(INPUT, bytes, size, READ);
    uint64_t *number = lend_number(8);
    uint32_t *stop = lend_number(4), answer = xm_send_requests(LENT, kinds, size, count, number, stop);
    settle(answer, sound);
    report_outcome(answer, outcome(*stop, XM_STOP_NO_KIND));
    if (answer == 0 && *count > size) report_fault("more requests were sent than there are kinds");
}

/* A packet behind those that are there, mostly one that a server could send to home. Its length. */
static size_t some_packet(uint8_t *at) {
    static const uint8_t codes[] = {0, 1, 1, 1, 2, 11, 28, 35, 129, 163};
    const uint64_t *s = home.state;
    bool little = s[XM_STATE_ORDER] == XM_LITTLE;
    uint64_t ahead = s[XM_STATE_WRITTEN] - s[XM_STATE_READ];
    uint64_t number = s[XM_STATE_READ] + (once(12) ? wide() : below(ahead < 5 ? ahead + 1 : 5));
    size_t units = below(4);
    uint64_t length = once(30) ? below(UINT32_MAX) : units;
    fill(at, 32 + 4 * units);
    at[0] = PICK(codes);
    at[1] = (uint8_t)(once(6) ? below(256) : below(3));
    for (unsigned i = 0; i < 2; i++) at[2 + i] = (uint8_t)(number >> 8 * (little ? i : 1 - i));
    for (unsigned i = 0; i < 4; i++) at[4 + i] = (uint8_t)(length >> 8 * (little ? i : 3 - i));
    return at[0] == 1 || (at[0] & 0x7f) == 35 ? 32 + 4 * units : 32;
}

/* Behind this last read a run took in nothing that is ahead, and stopped by 20 where the next packet is. */
static void look_ahead(uint64_t read, const uint8_t *next, uint32_t stop) {
    const uint64_t *s = lent.state;
    if (s[XM_STATE_READ] != read && s[XM_STATE_READ] > s[XM_STATE_WRITTEN]) report_fault("what is ahead was taken in");
    if (stop != XM_AHEAD && stop != XM_FEW_DESCRIPTORS && stop != XM_NO_ROOM) return;
    if ((stop == XM_AHEAD) != packet_ahead(s, next)) report_fault("stopped by 20 elsewhere than ahead");
}

void enqueue_packets(void) {
    bool sound = lend_some(W_STATE | W_STORE | W_SLOTS);
    uint64_t read = sound ? lent.state[XM_STATE_READ] : 0;
    size_t packets = below(8), size = 0, *took = lend_number(sizeof *took), *count = lend_number(sizeof *count);
    for (size_t i = 0; i < packets; i++) size += some_packet(bytes + size);
    if (once(3)) size -= below(size < 40 ? size + 1 : 40);
    uint8_t *run = lend(INPUT, bytes, size, READ);
    uint32_t *stop = lend_number(4), answer = xm_enqueue_packets(LENT, run, size, took, count, stop);
    settle(answer, sound);
    report_outcome(answer, outcome(*stop, XM_STOP_PART));
    if (answer == 0 && (*took > size || *took < 32 * *count)) report_fault("other bytes were taken than packets");
    if (answer == 0) look_ahead(read, run + *took, *stop);
}

/* The marks tell the class of each of so many packets, which stand one behind the other. */
static void look_at_classes(const uint8_t *packet, const uint64_t *mark, size_t count) {
    for (; count > 0; count--, mark += XM_MARKS) {
        report_class(XM_DONE, mark[XM_MARK_CLASS], packet);
        packet += mark[XM_MARK_LENGTH];
    }
}

void poll_for_events(void) {
    static const size_t sizes[] = {0, 31, 32, 64, 100, 300, 600, 2000}, rows[] = {0, 2, 3, 4, 5, 6, 24, MOST_MARKS};
    bool sound = lend_some(W_STATE | W_STORE);
    size_t out_len = PICK(sizes), marks_len = PICK(rows);
    size_t *count = lend_number(sizeof *count), *size = lend_number(sizeof *size);
    uint8_t *out = lend(OUT, bytes, out_len, WRITE);
    uint64_t *numbers = lend(SECOND, marks, 8 * marks_len, WRITE);
    uint32_t *stop = lend_number(4);
    uint32_t answer = xm_poll_for_events(LENT, out, out_len, numbers, marks_len, count, size, stop);
    lent_limit(OUT, *size);
    lent_limit(SECOND, 8 * XM_MARKS * *count);
    settle(answer, sound);
    report_outcome(answer, *stop == XM_STOP_END ? *count > 0 : 2);
    if (answer == 0) look_at_classes(out, numbers, *count);
}
