#include "world.h"

#include <string.h>

#include "report.h"
#include "sound.h"
#include "source.h"

struct world home, trial;
struct client lent;

static void copy(struct world *to, const struct client *from) {
    memcpy(to->state, from->state, 8 * from->state_len);
    memcpy(to->requests, from->requests, from->requests_len);
    memcpy(to->store, from->store, from->store_len);
    memcpy(to->slots, from->slots, 4 * from->slots_len);
    to->state_len = from->state_len;
    to->requests_len = from->requests_len;
    to->store_len = from->store_len;
    to->slots_len = from->slots_len;
}

static struct client seen(const struct world *w) {
    return (struct client){w->state, w->state_len, w->requests, w->requests_len,
                           w->store, w->store_len, w->slots, w->slots_len};
}

/* ---- spoiling a trial ---- */

/* Where a record has the length of its packet, a number of four bytes, and the count of its
 * descriptors. */
enum { LENGTH_AT = 8, LENGTH_BYTES = 4, COUNT_AT = 12 };

/* The length of the packet of a record at home. */
static uint64_t record_length(size_t at) {
    return number_at(home.store + at + LENGTH_AT, LENGTH_BYTES, true);
}

size_t some_record(void) {
    size_t at = home.state[XM_STATE_START], end = home.state[XM_STATE_END];
    for (uint64_t skip = below(8); skip > 0 && at < end; skip--) {
        size_t next = at + XM_RECORD_HEADER + record_length(at);
        if (next >= end) break;
        at = next;
    }
    return at;
}

static void spoil_slot(void) {
    uint64_t *slot = &trial.state[below(XM_CONNECTION_SLOTS)], *other = &trial.state[below(XM_CONNECTION_SLOTS)];
    uint64_t was = *slot;
    switch (below(6)) {
    case 0: *slot = wide(); break;
    case 1: *slot += 1; break;
    case 2: *slot -= 1; break;
    case 3: *slot = *other; break;
    case 4: trial.state[XM_STATE_ORDER] = below(256); break;
    default: *slot = *other; *other = was;
    }
}

/* A room of another length: what is new in it is 0. */
static void resize(uint8_t *room, size_t *length, size_t to) {
    if (to > *length) memset(room + *length, 0, to - *length);
    *length = to;
}

static size_t another(size_t length) {
    switch (below(4)) {
    case 0: return 0;
    case 1: return below(length + 1);
    case 2: return length + 1;
    default: return length - (length > 0);
    }
}

/* A length other than that of the start. */
static void spoil_length(void) {
    switch (below(4)) {
    case 0: trial.state_len = another(XM_CONNECTION_SLOTS); break;
    case 1: trial.slots_len = another(XM_DESCRIPTORS); break;
    case 2: resize(trial.requests, &trial.requests_len, another(home.requests_len)); break;
    default: resize(trial.store, &trial.store_len, another(home.store_len));
    }
}

/* A length that the state tells too, in range or out of it. */
static void spoil_both(void) {
    if (once(2)) {
        resize(trial.requests, &trial.requests_len, once(400) ? 65536 + below(2) : below(80));
        trial.state[XM_STATE_REQUESTS] = trial.requests_len;
    } else {
        resize(trial.store, &trial.store_len, once(20000) ? 16777216 + below(2) : 40 + below(600));
        trial.state[XM_STATE_STORE] = trial.store_len;
    }
}

static void spoil_byte(uint8_t *byte) {
    switch (below(4)) {
    case 0: *byte += 1; break;
    case 1: *byte -= 1; break;
    case 2: *byte ^= (uint8_t)(1u << below(8)); break;
    default: *byte = (uint8_t)below(256);
    }
}

static void spoil_request(void) {
    uint64_t n = once(2) ? home.state[XM_STATE_FIRST] + below(4) : wide();
    trial.requests[n % home.requests_len] = (uint8_t)(once(2) ? below(8) : below(256));
}

static void spoil_record(void) {
    size_t at = some_record() + below(XM_RECORD_HEADER);
    if (at < trial.store_len) spoil_byte(&trial.store[at]);
}

/* The last record a byte longer or shorter, and the window with it: sound, but at the edges. */
static void stretch(void) {
    uint64_t at = home.state[XM_STATE_START], end = home.state[XM_STATE_END], last = at;
    for (; at < end; at += XM_RECORD_HEADER + record_length(at)) last = at;
    if (at == last) return;
    uint64_t longer = once(2) ? 1 : UINT64_MAX, length = record_length(last) + longer;
    for (int i = 0; i < LENGTH_BYTES; i++) trial.store[last + LENGTH_AT + i] = (uint8_t)(length >> 8 * i);
    trial.state[XM_STATE_END] += longer;
}

/* Numbers far from home, but such as a long run could lead to. */
static void jump(void) {
    uint64_t written = once(3) ? INT64_MAX - below(3) : wide() >> 1;
    uint64_t run = below(once(100) ? trial.requests_len + 2 : 4);
    trial.state[XM_STATE_WRITTEN] = written;
    trial.state[XM_STATE_FIRST] = written + 1 - (run > written ? 0 : run);
    trial.state[XM_STATE_EXPECTED] = once(2) ? written - 65536 + below(6) : wide() >> 1;
    trial.state[XM_STATE_READ] = once(2) ? written - below(3) : wide() >> 1;
    memset(trial.requests, (int)below(7), trial.requests_len);
}

/* All places for descriptors taken, or one more. */
static void crowd(void) {
    uint64_t *s = trial.state, taken = s[XM_STATE_CLOSED] + s[XM_STATE_HELD];
    s[XM_STATE_WAITING] = XM_DESCRIPTORS - taken + below(3) - 1;
}

static void spoil(void) {
    switch (below(10)) {
    case 0:
    case 1: spoil_slot(); break;
    case 2: spoil_length(); break;
    case 3: spoil_both(); break;
    case 4: spoil_request(); break;
    case 5: spoil_record(); break;
    case 6: spoil_byte(&trial.store[below(home.store_len)]); break;
    case 7: once(3) ? jump() : spoil_slot(); break;
    case 8: stretch(); break;
    default: once(8) ? crowd() : (void)(trial.slots[below(XM_DESCRIPTORS)] = (uint32_t)wide());
    }
}

/* ---- lending a world, and taking it home ---- */

static void *part(enum place place, const void *from, size_t bytes, unsigned writes) {
    return lend(place, from, bytes, writes >> place & 1 ? WRITE : READ);
}

void lend_world(const struct world *w, unsigned writes) {
    lent = seen(w);
    lent.state = part(STATE, w->state, 8 * w->state_len, writes);
    lent.requests = part(REQUESTS, w->requests, w->requests_len, writes);
    lent.store = part(STORE, w->store, w->store_len, writes);
    lent.slots = part(SLOTS, w->slots, 4 * w->slots_len, writes);
}

bool lend_some(unsigned writes) {
    if (!once(3)) {
        lend_world(&home, writes);
        return client_sound(&lent);
    }
    struct client whole = seen(&home);
    copy(&trial, &whole);
    spoil();
    if (once(4)) spoil();
    lend_world(&trial, writes);
    return client_sound(&lent);
}

bool lend_bare(unsigned writes) {
    struct client whole = seen(&home);
    copy(&trial, &whole);
    for (int i = XM_STATE_CLOSED; i <= XM_STATE_WAITING; i++) trial.state[i] = 0;
    uint64_t at = home.state[XM_STATE_START], end = home.state[XM_STATE_END];
    for (; at < end; at += XM_RECORD_HEADER + record_length(at)) trial.store[at + COUNT_AT] = 0;
    if (once(3)) spoil();
    lend_world(&trial, writes);
    return client_sound(&lent);
}

void settle(uint32_t answer, bool sound) {
    report_answer(answer, sound);
    if (answer != XM_DONE) return;
    if (!client_sound(&lent)) report_fault("the state that is left is not sound");
    go_home();
}

void go_home(void) {
    copy(&home, &lent);
}
