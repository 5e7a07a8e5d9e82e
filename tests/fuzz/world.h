/* A connection that accepted calls lead on, and spoilt copies of it. */
#ifndef WORLD_H
#define WORLD_H

#include "lent.h"
#include "sound.h"
#include "xiengmado.h"

/* A state and its rooms, with a place more than the longest may have. */
struct world {
    uint64_t state[XM_CONNECTION_SLOTS + 1];
    uint8_t requests[XM_MOST_REQUESTS + 1], store[XM_MOST_STORE + 1];
    uint32_t slots[XM_DESCRIPTORS + 1];
    size_t state_len, requests_len, store_len, slots_len;
};

/* Home is sound; a trial is a copy of it with a fault or two. */
extern struct world home, trial;

/* What is lent to the call that runs. */
extern struct client lent;

/* What a call may write: a bit for each place. */
enum { W_STATE = 1 << STATE, W_REQUESTS = 1 << REQUESTS, W_STORE = 1 << STORE, W_SLOTS = 1 << SLOTS };

void lend_world(const struct world *w, unsigned writes);

/* Lends home, or once in three a trial; whether it is sound. */
bool lend_some(unsigned writes);

/* The same without descriptors, but for a fault that is one. */
bool lend_bare(unsigned writes);

/* The answer of a call. The state that an accepted one leaves must be sound, and becomes home. */
void settle(uint32_t answer, bool sound);

/* The lent world, which is sound, becomes home. */
void go_home(void);

/* Where one of home's records begins; the end of the window where none is held. */
size_t some_record(void);

/* The lent world as arguments of a call. */
#define LENT_STATE (uint64_t *)lent.state, lent.state_len
#define LENT_REQUESTS (uint8_t *)lent.requests, lent.requests_len
#define LENT_STORE (uint8_t *)lent.store, lent.store_len
#define LENT_SLOTS (uint32_t *)lent.slots, lent.slots_len
#define LENT LENT_STATE, LENT_REQUESTS, LENT_STORE, LENT_SLOTS

#endif
