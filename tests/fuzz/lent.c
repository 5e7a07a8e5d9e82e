#define _DEFAULT_SOURCE
#include "lent.h"

#include <stdio.h>
#include <stdlib.h>
#include <string.h>
#include <sys/mman.h>

enum { PAGE = 4096, GUARD = 64, GUARD_BYTE = 0xa5, NUMBERS = 8, CELL = 32, CELL_BYTE = 0x5a };

struct slice {
    uint8_t *arena; /* size bytes that may be touched, with a forbidden page on either side */
    size_t size;
    uint8_t *at;
    size_t bytes, limit;
    const void *from;
    enum access access;
    bool high;
};

static const size_t most[PLACES] = {
    [STATE] = 1024, [REQUESTS] = 65537, [STORE] = MOST_LENT, [SLOTS] = 2048,
    [INPUT] = MOST_SAVED + 64, [SECOND] = 65537, [OUT] = MOST_SAVED + 64, [FDS] = 65540,
    [READER] = 64, [BUFFER] = 65537, [IDS] = 64,
};
static struct slice slices[PLACES];
static uint8_t cells[NUMBERS * CELL];
static size_t widths[NUMBERS], numbers;
static bool high;

static void reserve(struct slice *s, size_t bytes) {
    s->size = (bytes + GUARD + PAGE - 1) / PAGE * PAGE;
    uint8_t *all = mmap(NULL, s->size + 2 * PAGE, PROT_NONE, MAP_PRIVATE | MAP_ANONYMOUS, -1, 0);
    if (all == MAP_FAILED || mprotect(all + PAGE, s->size, PROT_READ | PROT_WRITE) != 0) {
        puts("fuzz: no memory");
        exit(1);
    }
    s->arena = all + PAGE;
}

void lend_nothing(void) {
    for (int i = 0; i < PLACES; i++) slices[i].at = NULL;
    memset(cells, CELL_BYTE, sizeof cells);
    numbers = 0;
    high = !high;
}

void *lend(enum place place, const void *from, size_t bytes, enum access access) {
    struct slice *s = &slices[place];
    if (s->arena == NULL) reserve(s, most[place]);
    s->at = high ? s->arena + s->size - bytes : s->arena;
    s->bytes = s->limit = bytes;
    s->from = from;
    s->access = access;
    s->high = high;
    memset(high ? s->at - GUARD : s->at + bytes, GUARD_BYTE, GUARD);
    memcpy(s->at, from, bytes);
    return s->at;
}

void *lend_number(size_t bytes) {
    widths[numbers] = bytes;
    return cells + CELL * numbers++ + CELL / 2;
}

void lent_limit(enum place place, size_t bytes) {
    slices[place].limit = bytes;
}

const void *lent_now(enum place place) {
    return slices[place].at;
}

static bool all_are(const uint8_t *bytes, size_t size, uint8_t value) {
    for (size_t i = 0; i < size; i++) {
        if (bytes[i] != value) return false;
    }
    return true;
}

static const char *slice_fault(const struct slice *s, bool refused) {
    const uint8_t *guard = s->high ? s->at - GUARD : s->at + s->bytes, *from = s->from;
    if (!all_are(guard, GUARD, GUARD_BYTE)) return "a byte outside a lent slice is changed";
    if (refused || s->access == READ) {
        if (memcmp(s->at, from, s->bytes) == 0) return NULL;
        return refused ? "a refusal changed a lent slice" : "a slice lent to be read is changed";
    }
    if (s->limit > s->bytes) return "more bytes are said to be written than were lent";
    if (memcmp(s->at + s->limit, from + s->limit, s->bytes - s->limit) == 0) return NULL;
    return "bytes behind the output are changed";
}

static const char *numbers_fault(bool refused) {
    for (size_t i = 0; i < NUMBERS; i++) {
        const uint8_t *cell = cells + CELL * i;
        size_t width = refused || i >= numbers ? 0 : widths[i], rest = CELL / 2 + width;
        if (!all_are(cell, CELL / 2, CELL_BYTE) || !all_are(cell + rest, CELL - rest, CELL_BYTE)) {
            return refused ? "a refusal changed a number" : "a byte beside a number is changed";
        }
    }
    return NULL;
}

const char *lent_fault(bool refused) {
    for (int i = 0; i < PLACES; i++) {
        const char *fault = slices[i].at == NULL ? NULL : slice_fault(&slices[i], refused);
        if (fault != NULL) return fault;
    }
    return numbers_fault(refused);
}
