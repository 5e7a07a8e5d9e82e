/*
 * Memory that is lent to a call. Each slice is a copy in a place of its own: at one end a page that
 * nobody may touch, at the other guard bytes, in turns. The original stays as it is, so that what
 * the call has changed is seen by comparing.
 */
#ifndef LENT_H
#define LENT_H

#include <stdbool.h>
#include <stddef.h>
#include <stdint.h>

enum place { STATE, REQUESTS, STORE, SLOTS, INPUT, SECOND, OUT, FDS, READER, BUFFER, IDS, PLACES };

/* The most bytes of a slice, and of a savepoint that is lent. */
enum { MOST_LENT = 16777217, MOST_SAVED = 1 << 20 };

/* What a call may do with a slice. */
enum access { READ, WRITE };

/* Forgets what was lent to the last call. */
void lend_nothing(void);

void *lend(enum place place, const void *from, size_t bytes, enum access access);

/* A number behind a pointer, of so many bytes: the first, the second .. of a call. */
void *lend_number(size_t bytes);

/* An accepted call may have written so many bytes at the start of a slice, no more. */
void lent_limit(enum place place, size_t bytes);

/* The lent bytes, as the call left them. */
const void *lent_now(enum place place);

/* What is wrong after the call, or NULL: a byte outside, a byte that was lent to be read, or after a
 * refusal any byte. */
const char *lent_fault(bool refused);

#endif
