/*
 * Savepoints in plain C: docs/SAVEPOINT.md, written from that page, not from the engine.
 */
#ifndef SAVED_H
#define SAVED_H

#include "sound.h"

/* A client, all that a savepoint is made of. Its rows and rooms are sound. */
struct saved {
    struct client connection;
    const uint64_t *reader, *ids;
    const uint8_t *buf;
    size_t buf_len;
};

/* How many bytes its savepoint has, and those bytes. */
size_t saved_size(const struct saved *s);
void saved_write(const struct saved *s, uint8_t *out);

/* Whether these bytes are a savepoint; if so, the lengths of its rooms: K, S and P. */
bool saved_reads(const uint8_t *bytes, size_t size, uint64_t rooms[3]);

#endif
