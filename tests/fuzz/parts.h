/* What a savepoint has beside a connection: the reader and the allocator that accepted calls lead on. */
#ifndef PARTS_H
#define PARTS_H

#include <stddef.h>
#include <stdint.h>

/* A row of numbers, and the buffer beside it where there is one. */
struct part {
    uint64_t *row;
    size_t row_len;
    uint8_t *buf;
    size_t buf_len;
};

/* Lends one to be read, at times with a fault. */
struct part lend_reader(void), lend_ids(void);

/* A sound one, to go on with. */
void reader_home(const struct part *p), ids_home(const struct part *p);

#endif
