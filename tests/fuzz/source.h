/* Where every choice of a run comes from: a seeded generator, or the bytes that a fuzzer gives. */
#ifndef SOURCE_H
#define SOURCE_H

#include <stdbool.h>
#include <stddef.h>
#include <stdint.h>

void source_seed(uint64_t seed);
void source_bytes(const uint8_t *bytes, size_t size);

/* Whether the given bytes are used up; never for a seed. */
bool source_ended(void);

/* A number below n, which is not 0. */
uint64_t below(uint64_t n);

/* True once in n. */
bool once(uint64_t n);

/* A number of any size, often near an edge that the rules name. */
uint64_t wide(void);

/* Fills bytes: the first 64 each by itself, the others with one byte. */
void fill(uint8_t *bytes, size_t size);

#define PICK(list) ((list)[below(sizeof(list) / sizeof *(list))])

#endif
