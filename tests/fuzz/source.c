#include "source.h"

#include <string.h>

static uint64_t seeded;
static const uint8_t *next, *end;

void source_seed(uint64_t seed) {
    seeded = seed;
    next = end = NULL;
}

void source_bytes(const uint8_t *bytes, size_t size) {
    next = bytes;
    end = bytes + size;
}

bool source_ended(void) {
    return next != NULL && next == end;
}

/* SplitMix64 */
static uint64_t generate(void) {
    uint64_t z = seeded += 0x9e3779b97f4a7c15;
    z = (z ^ (z >> 30)) * 0xbf58476d1ce4e5b9;
    z = (z ^ (z >> 27)) * 0x94d049bb133111eb;
    return z ^ (z >> 31);
}

static uint64_t draw(size_t width) {
    if (next == NULL) return generate();
    uint64_t value = 0;
    for (; width > 0 && next < end; width--) value = value << 8 | *next++;
    return value;
}

uint64_t below(uint64_t n) {
    return draw(n <= 256 ? 1 : n <= 65536 ? 2 : 8) % n;
}

bool once(uint64_t n) {
    return below(n) == n - 1;
}

static const uint64_t edges[] = {
    0,     1,     2,        8,        31,       32,           48,           256,
    65534, 65535, 65536,    65537,    131071,   16777216,     16777217,     262148,
    1u << 31, UINT32_MAX, 1ull << 32, 1ull << 62, INT64_MAX - 1, INT64_MAX, 1ull << 63, UINT64_MAX,
};

uint64_t wide(void) {
    switch (below(4)) {
    case 0: return below(70);
    case 1: return PICK(edges) + below(5) - 2;
    case 2: return (1ull << below(64)) + below(3) - 1;
    default: return draw(8);
    }
}

void fill(uint8_t *bytes, size_t size) {
    size_t each = size < 64 ? size : 64;
    for (size_t i = 0; i < each; i++) bytes[i] = (uint8_t)below(256);
    if (each < size) memset(bytes + each, (int)below(256), size - each);
}
