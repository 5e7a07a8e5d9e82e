/*
 * The same calls and the same checks with libFuzzer in the seed's place: the input's bytes are the
 * choices. `make fuzz` builds and runs it.
 */
#include "calls.h"
#include "source.h"

enum { MOST_CALLS = 400 };

int LLVMFuzzerTestOneInput(const uint8_t *bytes, size_t size);

int LLVMFuzzerTestOneInput(const uint8_t *bytes, size_t size) {
    if (size == 0) return 0;
    source_bytes(bytes, size);
    fresh();
    for (int i = 0; i < MOST_CALLS && !source_ended(); i++) some_call();
    return 0;
}
