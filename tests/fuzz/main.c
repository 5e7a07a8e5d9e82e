/*
 * fuzz SEED COUNT: so many seeded calls of all exports, with states, rooms and inputs of every kind,
 * sound and spoilt. After each call all lent memory is looked over, and refusals 9 and 20 must have come
 * exactly where sound.c says so; at the end every export must have met each refusal that the header lists.
 */
#include <stdio.h>
#include <stdlib.h>

#include "calls.h"
#include "report.h"
#include "source.h"

int main(int argc, char **argv) {
    if (argc != 3) {
        puts("fuzz SEED COUNT");
        return 2;
    }
    uint64_t seed = strtoull(argv[1], NULL, 10), count = strtoull(argv[2], NULL, 10);
    printf("fuzz: seed %llu, %llu calls\n", (unsigned long long)seed, (unsigned long long)count);
    fflush(stdout);
    report_watch();
    source_seed(seed);
    fresh();
    for (uint64_t i = 0; i < count; i++) some_call();
    if (!report_all()) {
        puts("fuzz: FAILED, an export did not meet all that it should");
        return 1;
    }
    printf("fuzz: seed %llu, %llu calls of %u exports, each of their refusals met, no fault\n",
           (unsigned long long)seed, (unsigned long long)count, exports_count);
    return 0;
}
