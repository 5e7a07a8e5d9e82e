/* What the calls of a run met, and what they must have met. */
#ifndef REPORT_H
#define REPORT_H

#include <stdbool.h>
#include <stdint.h>

/* Which calls a state or a room of any length is lent to: there soundness decides about refusal 9. */
enum lending { PLAIN, TESTED };

struct export {
    const char *name;
    void (*call)(void);  /* one call with chances of every kind */
    unsigned weight;     /* how often it is called */
    enum lending lending;
    uint32_t refusals;   /* those that the header lists, a bit each */
    unsigned outcomes;   /* how many different ones an accepted call can have, where they are told apart */
    unsigned classes;    /* those of packets that it must have told, a bit each */
};

extern const struct export exports[];
extern const unsigned exports_count;

/* From now on a touch of a forbidden page is a fault. */
void report_watch(void);

/* The call that runs now. */
void report_begin(unsigned export);

/* Its answer; sound says that refusal 9 was not due. Also looks over all lent memory. */
void report_answer(uint32_t answer, bool sound);

/* The outcome of an accepted call: a number from 0. */
void report_outcome(uint32_t answer, unsigned outcome);

/* The class that an accepted call told of a packet, which is NULL where there is none. */
void report_class(uint32_t answer, uint64_t told, const uint8_t *packet);

/* Ends the run: a fault that a call has seen. */
void report_fault(const char *what);

/* Prints what every export met; false where one missed a refusal, an outcome, a class, or a sound or an
 * unsound state. */
bool report_all(void);

#endif
