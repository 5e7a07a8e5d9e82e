#include "report.h"

#include <signal.h>
#include <stdio.h>
#include <stdlib.h>

#include "lent.h"
#include "sound.h"

enum { EXPORTS = 45, ANSWERS = 21, OUTCOMES = 4, CLASSES = 6, BAD_ROOM = 9 };

static struct met {
    uint64_t answers[ANSWERS], outcomes[OUTCOMES], classes[CLASSES], sound, unsound;
} met[EXPORTS];

static unsigned now;
static uint64_t calls;

#ifdef LIBFUZZER
/* What is new to these is new to libFuzzer, which cannot see into the library. */
__attribute__((section("__libfuzzer_extra_counters"))) static uint8_t seen[EXPORTS][ANSWERS + OUTCOMES + CLASSES][2];
#endif

void report_begin(unsigned export) {
    now = export;
    calls++;
    lend_nothing();
}

void report_fault(const char *what) {
    printf("fuzz: FAULT in call %llu, %s: %s\n", (unsigned long long)calls, exports[now].name, what);
    fflush(stdout);
#ifdef LIBFUZZER
    abort();
#endif
    _Exit(1);
}

static void touched(int number) {
    (void)number;
    report_fault("memory that was not lent is touched");
}

void report_watch(void) {
    signal(SIGSEGV, touched);
}

void report_answer(uint32_t answer, bool sound) {
    const struct export *e = &exports[now];
    if (answer >= ANSWERS || (answer != 0 && (e->refusals >> answer & 1) == 0)) {
        report_fault("a refusal that the header does not list");
    }
    if (e->lending == TESTED && answer == BAD_ROOM && sound) report_fault("refused by 9, but sound");
    if (e->lending == TESTED && answer != BAD_ROOM && !sound) report_fault("unsound, but not refused by 9");
    const char *fault = lent_fault(answer != 0);
    if (fault != NULL) report_fault(fault);
    met[now].answers[answer]++;
    *(sound ? &met[now].sound : &met[now].unsound) += 1;
#ifdef LIBFUZZER
    seen[now][answer][sound] = 1;
#endif
}

void report_outcome(uint32_t answer, unsigned outcome) {
    if (answer != 0) return;
    if (outcome >= exports[now].outcomes) report_fault("an outcome that there is not");
    met[now].outcomes[outcome]++;
#ifdef LIBFUZZER
    seen[now][ANSWERS + outcome][0] = 1;
#endif
}

void report_class(uint32_t answer, uint64_t told, const uint8_t *packet) {
    if (answer != 0) return;
    if (told != (packet == NULL ? 0 : class_of(packet[0]))) report_fault("another class is due");
    if (packet == NULL) return;
    met[now].classes[told]++;
#ifdef LIBFUZZER
    seen[now][ANSWERS + OUTCOMES + told][0] = 1;
#endif
}

/* Prints how often each class was told of those that must be; whether all were. */
static bool report_classes(unsigned i) {
    bool whole = true, first = true;
    for (unsigned n = 0; n < CLASSES; n++) {
        if ((exports[i].classes >> n & 1) == 0) continue;
        printf("%s%u: %llu", first ? "; classes " : ", ", n, (unsigned long long)met[i].classes[n]);
        whole &= met[i].classes[n] > 0;
        first = false;
    }
    return whole;
}

static bool report_one(unsigned i) {
    const struct export *e = &exports[i];
    bool whole = met[i].answers[0] > 0;
    printf("  %-36s done %llu", e->name, (unsigned long long)met[i].answers[0]);
    for (uint32_t n = 1; n < ANSWERS; n++) {
        if ((e->refusals >> n & 1) == 0) continue;
        printf(", %u: %llu", n, (unsigned long long)met[i].answers[n]);
        whole &= met[i].answers[n] > 0;
    }
    for (unsigned n = 0; n < e->outcomes; n++) {
        printf("%s%llu", n == 0 ? "; outcomes " : " + ", (unsigned long long)met[i].outcomes[n]);
        whole &= met[i].outcomes[n] > 0;
    }
    whole &= report_classes(i);
    if (e->lending == TESTED) {
        printf("; sound %llu, unsound %llu", (unsigned long long)met[i].sound, (unsigned long long)met[i].unsound);
        whole &= met[i].sound > 0 && met[i].unsound > 0;
    }
    puts(whole ? "" : "  MISSED");
    return whole;
}

bool report_all(void) {
    bool whole = exports_count == EXPORTS;
    for (unsigned i = 0; i < exports_count; i++) whole &= report_one(i);
    return whole;
}
