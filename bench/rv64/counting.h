/* What the counting programs share: output, counted calls, and the library's calls as they make them. */
#ifndef COUNTING_H
#define COUNTING_H
#include "../../include/simplev.h"

/* To the serial port. */
void put_text(const char *text);
void put_number(uint64_t n);
/* `|n|n..` and the end of the line; a count that is ABSENT is put as a dash. */
#define ABSENT UINT64_MAX
void put_counts(const uint64_t *counts, int n);

/* Ends the program and qemu, with this status. */
void stop(int status) __attribute__((noreturn));
void fail(const char *text, const char *more) __attribute__((noreturn));

/* Fails unless 1,000 instructions count as 1,000. Call it first: it also finds what counting nothing counts. */
void calibrate(void);

/* A function's arguments as registers hold them. */
struct arguments {
    const void *function;
    int count;
    uint64_t values[9];
};

/* The instructions of one call: those that load its arguments from memory, one each and two for the ninth, the call,
   and the callee's up to its return. */
uint64_t counted(const struct arguments *a, uint64_t *answer);

/* An argument of type uint32_t as the calling convention extends it. */
static inline uint64_t extended(uint32_t word)
{
    return (uint64_t)(int64_t)(int32_t)word;
}

uint64_t counted_run(struct simplev_machine *m, uint32_t word, uint16_t allowance, uint8_t *memory, size_t size,
                     uint64_t *answer);
uint64_t counted_step(struct simplev_machine *m, uint32_t word, uint8_t *memory, size_t size, uint64_t *answer);

/* The setting and reading calls, simplev_fresh first. */
struct library_call {
    const char *name;
    const void *function;
    int bits[2];           /* of its own arguments, between the arrays and `value`; 0 where it has none */
    uint64_t good[2];      /* own arguments for which it is done, */
    uint64_t bad, missing; /* a last one for which it answers 7, and a first one for which it answers 8, or NONE */
};
#define NONE UINT64_MAX
extern const struct library_call library_calls[];
extern const int library_call_count;

uint64_t counted_library_call(const struct library_call *c, const uint64_t *own, struct simplev_machine *m,
                              uint64_t *answer);
#endif
