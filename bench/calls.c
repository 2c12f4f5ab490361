/* calls HANDLER CASE VL COUNT: runs a case COUNT times, by the proved handler with the machine by value, by the same
   over the lent state, or by the plain one. Prints a sum of what is left, which all must give alike.
   calls times CASE VL: prints the time of each handler, in nanoseconds a run, the least of several rounds.
   calls cases: prints the name and the title of each case. */
#define _POSIX_C_SOURCE 199309L
#include "cases.h"
#include <stdio.h>
#include <stdlib.h>
#include <time.h>

struct machine bench_run(struct machine m, uint32_t word, uint16_t allowance, uint8_t *memory, size_t size);

static uint8_t memory[MEMORY_SIZE];
static struct machine by_value, plain;
static struct simplev_machine lent;

static void start(const struct bench *b, unsigned vl)
{
    start_lent(&lent, b, vl);
    start_plain(&plain, &lent);
    by_value = plain;
    start_memory(memory);
}

/* A run is the calls until one doesn't pause. A paused call leaves the program counter where it was. */
static void run_by_value(const struct bench *b)
{
    uint64_t pc = by_value.pc;
    do
        by_value = bench_run(by_value, b->word, b->allowance, memory, sizeof memory);
    while (by_value.pc == pc);
}

static void run_lent(const struct bench *b)
{
    uint64_t address;
    while (simplev_run(lent.registers, lent.control, lent.register_table, lent.predicate_table, b->word, b->allowance,
                       memory, sizeof memory, &address) == SIMPLEV_PAUSED)
        ;
}

static void run_plain(const struct bench *b)
{
    while (plain_run(&plain, b->word, b->allowance, memory, sizeof memory) == 1)
        ;
}

static const struct handler {
    const char *name;
    void (*run)(const struct bench *);
} handlers[] = { { "value", run_by_value }, { "lent", run_lent }, { "plain", run_plain } };

static uint64_t sum(int handler)
{
    struct machine left = handler == 0 ? by_value : plain;
    uint64_t s;
    if (handler == 1)
        start_plain(&left, &lent);
    s = (left.pc * 31 + left.source) * 31 + left.destination;
    for (int i = 0; i < 128; i++)
        s = s * 31 + left.registers[i];
    for (int i = 0; i < MEMORY_SIZE; i++)
        s = s * 31 + memory[i];
    return s;
}

static double nanoseconds(const struct handler *h, const struct bench *b, long count)
{
    struct timespec from, to;
    clock_gettime(CLOCK_MONOTONIC, &from);
    for (long i = 0; i < count; i++)
        h->run(b);
    clock_gettime(CLOCK_MONOTONIC, &to);
    return ((double)(to.tv_sec - from.tv_sec) * 1e9 + (double)(to.tv_nsec - from.tv_nsec)) / (double)count;
}

static void times(const struct bench *b, unsigned vl)
{
    double least[3] = { 1e18, 1e18, 1e18 };
    start(b, vl);
    for (int round = 0; round < 400; round++)
        for (int h = 0; h < 3; h++) {
            double t = nanoseconds(&handlers[h], b, 400);
            if (t < least[h])
                least[h] = t;
        }
    printf("%.1f %.1f %.1f\n", least[0], least[1], least[2]);
}

static int print_cases(void)
{
    for (size_t i = 0; i < CASES; i++)
        printf("%s|%s\n", cases[i].name, cases[i].title);
    return 0;
}

int main(int n, char **arguments)
{
    const struct bench *b = 0;
    if (n == 2 && !strcmp(arguments[1], "cases"))
        return print_cases();
    for (size_t i = 0; n > 3 && i < CASES; i++)
        if (!strcmp(cases[i].name, arguments[2]))
            b = &cases[i];
    if (!b) {
        fprintf(stderr, "usage: calls value|lent|plain CASE VL COUNT, calls times CASE VL, or calls cases\n");
        return 2;
    }
    if (!strcmp(arguments[1], "times")) {
        times(b, (unsigned)atoi(arguments[3]));
        return 0;
    }
    start(b, (unsigned)atoi(arguments[3]));
    for (int h = 0; h < 3; h++)
        if (!strcmp(arguments[1], handlers[h].name)) {
            for (long i = n > 4 ? atol(arguments[4]) : 0; i > 0; i--)
                handlers[h].run(b);
            printf("%016llx\n", (unsigned long long)sum(h));
            return 0;
        }
    return 2;
}
