/* Counts the instructions of the calls in docs/BENCHMARKS.md on RV64, by the library and by bench/plain.c as three
   compilers have it, and stops where these don't leave the same. A line of output is a row: its table, its names, then
   a count for each handler. */
#include "../cases.h"
#include "counting.h"

#define HANDLERS 4
typedef int plain_handler(struct machine *m, uint32_t word, uint16_t allowance, uint8_t *memory, size_t size);
plain_handler plain_gcc_o3, plain_gcc_o2, plain_clang_o3;
static plain_handler *const plain_handlers[HANDLERS - 1] = { plain_gcc_o3, plain_gcc_o2, plain_clang_o3 };

static struct simplev_machine start, lent;
static struct machine plain[HANDLERS - 1];
static uint8_t memories[HANDLERS][MEMORY_SIZE] __attribute__((aligned(16)));
static size_t size;

static void start_case(const struct bench *b, unsigned vl)
{
    start_lent(&start, b, vl);
    size = MEMORY_SIZE;
}

static uint64_t counted_by(int handler, uint32_t word, uint16_t allowance, uint64_t *answer)
{
    struct arguments a = { 0, 5, { 0 } };
    if (!handler)
        return counted_run(&lent, word, allowance, memories[0], size, answer);
    a.function = plain_handlers[handler - 1];
    a.values[0] = (uintptr_t)&plain[handler - 1];
    a.values[1] = extended(word);
    a.values[2] = allowance;
    a.values[3] = (uintptr_t)memories[handler];
    a.values[4] = size;
    return counted(&a, answer);
}

/* All handlers answered alike and left the same. */
static void expect_same(const char *name, const uint64_t *answers)
{
    struct machine left;
    start_plain(&left, &lent);
    for (int h = 1; h < HANDLERS; h++)
        if (answers[h] != answers[0] || memcmp(&plain[h - 1], &left, sizeof left) ||
            memcmp(memories[h], memories[0], MEMORY_SIZE))
            fail("the handlers differ on ", name);
}

/* Counts a call by each handler from the same start, or the calls until one doesn't pause, at most one an element. */
static void count(const char *name, uint32_t word, uint16_t allowance, int whole, int expected, uint64_t *counts)
{
    uint64_t answers[HANDLERS];
    lent = start;
    for (int h = 0; h < HANDLERS; h++) {
        counts[h] = 0;
        start_memory(memories[h]);
        if (h)
            start_plain(&plain[h - 1], &start);
        answers[h] = SIMPLEV_PAUSED;
        for (int calls = whole ? SIMPLEV_ELEMENTS : 1; calls && answers[h] == SIMPLEV_PAUSED; calls--)
            counts[h] += counted_by(h, word, allowance, &answers[h]);
    }
    if (answers[0] != (uint64_t)expected)
        fail("another answer than expected on ", name);
    expect_same(name, answers);
}

static void put_row(const char *table, const char *name, uint64_t n, const uint64_t *counts)
{
    put_text(table);
    put_text("|");
    put_text(name);
    put_text("|");
    put_number(n);
    put_counts(counts, HANDLERS);
}

/* A run of the state that stands. */
static void put_run(const struct bench *b, const char *title, unsigned vl)
{
    uint64_t counts[HANDLERS];
    count(title, b->word, b->allowance, 1, SIMPLEV_DONE, counts);
    put_row("runs", title, vl, counts);
}

/* The entries above those of the case have keys that it doesn't name: 10 to 23. */
static void fill_tables(void)
{
    for (unsigned i = 2; i < SIMPLEV_ENTRIES; i++) {
        start.register_table[i] = (uint16_t)(0x80 | (i + 8));
        start.predicate_table[i] = (uint16_t)(0x100 | (i + 8) << 11);
    }
}

static void runs(void)
{
    static const unsigned lengths[] = { 1, 4, 16, 64 };
    for (size_t c = 0; c < CASES; c++)
        for (int i = 0; i < 4; i++) {
            start_case(&cases[c], lengths[i]);
            put_run(&cases[c], cases[c].title, lengths[i]);
        }
    for (int i = 0; i < 4; i += 3) {
        start_case(&cases[0], lengths[i]);
        fill_tables();
        put_run(&cases[0], "ADD, full tables", lengths[i]);
    }
    start_case(&cases[0], 64);
    start.control[SIMPLEV_CFG] = 31;
    put_run(&cases[0], "ADD, CFG 31 (no entry enabled)", 64);
}

static void by_allowance(const struct bench *b)
{
    static const uint16_t allowances[] = { 0, 1, 4, 16, 64 };
    uint64_t counts[HANDLERS];
    for (int i = 0; i < 5; i++) {
        start_case(b, 64);
        count(b->title, b->word, allowances[i], 0, i == 4 ? SIMPLEV_DONE : SIMPLEV_PAUSED, counts);
        put_row("allowances", b->title, allowances[i], counts);
    }
}

static void step(void)
{
    uint64_t answer, counts[HANDLERS] = { 0, ABSENT, ABSENT, ABSENT };
    start_case(&cases[0], 64);
    lent = start;
    start_memory(memories[0]);
    counts[0] = counted_step(&lent, cases[0].word, memories[0], size, &answer);
    if (answer != SIMPLEV_PAUSED)
        fail("another answer than expected on ", "a step");
    put_row("allowances", "ADD by `simplev_step`", 1, counts);
}

/* The plain handlers don't test shapes and widths, and are left out there. */
static void refusal_of_library(const char *name, uint64_t expected)
{
    uint64_t answer, counts[HANDLERS] = { 0, ABSENT, ABSENT, ABSENT };
    lent = start;
    start_memory(memories[0]);
    counts[0] = counted_run(&lent, cases[0].word, 64, memories[0], size, &answer);
    if (answer != expected || memcmp(&lent, &start, sizeof lent))
        fail("another refusal than expected on ", name);
    put_row("refusals", name, expected, counts);
}

/* x7 a vector: at a scalar address the last element is misaligned only where the first is. */
static void start_vector_address(void)
{
    start.register_table[1] = 0x8087;
    for (unsigned i = 1; i < 64; i++)
        start.registers[i] = 8 * i;
}

/* One call in the state that stands. */
static void refusal(const char *name, uint32_t word, int expected)
{
    uint64_t counts[HANDLERS];
    count(name, word, 64, 0, expected, counts);
    put_row("refusals", name, (uint64_t)expected, counts);
}

static void memory_faults(void)
{
    static const struct bench *const ld = &cases[4];
    start_case(ld, 64);
    size = 0;
    refusal("LD, outside memory at the first element", ld->word, SIMPLEV_FAULT);
    start_case(ld, 64);
    size = FIRST_ADDRESS + 63 * 8;
    refusal("LD, outside memory at the last element", ld->word, SIMPLEV_FAULT);
    start_case(ld, 64);
    start_vector_address();
    start.registers[63] = MEMORY_SIZE;
    refusal("LD, x7 a vector, outside memory at the last element", ld->word, SIMPLEV_FAULT);
    start_case(ld, 64);
    start.registers[7] += 1;
    refusal("LD, misaligned at the first element", ld->word, SIMPLEV_MISALIGNED);
    start_case(ld, 64);
    start_vector_address();
    start.registers[63] += 1;
    refusal("LD, x7 a vector, misaligned at the last element", ld->word, SIMPLEV_MISALIGNED);
}

static void refusals(void)
{
    static const struct bench *const add = &cases[0];
    start_case(add, 64);
    refusal("an unknown word (0xffffffff)", 0xffffffff, SIMPLEV_UNKNOWN_WORD);
    start.register_table[1] = 0xc186;
    refusal("ADD, x6 a vector past register 127", add->word, SIMPLEV_PAST_REGISTERS);
    start_case(add, 64);
    start.register_table[1] = 0x80a6;
    refusal_of_library("ADD, x6 of another width", SIMPLEV_BAD_WIDTH);
    memory_faults();
    start_case(add, 64);
    start.control[SIMPLEV_MVL] = 0;
    refusal_of_library("ADD, MVL 0", SIMPLEV_OUT_OF_SHAPE);
    start_case(add, 64);
    start.predicate_table[15] = 1;
    refusal_of_library("ADD, bit 0 of predicate entry 15", SIMPLEV_OUT_OF_SHAPE);
}

/* One setting or reading call; ABSENT where it has no argument for such an answer. */
static uint64_t counted_answer(const struct library_call *c, uint64_t expected)
{
    uint64_t answer, count, own[2] = { c->good[0], c->good[1] };
    uint64_t other = expected == SIMPLEV_BAD_VALUE ? c->bad : c->missing;
    start_case(&cases[0], 64);
    if (expected == SIMPLEV_OUT_OF_SHAPE)
        start.predicate_table[15] = 1;
    else if (expected != SIMPLEV_DONE && other == NONE)
        return ABSENT;
    else if (expected != SIMPLEV_DONE)
        own[expected == SIMPLEV_BAD_VALUE && c->bits[1] ? 1 : 0] = other;
    lent = start;
    count = counted_library_call(c, own, &lent, &answer);
    if (c == library_calls)
        return expected == SIMPLEV_DONE ? count : ABSENT;
    if (answer != expected)
        fail("another answer than expected of ", c->name);
    return count;
}

static void settings_and_readings(void)
{
    static const uint64_t answers[4] = { SIMPLEV_DONE, SIMPLEV_OUT_OF_SHAPE, SIMPLEV_BAD_VALUE, SIMPLEV_NO_SUCH };
    uint64_t counts[4];
    for (int i = 0; i < library_call_count; i++) {
        for (int k = 0; k < 4; k++)
            counts[k] = counted_answer(&library_calls[i], answers[k]);
        put_text("calls|");
        put_text(library_calls[i].name);
        put_counts(counts, 4);
    }
}

int main(void)
{
    calibrate();
    runs();
    by_allowance(&cases[0]);
    by_allowance(&cases[4]);
    step();
    refusals();
    settings_and_readings();
    put_text("end\n");
    return 0;
}
