#include "counting.h"

#define UART ((volatile uint8_t *)0x10000000)
#define TEST_DEVICE ((volatile uint32_t *)0x100000)

/* Eight bytes at a time where the place is aligned; simplev_fresh calls it. */
void *memset(void *to, int byte, size_t count)
{
    uint8_t *p = to;
    uint64_t word = (uint8_t)byte * 0x0101010101010101u;
    for (; count && ((uintptr_t)p & 7); count--)
        *p++ = (uint8_t)byte;
    for (; count >= 8; count -= 8, p += 8)
        *(uint64_t *)(void *)p = word;
    for (; count; count--)
        *p++ = (uint8_t)byte;
    return to;
}

void *memcpy(void *restrict to, const void *restrict from, size_t count)
{
    uint8_t *p = to;
    const uint8_t *q = from;
    if (!(((uintptr_t)p | (uintptr_t)q) & 7))
        for (; count >= 8; count -= 8, p += 8, q += 8)
            *(uint64_t *)(void *)p = *(const uint64_t *)(const void *)q;
    for (; count; count--)
        *p++ = *q++;
    return to;
}

int memcmp(const void *one, const void *other, size_t count)
{
    const uint8_t *p = one, *q = other;
    for (; count; count--, p++, q++)
        if (*p != *q)
            return *p < *q ? -1 : 1;
    return 0;
}

void put_text(const char *text)
{
    while (*text)
        *UART = (uint8_t)*text++;
}

void put_number(uint64_t n)
{
    char digits[21];
    int k = 20;
    digits[k] = 0;
    do
        digits[--k] = (char)('0' + n % 10);
    while (n /= 10);
    put_text(digits + k);
}

void put_counts(const uint64_t *counts, int n)
{
    for (int i = 0; i < n; i++) {
        put_text("|");
        if (counts[i] == ABSENT)
            put_text("-");
        else
            put_number(counts[i]);
    }
    put_text("\n");
}

void stop(int status)
{
    *TEST_DEVICE = status ? 0x3333u | (uint32_t)status << 16 : 0x5555u;
    for (;;)
        ;
}

void fail(const char *text, const char *more)
{
    put_text("failed: ");
    put_text(text);
    put_text(more);
    put_text("\n");
    stop(1);
}

typedef uint64_t counted_call(const void *function, const uint64_t *values, uint64_t *answer);
counted_call counted_call_4, counted_call_5, counted_call_6, counted_call_7, counted_call_8, counted_call_9;
uint64_t counted_nothing(void);
uint64_t counted_nops(void);

static uint64_t nothing;

void calibrate(void)
{
    nothing = counted_nothing();
    if (counted_nothing() != nothing || counted_nops() - nothing != 1000)
        fail("1,000 instructions do not count as 1,000", "");
}

uint64_t counted(const struct arguments *a, uint64_t *answer)
{
    static counted_call *const by_count[] = {
        counted_call_4, counted_call_5, counted_call_6, counted_call_7, counted_call_8, counted_call_9,
    };
    return by_count[a->count - 4](a->function, a->values, answer) - nothing;
}

/* The first four arguments, which all calls have. */
static struct arguments on(struct simplev_machine *m, const void *function)
{
    struct arguments a = { function, 4, { (uintptr_t)m->registers, (uintptr_t)m->control, (uintptr_t)m->register_table,
                                          (uintptr_t)m->predicate_table } };
    return a;
}

uint64_t counted_run(struct simplev_machine *m, uint32_t word, uint16_t allowance, uint8_t *memory, size_t size,
                     uint64_t *answer)
{
    uint64_t address;
    const uint64_t own[] = { extended(word), allowance, (uintptr_t)memory, size, (uintptr_t)&address };
    struct arguments a = on(m, simplev_run);
    for (int i = 0; i < 5; i++)
        a.values[a.count++] = own[i];
    return counted(&a, answer);
}

uint64_t counted_step(struct simplev_machine *m, uint32_t word, uint8_t *memory, size_t size, uint64_t *answer)
{
    uint64_t address;
    const uint64_t own[] = { extended(word), (uintptr_t)memory, size, (uintptr_t)&address };
    struct arguments a = on(m, simplev_step);
    for (int i = 0; i < 4; i++)
        a.values[a.count++] = own[i];
    return counted(&a, answer);
}

const struct library_call library_calls[] = {
    { "simplev_fresh", simplev_fresh, { 0, 0 }, { 0, 0 }, NONE, NONE },
    { "simplev_set_vl", simplev_set_vl, { 64, 0 }, { 64, 0 }, 0, NONE },
    { "simplev_set_vl_immediate", simplev_set_vl_immediate, { 32, 0 }, { 31, 0 }, 32, NONE },
    { "simplev_set_mvl", simplev_set_mvl, { 32, 0 }, { 64, 0 }, 65, NONE },
    { "simplev_set_cfg", simplev_set_cfg, { 32, 0 }, { 24, 0 }, 32, NONE },
    { "simplev_set_state_word", simplev_set_state_word, { 32, 0 }, { 0x18000fff, 0 }, 0x20000000, NONE },
    { "simplev_set_pc", simplev_set_pc, { 64, 0 }, { 4096, 0 }, NONE, NONE },
    { "simplev_set_register", simplev_set_register, { 32, 64 }, { 127, 1 }, NONE, 128 },
    { "simplev_set_register_entry", simplev_set_register_entry, { 32, 16 }, { 15, 0xc085 }, NONE, 16 },
    { "simplev_set_predicate_entry", simplev_set_predicate_entry, { 32, 16 }, { 15, 0x2d06 }, 1, 16 },
    { "simplev_read_vl", simplev_read_vl, { 0, 0 }, { 0, 0 }, NONE, NONE },
    { "simplev_read_mvl", simplev_read_mvl, { 0, 0 }, { 0, 0 }, NONE, NONE },
    { "simplev_read_cfg", simplev_read_cfg, { 0, 0 }, { 0, 0 }, NONE, NONE },
    { "simplev_read_pc", simplev_read_pc, { 0, 0 }, { 0, 0 }, NONE, NONE },
    { "simplev_read_state_word", simplev_read_state_word, { 0, 0 }, { 0, 0 }, NONE, NONE },
    { "simplev_read_register", simplev_read_register, { 32, 0 }, { 127, 0 }, NONE, 128 },
    { "simplev_read_register_entry", simplev_read_register_entry, { 32, 0 }, { 15, 0 }, NONE, 16 },
    { "simplev_read_predicate_entry", simplev_read_predicate_entry, { 32, 0 }, { 15, 0 }, NONE, 16 },
};
const int library_call_count = sizeof library_calls / sizeof *library_calls;

static uint64_t as_argument(uint64_t value, int bits)
{
    return bits == 64 ? value : bits == 32 ? extended((uint32_t)value) : (uint16_t)value;
}

uint64_t counted_library_call(const struct library_call *c, const uint64_t *own, struct simplev_machine *m,
                              uint64_t *answer)
{
    uint64_t value;
    struct arguments a = on(m, c->function);
    for (int i = 0; i < 2 && c->bits[i]; i++)
        a.values[a.count++] = as_argument(own[i], c->bits[i]);
    if (c != library_calls)
        a.values[a.count++] = (uintptr_t)&value;
    return counted(&a, answer);
}
