/* Looks for the dearest single call of simplev_run at an allowance of 0, 1, 4, 16 and VL, among the states of states.c,
   and for the dearest setting or reading call. From every instruction each factor is changed by itself until the call
   gets no dearer, then from the dearest of each form every two factors together, and several by chance. After that come
   random states, none of which may be dearer; what is random is the same each time. A line of output is a row: its
   table, the allowance, the count, the answer and the state. */
#include "../../tests/random.h"
#include "states.h"
#include "string.h"

/* A state with up to eight choices of another made anew. */
static void change_some(state s, const state from)
{
    memcpy(s, from, FACTORS);
    for (uint64_t k = 1 + below(8); k; k--) {
        int f = (int)below(FACTORS);
        s[f] = (uint8_t)below((uint64_t)choices_of(f));
    }
}

static struct dearest {
    uint64_t count;
    state s;
} dearest[LIMITS][FORMS], most[LIMITS];
static uint64_t made; /* calls so far */

static int dearer(struct dearest *d, const state s, int limit)
{
    uint64_t answer, n = counted_at(s, limit, &answer);
    made++;
    if (n <= d->count)
        return 0;
    d->count = n;
    memcpy(d->s, s, FACTORS);
    return 1;
}

/* Each factor by itself, until none makes it dearer. */
static void climb(struct dearest *d, int limit)
{
    int better;
    do {
        better = 0;
        for (int f = INSTRUCTION + 1; f < FACTORS; f++) {
            state s;
            memcpy(s, d->s, FACTORS);
            for (s[f] = 0; s[f] < choices_of(f); s[f]++)
                better |= dearer(d, s, limit);
        }
    } while (better);
}

static int change_both(struct dearest *d, int f, int g, int limit)
{
    int better = 0;
    state s;
    memcpy(s, d->s, FACTORS);
    for (s[f] = 0; s[f] < choices_of(f); s[f]++)
        for (s[g] = 0; s[g] < choices_of(g); s[g]++)
            better |= dearer(d, s, limit);
    return better;
}

/* Every two factors, until no two make it dearer. */
static void climb_by_pairs(struct dearest *d, int limit)
{
    int better;
    do {
        better = 0;
        for (int f = INSTRUCTION + 1; f < FACTORS; f++)
            for (int g = f + 1; g < FACTORS; g++)
                better |= change_both(d, f, g, limit);
    } while (better);
}

/* From an instruction and one choice of each of these four. */
static void search_from(int instruction, int limit)
{
    struct dearest *all = &dearest[limit][instructions[instruction].form];
    for (unsigned start = 0; start < 5 * 2 * 2 * 2; start++) {
        struct dearest d = { 0, { 0 } };
        d.s[INSTRUCTION] = (uint8_t)instruction;
        d.s[MASK_5] = d.s[MASK_6] = (uint8_t)(start / 8);
        d.s[KIND_6] = start / 4 % 2;
        d.s[KEYS] = start / 2 % 2;
        d.s[OTHERS] = d.s[MASK_OTHERS] = start % 2;
        climb(&d, limit);
        if (d.count > all->count)
            *all = d;
    }
}

/* Some choices made anew, until many such states in turn are no dearer. */
static void climb_by_chance(struct dearest *d, int limit)
{
    for (int tries = 0; tries < 30000; tries++) {
        state s;
        change_some(s, d->s);
        if (dearer(d, s, limit)) {
            climb_by_pairs(d, limit);
            tries = 0;
        }
    }
}

static void search(int limit)
{
    for (int i = 0; i < instruction_count; i++)
        search_from(i, limit);
    for (int form = 0; form < FORMS; form++) {
        struct dearest *d = &dearest[limit][form];
        climb_by_pairs(d, limit);
        climb_by_chance(d, limit);
        if (d->count > most[limit].count)
            most[limit] = *d;
    }
}

/* Back to the first choice where that is as dear. */
static void simplify(struct dearest *d, int limit)
{
    for (int f = INSTRUCTION + 1; f < FACTORS; f++) {
        uint64_t answer;
        state s;
        memcpy(s, d->s, FACTORS);
        s[f] = 0;
        if (counted_at(s, limit, &answer) == d->count)
            memcpy(d->s, s, FACTORS);
    }
}

static void put_dearest(struct dearest *d, int limit)
{
    uint64_t answer;
    simplify(d, limit);
    counted_at(d->s, limit, &answer);
    put_text("worst|");
    put_limit(limit);
    put_text("|");
    put_number(d->count);
    put_text("|");
    put_number(answer);
    put_text("|");
    put_state(d->s);
    put_text("\n");
}

/* --- random states ------------------------------------------------------------------------------ */

#define RANDOM_CALLS 1000000

/* The last two kinds are addresses in memory, most of them aligned. */
static uint64_t random_value(void)
{
    switch (below(8)) {
    case 0: return any();
    case 1: return 0;
    case 2: return ~0ull;
    case 3: return ~0ull << below(64);
    case 4: return ~(~0ull << below(64));
    case 5: return below(600);
    default: return 8 * below(75);
    }
}

/* One of the keys of random words, or, more often the thinner a table is to be, another. */
static uint64_t random_key(uint64_t thinness)
{
    return below(thinness) ? below(32) : 5 + below(3);
}

static void random_tables(void)
{
    uint64_t thinness = 1 + below(24), mask_thinness = 1 + below(24);
    for (int i = 0; i < 16; i++) {
        machine.register_table[i] = (uint16_t)((below(8) ? 0x8000 : 0) | below(below(16) ? 65 : 128) << 8 |
                                               (below(16) ? 0x80 : 0) | (below(64) ? 0 : 0x20) | random_key(thinness));
        machine.predicate_table[i] = (uint16_t)(random_key(mask_thinness) << 11 | below(4) << 9 |
                                                (below(16) ? 0x100 : 0) | below(128) << 1);
    }
}

static void random_machine(void)
{
    static const uint8_t dear_cfgs[] = { 24, 16 };
    uint64_t vl = below(8) ? 64 : 1 + below(64);
    for (int i = 1; i < 128; i++)
        machine.registers[i] = random_value();
    random_tables();
    machine.control[SIMPLEV_MVL] = 64;
    machine.control[SIMPLEV_VL] = vl;
    machine.control[SIMPLEV_CFG] = below(4) ? dear_cfgs[below(2)] : below(32);
    machine.control[SIMPLEV_SOURCE] = below(4) ? 0 : below(vl);
    machine.control[SIMPLEV_DESTINATION] = below(4) ? 0 : below(vl);
}

static uint32_t random_word(void)
{
    const struct instruction *i = &instructions[below((uint64_t)instruction_count)];
    uint64_t first = 5 + below(3), second = below(2) ? first : 5 + below(3), third = below(2) ? second : 5 + below(3);
    return word_with(i, (uint32_t)first, (uint32_t)second, (uint32_t)third);
}

/* What a machine has but for its registers. */
static void put_machine(const struct simplev_machine *m, uint32_t word)
{
    put_text("word ");
    put_number(word);
    for (int i = 0; i < SIMPLEV_CONTROL; i++) {
        put_text(i ? " " : ", control ");
        put_number(m->control[i]);
    }
    for (int i = 0; i < 32; i++) {
        put_text(i ? " " : ", tables ");
        put_number(i < 16 ? m->register_table[i] : m->predicate_table[i - 16]);
    }
}

static void dearer_at_random(int limit, uint64_t n)
{
    put_text("\nfailed: ");
    put_number(n);
    put_text(" instructions at random, more than the dearest of the states, at allowance ");
    put_limit(limit);
    put_text("; the states of bench/rv64/states.c are to be extended\n");
    stop(1);
}

/* Some choices of a dear state made anew. */
static void try_near(int limit)
{
    uint64_t answer, n;
    state s;
    change_some(s, dearest[limit][below(FORMS)].s);
    n = counted_at(s, limit, &answer);
    if (n <= most[limit].count)
        return;
    put_state(s);
    dearer_at_random(limit, n);
}

static void try_anywhere(int limit)
{
    struct simplev_machine before;
    uint64_t answer, n;
    uint32_t word = random_word();
    random_machine();
    before = machine;
    n = counted_run(&machine, word, allowance_at(limit, (unsigned)machine.control[SIMPLEV_VL]), memory, SIZE, &answer);
    if (n <= most[limit].count)
        return;
    put_machine(&before, word);
    dearer_at_random(limit, n);
}

/* --- setting and reading calls ------------------------------------------------------------------ */

/* simplev_fresh is left out: it is its memset. */
static void settings_and_readings(void)
{
    uint64_t answer, n, dear = 0;
    const char *name = "";
    for (int c = 1; c < library_call_count; c++)
        for (int i = 0; i < 1000; i++) {
            const struct library_call *call = &library_calls[c];
            uint64_t own[2] = { below(4) ? below(130) : random_value(), below(2) ? below(130) : random_value() };
            random_machine();
            machine.registers[0] = !below(8);
            if (i < 100)
                memcpy(own, call->good, sizeof own);
            n = counted_library_call(call, own, &machine, &answer);
            if (n > dear) {
                dear = n;
                name = call->name;
            }
        }
    machine.registers[0] = 0;
    put_text("call|");
    put_text(name);
    put_counts(&dear, 1);
}

int main(void)
{
    calibrate();
    for (int limit = 0; limit < LIMITS; limit++) {
        search(limit);
        put_dearest(&most[limit], limit);
    }
    settings_and_readings();
    for (int i = 0; i < RANDOM_CALLS; i++)
        (i % 2 ? try_near : try_anywhere)((int)below(LIMITS));
    put_text("made|");
    put_number(made);
    put_text("|");
    put_number(RANDOM_CALLS);
    put_text("\nend\n");
    return 0;
}
