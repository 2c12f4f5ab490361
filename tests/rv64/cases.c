/* usage: cases COUNT SEED
 * Random cases on the library. Each line is a case: the answers of its calls, and a hash of the machine, the memory and
 * what the calls returned. Two builds of the library print the same lines if they do the same. */
#include <inttypes.h>
#include <stdio.h>
#include <stdlib.h>
#include <string.h>

#include "../random.h"
#include "simplev.h"

#define MEMORY 512

static uint64_t hash;

static void take(const void *from, size_t size)
{
    const unsigned char *bytes = from;
    for (size_t i = 0; i < size; i++)
        hash = (hash ^ bytes[i]) * 0x100000001B3ULL; /* FNV-1a */
}

/* The immediate of most loads and stores made divisible by 8, as most addresses are. */
static uint32_t divisible(uint32_t w)
{
    uint32_t opcode = w & 0x7F, low_bits = opcode == 0x03 ? 0x00700000 : opcode == 0x23 ? 0x00000380 : 0;
    return percent(85) ? w & ~low_bits : w;
}

/* Words with all fields but the registers and the immediate: each opcode with its functions. */
static uint32_t word(void)
{
    static const uint32_t forms[] = {
        0x00000033, 0x40000033, 0x00001033, 0x00002033, 0x00003033, 0x00004033, 0x00005033, 0x40005033, /* OP */
        0x00006033, 0x00007033, 0x0000003B, 0x4000003B, 0x0000103B, 0x0000503B, 0x4000503B,             /* OP-32 */
        0x00001013, 0x00005013, 0x40005013, 0x0000101B, 0x0000501B, 0x4000501B,                         /* shifts */
        0x02000033, 0x02001033, 0x02002033, 0x02003033, 0x02004033, 0x02005033, 0x02006033, 0x02007033, /* RV64M */
        0x0200003B, 0x0200403B, 0x0200503B, 0x0200603B, 0x0200703B, /* its W forms, then words that are none of them */
        0x0200103B, 0x0200203B, 0x0200303B, 0x06000033, 0x4200403B,
    };
    static const uint32_t immediate_forms[] = {
        0x00000013, 0x00002013, 0x00003013, 0x00004013, 0x00006013, 0x00007013, 0x0000001B, /* OP-IMM */
        0x00000003, 0x00001003, 0x00002003, 0x00003003, 0x00004003, 0x00005003, 0x00006003, /* LOAD */
        0x00000023, 0x00001023, 0x00002023, 0x00003023,                                     /* STORE */
    };
    /* C leaves the order of calls in an expression open, so each number is drawn in a statement of its own. */
    uint32_t registers = any() & 0x000F8F80; /* rd and rs1 */
    uint32_t form = forms[below(sizeof forms / sizeof *forms)];
    uint32_t immediate_form = immediate_forms[below(sizeof immediate_forms / sizeof *immediate_forms)];
    uint32_t upper = percent(80) ? 0x01F00000 : 0xFFF00000; /* an immediate of 0 to 31 in most words */
    uint32_t bits = any();
    switch (below(8)) {
    case 0:
        return bits;
    case 1:
        return 0x8002 | (bits & 0xFFFF0FFC);
    case 2:
    case 3:
    case 4:
        return form | registers | (bits & 0x01F00000);
    default:
        return divisible(immediate_form | registers | (bits & upper));
    }
}

static uint64_t value(void)
{
    static const uint64_t corners[] = {0, ~0ULL, 1ULL << 63, 0x80000000, 0xFFFFFFFF, 0xFFFFFFFF80000000};
    switch (below(5)) {
    case 0:
        return any();
    case 1:
        return any() | any();
    case 2:
        return (uint64_t)(int64_t)(int32_t)any();
    case 3:
        return corners[below(sizeof corners / sizeof *corners)];
    default:
        return below(MEMORY);
    }
}

/* A register number that the word names. */
static unsigned key(uint32_t w)
{
    static const unsigned places[] = {7, 15, 20, 2};
    return w >> places[below(4)] & 31;
}

/* Mostly aligned for every access. */
static uint64_t address(void)
{
    uint64_t in_memory = below(MEMORY);
    return percent(95) ? in_memory & ~UINT64_C(7) : in_memory;
}

static void fill(struct simplev_machine *m, uint32_t w)
{
    simplev_machine_fresh(m);
    for (int i = 1; i < SIMPLEV_REGISTERS; i++)
        m->registers[i] = percent(60) ? address() : value();
    m->control[SIMPLEV_PC] = any();
    m->control[SIMPLEV_MVL] = 1 + below(64);
    m->control[SIMPLEV_VL] = 1 + below(m->control[SIMPLEV_MVL]);
    m->control[SIMPLEV_CFG] = percent(60) ? 24 : below(32);
    if (percent(30)) {
        m->control[SIMPLEV_SOURCE] = below(m->control[SIMPLEV_VL]);
        m->control[SIMPLEV_DESTINATION] = below(m->control[SIMPLEV_VL]);
    }
    for (int i = 0; i < SIMPLEV_ENTRIES; i++) {
        unsigned start = below(percent(95) ? 129 - m->control[SIMPLEV_VL] : 128);
        unsigned vector = below(2), width = percent(3), flags = below(4), mask = below(128), named = key(w);
        if (percent(30))
            m->register_table[i] = vector << 15 | start << 8 | 0x80 | width << 5 | named;
        if (percent(20))
            m->predicate_table[i] = named << 11 | flags << 9 | 0x100 | mask << 1;
    }
    if (percent(4)) { /* out of shape, most times */
        unsigned place = below(64);
        m->control[1 + below(5)] ^= 1ULL << place;
    }
}

static uint32_t setting(struct simplev_machine *m, uint64_t *out)
{
    uint32_t entry = below(18), index = below(140);
    uint64_t new = any();
    switch (below(9)) {
    case 0:
        return simplev_machine_set_vl(m, new % 70, out);
    case 1:
        return simplev_machine_set_vl_immediate(m, new % 34, out);
    case 2:
        return simplev_machine_set_mvl(m, new % 67, out);
    case 3:
        return simplev_machine_set_cfg(m, new % 34, out);
    case 4:
        return simplev_machine_set_state_word(m, new & 0x3F0C3FFF, out);
    case 5:
        return simplev_machine_set_pc(m, new, out);
    case 6:
        return simplev_machine_set_register(m, index, new, out);
    case 7:
        return simplev_machine_set_register_entry(m, entry, new, out);
    default:
        return simplev_machine_set_predicate_entry(m, entry, new, out);
    }
}

static uint32_t reading(struct simplev_machine *m, uint64_t *out)
{
    uint32_t entry = below(18), index = below(140);
    switch (below(8)) {
    case 0:
        return simplev_machine_read_vl(m, out);
    case 1:
        return simplev_machine_read_mvl(m, out);
    case 2:
        return simplev_machine_read_cfg(m, out);
    case 3:
        return simplev_machine_read_pc(m, out);
    case 4:
        return simplev_machine_read_state_word(m, out);
    case 5:
        return simplev_machine_read_register(m, index, out);
    case 6:
        return simplev_machine_read_register_entry(m, entry, out);
    default:
        return simplev_machine_read_predicate_entry(m, entry, out);
    }
}

static void called(uint32_t said, uint64_t out)
{
    printf("%" PRIu32 " ", said);
    take(&said, sizeof said);
    take(&out, sizeof out);
}

/* A run, called again while it pauses, then a setting, a reading and a step. */
static void one_case(void)
{
    static struct simplev_machine m;
    static uint8_t memory[MEMORY];
    uint32_t w = word(), said;
    uint64_t out;
    size_t size = percent(70) ? MEMORY : below(MEMORY + 1);
    fill(&m, w);
    for (size_t i = 0; i < MEMORY; i++)
        memory[i] = any();
    hash = 0xCBF29CE484222325ULL;
    for (int i = 0; i < 4; i++) {
        out = any();
        said = simplev_machine_run(&m, w, percent(50) ? 65535 : below(20), memory, size, &out);
        called(said, out);
        if (said != SIMPLEV_PAUSED)
            break;
    }
    said = setting(&m, &out);
    called(said, out);
    said = reading(&m, &out);
    called(said, out);
    said = simplev_machine_step(&m, w, memory, size, &out);
    called(said, out);
    take(&m, sizeof m);
    take(memory, sizeof memory);
    printf("%016" PRIx64 "\n", hash);
}

int main(int count, char **words)
{
    if (count != 3) {
        fprintf(stderr, "usage: cases COUNT SEED\n");
        return 2;
    }
    random_state = strtoull(words[2], NULL, 10) * 2 + 1;
    for (unsigned long i = strtoul(words[1], NULL, 10); i > 0; i--)
        one_case();
    return 0;
}
