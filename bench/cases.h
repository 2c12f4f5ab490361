/* The cases that bench/calls.c counts on x86-64 and bench/rv64/runs.c on RV64, and the state that each starts from. */
#ifndef CASES_H
#define CASES_H
#include "../include/simplev.h"
#include "plain.h"
#include <string.h>

#define MEMORY_SIZE 1024
#define FIRST_ADDRESS 16 /* of a load or store: aligned for all */

/* Key 5 is the vector at 64, key 6 the vector at 0; x7 stays a scalar, and loads and stores are 8(x7). The mask is x3,
   which has every second position on. */
static const struct bench {
    const char *name, *title;
    uint32_t word;
    uint16_t predicate; /* the entry for key 5 */
    uint16_t allowance;
} cases[] = {
    { "ADD", "ADD", 0x007302b3, 0, 65535 },
    { "masked", "ADD, masked, zeroing", 0x007302b3, 0x2d06, 65535 },
    { "MV", "C.MV", 0x829a, 0, 65535 },
    { "LB", "LB", 0x00838283, 0, 65535 },
    { "LD", "LD", 0x0083b283, 0, 65535 },
    { "SD", "SD", 0x0053b423, 0, 65535 },
    { "slices", "ADD, slices of 4", 0x007302b3, 0, 4 }, /* four elements a call */
    { "MUL", "MUL", 0x027302b3, 0, 65535 },
    { "MULHU", "MULHU", 0x027332b3, 0, 65535 },
    { "MV-masked", "C.MV, masked", 0x829a, 0x2906, 65535 },
    { "MV-zeroing", "C.MV, masked, zeroing", 0x829a, 0x2d06, 65535 },
    { "LD-masked", "LD, masked", 0x0083b283, 0x2906, 65535 },
    { "LD-zeroing", "LD, masked, zeroing", 0x0083b283, 0x2d06, 65535 },
};

#define CASES (sizeof cases / sizeof *cases)

static inline void start_lent(struct simplev_machine *m, const struct bench *b, unsigned vl)
{
    simplev_machine_fresh(m);
    m->control[SIMPLEV_MVL] = 64;
    m->control[SIMPLEV_VL] = vl;
    m->register_table[0] = 0xc085;
    m->register_table[1] = 0x8086;
    m->predicate_table[0] = b->predicate;
    m->registers[3] = 0x5555555555555555;
    m->registers[7] = FIRST_ADDRESS - 8;
    for (unsigned i = 64; i < SIMPLEV_REGISTERS; i++)
        m->registers[i] = ~(uint64_t)i; /* so that an element that is off shows whether it became 0 */
}

/* The same state as the other handlers have it. */
static inline void start_plain(struct machine *p, const struct simplev_machine *m)
{
    memset(p, 0, sizeof *p);
    memcpy(p->registers, m->registers, sizeof p->registers);
    memcpy(p->register_table, m->register_table, sizeof p->register_table);
    memcpy(p->predicate_table, m->predicate_table, sizeof p->predicate_table);
    p->pc = m->control[SIMPLEV_PC];
    p->mvl = (uint32_t)m->control[SIMPLEV_MVL];
    p->vl = (uint32_t)m->control[SIMPLEV_VL];
    p->cfg = (uint32_t)m->control[SIMPLEV_CFG];
    p->source = (uint32_t)m->control[SIMPLEV_SOURCE];
    p->destination = (uint32_t)m->control[SIMPLEV_DESTINATION];
}

static inline void start_memory(uint8_t *memory)
{
    for (int i = 0; i < MEMORY_SIZE; i++)
        memory[i] = (uint8_t)(i * 7);
}
#endif
