/* A plain handler in C of the same call, written for speed, to compare with. It trusts its caller that the machine is
   in shape and the word is one that is served, where the proved handler tests both. */
#ifndef PLAIN_H
#define PLAIN_H
#include <stddef.h>
#include <stdint.h>

struct machine {
    uint64_t registers[128];
    uint64_t pc;
    uint32_t mvl, vl, cfg, source, destination;
    uint16_t register_table[16];
    uint16_t predicate_table[16];
};

/* 0 done, 1 paused, 2 unknown word, 3 past the registers, 5 not wholly in memory, 9 misaligned */
int plain_run(struct machine *m, uint32_t word, uint16_t allowance, uint8_t *memory, size_t size);
#endif
