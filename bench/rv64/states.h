/* The states among which the dearest call of simplev_run is looked for. A state is a list of choices, one for each
   factor; the first choice is the plain one. */
#ifndef STATES_H
#define STATES_H
#include "counting.h"

enum form { REGISTER, IMMEDIATE, LOAD, STORE, MOVE, FORMS };

struct instruction {
    const char *name;
    enum form form;
    uint32_t bits; /* but for its operands */
};
extern const struct instruction instructions[];
extern const int instruction_count;

/* The operands are x5 (destination, or a store's data), x6 (first source, or address) and x7 (second source). */
enum { INSTRUCTION, LENGTH, OFFSETS, CFG, KEYS, PLACE, TWICE, OTHERS, MASK_PLACE, MASK_TWICE, MASK_OTHERS, KIND_5,
       KIND_6, KIND_7, MASK_5, MASK_6, MASK_7, INVERT, ZEROING, WIDTH, MEMORY, VALUES, BASE, ALLOWANCE, FACTORS };

/* The word with these keys; the offset of a load or store is 8, so that it is aligned where its register is. */
uint32_t word_with(const struct instruction *i, uint32_t five, uint32_t six, uint32_t seven);

typedef uint8_t state[FACTORS];

int choices_of(int factor);
/* The instruction, and each choice that is not the first. */
void put_state(const state s);

/* The allowances for which the dearest call is looked for: 0, 1, 4, 16, VL. */
#define LIMITS 5
void put_limit(int limit);
uint16_t allowance_at(int limit, unsigned vl);

/* Makes the state and counts the call. */
uint64_t counted_at(const state s, int limit, uint64_t *answer);

/* The machine and memory of the last call; a caller may set them and call by itself. */
#define SIZE 1024
extern struct simplev_machine machine;
extern uint8_t memory[SIZE];
#endif
