#include "states.h"

const struct instruction instructions[] = {
    { "ADD", REGISTER, 0x33 }, { "SUB", REGISTER, 0x40000033 }, { "SLL", REGISTER, 0x1033 },
    { "SLT", REGISTER, 0x2033 }, { "SLTU", REGISTER, 0x3033 }, { "XOR", REGISTER, 0x4033 },
    { "SRL", REGISTER, 0x5033 }, { "SRA", REGISTER, 0x40005033 }, { "OR", REGISTER, 0x6033 },
    { "AND", REGISTER, 0x7033 }, { "ADDW", REGISTER, 0x3b }, { "SUBW", REGISTER, 0x4000003b },
    { "SLLW", REGISTER, 0x103b }, { "SRLW", REGISTER, 0x503b }, { "SRAW", REGISTER, 0x4000503b },
    { "ADDI", IMMEDIATE, 0x13 }, { "SLTI", IMMEDIATE, 0x2013 }, { "SLTIU", IMMEDIATE, 0x3013 },
    { "XORI", IMMEDIATE, 0x4013 }, { "ORI", IMMEDIATE, 0x6013 }, { "ANDI", IMMEDIATE, 0x7013 },
    { "SLLI", IMMEDIATE, 0x1013 }, { "SRLI", IMMEDIATE, 0x5013 }, { "SRAI", IMMEDIATE, 0x40005013 },
    { "ADDIW", IMMEDIATE, 0x1b }, { "SLLIW", IMMEDIATE, 0x101b }, { "SRLIW", IMMEDIATE, 0x501b },
    { "SRAIW", IMMEDIATE, 0x4000501b }, { "MUL", REGISTER, 0x2000033 }, { "MULH", REGISTER, 0x2001033 },
    { "MULHSU", REGISTER, 0x2002033 }, { "MULHU", REGISTER, 0x2003033 }, { "DIV", REGISTER, 0x2004033 },
    { "DIVU", REGISTER, 0x2005033 }, { "REM", REGISTER, 0x2006033 }, { "REMU", REGISTER, 0x2007033 },
    { "MULW", REGISTER, 0x200003b }, { "DIVW", REGISTER, 0x200403b }, { "DIVUW", REGISTER, 0x200503b },
    { "REMW", REGISTER, 0x200603b }, { "REMUW", REGISTER, 0x200703b },
    { "LB", LOAD, 0x3 }, { "LH", LOAD, 0x1003 }, { "LW", LOAD, 0x2003 },
    { "LD", LOAD, 0x3003 }, { "LBU", LOAD, 0x4003 }, { "LHU", LOAD, 0x5003 }, { "LWU", LOAD, 0x6003 },
    { "SB", STORE, 0x23 }, { "SH", STORE, 0x1023 }, { "SW", STORE, 0x2023 }, { "SD", STORE, 0x3023 },
    { "C.MV", MOVE, 0x8002 },
};
#define INSTRUCTIONS (int)(sizeof instructions / sizeof *instructions)
const int instruction_count = INSTRUCTIONS;

/* The choices of MEMORY, for loads and stores. */
enum { ALIGNED, ODD, FOUR_MORE, LAST_MISALIGNED, LAST_OUTSIDE, NO_MEMORY, MEMORIES };

#define WORDS(...) (const char *const[]){ __VA_ARGS__ }
#define MASKS "none", "all on", "the last alone", "the last 4", "the last 16", "the first alone", "all off", \
              "every second"
static const struct factor {
    const char *name;
    int choices;
    const char *const *words; /* or the choice as a number */
} factors[FACTORS] = {
    [INSTRUCTION] = { "instruction", INSTRUCTIONS, 0 },
    [LENGTH] = { "VL", 5, WORDS("64", "63", "33", "2", "1") },
    [OFFSETS] = { "offsets", 5, WORDS("0 and 0", "VL-1 and VL-1", "0 and VL-1", "VL-1 and 0", "1 and 1") },
    [CFG] = { "CFG", 32, 0 },
    [KEYS] = { "operands", 2, WORDS("x5, x6, x7", "all x5") },
    [PLACE] = { "register entries from", 16, 0 },
    [TWICE] = { "x5's register entry also at", 5, WORDS("none", "0", "7", "8", "15") },
    [OTHERS] = { "other register entries", 3, WORDS("0", "of other keys", "of x5, not integer") },
    [MASK_PLACE] = { "predicate entries from", 16, 0 },
    [MASK_TWICE] = { "x5's predicate entry also at", 5, WORDS("none", "0", "7", "8", "15") },
    [MASK_OTHERS] = { "other predicate entries", 3, WORDS("0", "of other keys", "of x5, not integer") },
    [KIND_5] = { "x5", 3, WORDS("vector", "scalar", "without entry") },
    [KIND_6] = { "x6", 3, WORDS("vector", "scalar", "without entry") },
    [KIND_7] = { "x7", 3, WORDS("vector", "scalar", "without entry") },
    [MASK_5] = { "mask of x5", 8, WORDS(MASKS) },
    [MASK_6] = { "mask of x6", 8, WORDS(MASKS) },
    [MASK_7] = { "mask of x7", 8, WORDS(MASKS) },
    [INVERT] = { "inverted masks", 2, WORDS("no", "yes") },
    [ZEROING] = { "zeroing", 4, WORDS("none", "of all masks", "of x5's mask", "of x6's mask") },
    [WIDTH] = { "width", 4, WORDS("00", "of x5 01", "of x6 01", "of x7 01") },
    [MEMORY] = { "addresses", MEMORIES, WORDS("multiples of 8", "8n+1", "8n+4", "misaligned at the last",
                                              "outside memory at the last", "without memory") },
    [VALUES] = { "values", 5, WORDS("0", "-1", "-2^63", "mixed", "-2^63, x7 -1") },
    [BASE] = { "x5 at", 3, WORDS("64", "0", "1") },
    [ALLOWANCE] = { "allowance", 2, WORDS("VL", "65535") },
};

static const uint16_t limits[LIMITS] = { 0, 1, 4, 16, 0 }; /* the last is VL */
struct simplev_machine machine;
uint8_t memory[SIZE] __attribute__((aligned(16)));

/* The first choice is 24, all entries. */
static unsigned cfg_of(unsigned choice)
{
    return (24 + choice) % 32;
}

static unsigned key(const state s, unsigned operand)
{
    return s[KEYS] ? 5 : 5 + operand;
}

uint32_t word_with(const struct instruction *i, uint32_t five, uint32_t six, uint32_t seven)
{
    switch (i->form) {
    case REGISTER: return i->bits | five << 7 | six << 15 | seven << 20;
    case STORE: return i->bits | 8 << 7 | six << 15 | five << 20;
    case MOVE: return i->bits | five << 7 | six << 2;
    default: return i->bits | five << 7 | six << 15 | 8 << 20;
    }
}

static unsigned base_of(const state s, unsigned operand)
{
    static const uint8_t bases[] = { 64, 0, 1 };
    return operand ? s[BASE] ? 64 : 0 : bases[s[BASE]];
}

/* Masks stand among registers that are no addresses. */
static unsigned mask_register(const state s, unsigned operand)
{
    return base_of(s, s[KEYS] ? 1 : 0) + 20 + operand;
}

static void place(uint16_t *table, const state s, int place, int twice, const uint16_t *entries, uint16_t other)
{
    static const uint8_t twice_at[] = { 0, 0, 7, 8, 15 };
    for (int i = 0; i < 16; i++)
        table[i] = other;
    if (s[twice])
        table[twice_at[s[twice]]] = entries[0];
    for (int operand = 2; operand >= 0; operand--)
        if (entries[operand])
            table[(s[place] + operand) % 16] = entries[operand];
}

static unsigned zeroing_of(const state s, unsigned operand)
{
    return s[ZEROING] == 1 || s[ZEROING] == operand + 2;
}

static void place_entries(const state s)
{
    static const uint16_t others[] = { 0, 0x8089, 0x8005 }, mask_others[] = { 0, 0x4900, 0x2800 };
    uint16_t entries[3] = { 0 }, masks[3] = { 0 };
    for (unsigned operand = 0; operand < (s[KEYS] ? 1 : 3); operand++) {
        unsigned k = key(s, operand), base = base_of(s, operand);
        if (s[KIND_5 + operand] != 2)
            entries[operand] = (uint16_t)((s[KIND_5 + operand] ? 0 : 0x8000) | base << 8 | 0x80 | k |
                                          (s[WIDTH] == operand + 1 ? 0x20 : 0));
        if (s[MASK_5 + operand])
            masks[operand] = (uint16_t)(k << 11 | zeroing_of(s, operand) << 10 | s[INVERT] << 9 | 0x100 |
                                        mask_register(s, operand) << 1);
    }
    place(machine.register_table, s, PLACE, TWICE, entries, others[s[OTHERS]]);
    place(machine.predicate_table, s, MASK_PLACE, MASK_TWICE, masks, mask_others[s[MASK_OTHERS]]);
}

static uint64_t mask_word(const state s, unsigned operand, unsigned vl)
{
    static const uint8_t last[] = { 0, 64, 1, 4, 16 };
    static const uint64_t words[] = { 1, 0, 0x5555555555555555 };
    unsigned choice = s[MASK_5 + operand];
    uint64_t on = choice < 5 ? ~0ull << (vl < last[choice] ? 0 : vl - last[choice]) : words[choice - 5];
    return s[INVERT] ? ~on : on;
}

/* Addresses for the registers that x6 stands for; gives the size of the memory. At a scalar address the last element is
   misaligned only where the first is, and it is outside memory by the size. */
static size_t place_addresses(const state s, unsigned vl)
{
    static const uint8_t remainders[MEMORIES] = { [ODD] = 1, [FOUR_MORE] = 4 };
    unsigned base = base_of(s, s[KEYS] ? 0 : 1), bytes = 1u << (instructions[s[INSTRUCTION]].bits >> 12 & 3);
    int kind = s[s[KEYS] ? KIND_5 : KIND_6], vector = !kind;
    for (unsigned i = 0; i < vl; i++)
        machine.registers[base + i] = 8 * i + remainders[s[MEMORY]];
    if (kind == 2)
        machine.registers[key(s, 1)] = remainders[s[MEMORY]];
    if (vector && s[MEMORY] == LAST_MISALIGNED)
        machine.registers[base + vl - 1] += 1;
    if (vector && s[MEMORY] == LAST_OUTSIDE)
        machine.registers[base + vl - 1] = 1ull << 40;
    if (!vector && s[MEMORY] == LAST_OUTSIDE)
        return 8 + vl * bytes - 1;
    return s[MEMORY] == NO_MEMORY ? 0 : SIZE;
}

/* Values, masks and addresses; gives the size of the memory. */
static size_t place_values(const state s, unsigned vl)
{
    static const uint64_t values[] = { 0, ~0ull, 1ull << 63, 0, 1ull << 63 };
    enum form form = instructions[s[INSTRUCTION]].form;
    size_t size = SIZE;
    for (unsigned i = 0; i < 128; i++)
        machine.registers[i] = s[VALUES] == 3 ? i * 0x9e3779b97f4a7c15 : values[s[VALUES]];
    if (s[VALUES] == 4)
        machine.registers[7] = ~0ull;
    if (form == LOAD || form == STORE)
        size = place_addresses(s, vl);
    for (unsigned operand = 0; operand < 3; operand++)
        if (s[MASK_5 + operand])
            machine.registers[mask_register(s, operand)] = mask_word(s, operand, vl);
    machine.registers[0] = 0;
    return size;
}

uint16_t allowance_at(int limit, unsigned vl)
{
    return limit < LIMITS - 1 ? limits[limit] : (uint16_t)vl;
}

uint64_t counted_at(const state s, int limit, uint64_t *answer)
{
    static const uint8_t lengths[] = { 64, 63, 33, 2, 1 };
    unsigned vl = lengths[s[LENGTH]], last = vl - 1, one = vl > 1;
    const unsigned source[] = { 0, last, 0, last, one }, destination[] = { 0, last, last, 0, one };
    uint16_t allowance = s[ALLOWANCE] && limit == LIMITS - 1 ? 65535 : allowance_at(limit, vl);
    size_t size = place_values(s, vl);
    machine.control[SIMPLEV_PC] = 0;
    machine.control[SIMPLEV_MVL] = 64;
    machine.control[SIMPLEV_VL] = vl;
    machine.control[SIMPLEV_CFG] = cfg_of(s[CFG]);
    machine.control[SIMPLEV_SOURCE] = source[s[OFFSETS]];
    machine.control[SIMPLEV_DESTINATION] = destination[s[OFFSETS]];
    place_entries(s);
    return counted_run(&machine, word_with(&instructions[s[INSTRUCTION]], 5, key(s, 1), key(s, 2)), allowance, memory,
                       size, answer);
}

int choices_of(int factor)
{
    return factors[factor].choices;
}

void put_state(const state s)
{
    put_text(instructions[s[INSTRUCTION]].name);
    for (int f = INSTRUCTION + 1; f < FACTORS; f++)
        if (s[f]) {
            put_text(", ");
            put_text(factors[f].name);
            put_text(" ");
            if (factors[f].words)
                put_text(factors[f].words[s[f]]);
            else
                put_number(f == CFG ? cfg_of(s[f]) : s[f]);
        }
}

void put_limit(int limit)
{
    if (limit < LIMITS - 1)
        put_number(limits[limit]);
    else
        put_text("VL");
}
