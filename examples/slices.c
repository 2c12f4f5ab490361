/* slices: one vector ADD, done in slices of three elements, as an interrupt handler would that must not stay away for
 * long. Between the slices comes other work: once it takes the same machine, which is copied out before and written
 * back after; once the rest goes on in another machine. Then a load that faults, and goes on when its memory is there.
 *
 * Prints what happens, checks it, and ends with status 1 where something is not as it should be. Build it with
 *
 *     tools/library
 *     gcc -Iinclude examples/slices.c target/staticlib/libsimplev.a -o slices
 */
#include "simplev.h"
#include <inttypes.h>
#include <stdio.h>
#include <string.h>

#define ADD_X5_X6_X7 0x007302b3u
#define ADDI_X10_X10_2 0x00250513u
#define LD_X5_8_X6 0x00833283u

static int wrong;

static void expect(int holds, const char *what)
{
    if (!holds) {
        printf("WRONG: %s\n", what);
        wrong = 1;
    }
}

/* A setting or reading call that has to be accepted: its answer goes through here. */
static void accepted(uint32_t answer)
{
    expect(answer == SIMPLEV_DONE, "a setting or reading call was refused");
}

/* What a machine holds, as the reading calls give it. */
struct saved {
    uint64_t registers[SIMPLEV_REGISTERS];
    uint64_t pc;
    uint64_t state_word;
    uint64_t register_table[SIMPLEV_ENTRIES];
    uint64_t predicate_table[SIMPLEV_ENTRIES];
};

static void copy_out(const struct simplev_machine *m, struct saved *to)
{
    for (uint32_t i = 0; i < SIMPLEV_REGISTERS; i++)
        accepted(simplev_machine_read_register(m, i, &to->registers[i]));
    for (uint32_t i = 0; i < SIMPLEV_ENTRIES; i++) {
        accepted(simplev_machine_read_register_entry(m, i, &to->register_table[i]));
        accepted(simplev_machine_read_predicate_entry(m, i, &to->predicate_table[i]));
    }
    accepted(simplev_machine_read_pc(m, &to->pc));
    accepted(simplev_machine_read_state_word(m, &to->state_word));
}

static void write_back(struct simplev_machine *m, const struct saved *from)
{
    uint64_t value;
    for (uint32_t i = 0; i < SIMPLEV_REGISTERS; i++)
        accepted(simplev_machine_set_register(m, i, from->registers[i], &value));
    for (uint32_t i = 0; i < SIMPLEV_ENTRIES; i++) {
        accepted(simplev_machine_set_register_entry(m, i, (uint16_t)from->register_table[i], &value));
        accepted(simplev_machine_set_predicate_entry(m, i, (uint16_t)from->predicate_table[i], &value));
    }
    accepted(simplev_machine_set_pc(m, from->pc, &value));
    accepted(simplev_machine_set_state_word(m, (uint32_t)from->state_word, &value));
}

/* x5 is the vector of ten that begins at x40, x6 the one at x60, which holds 1 to 10, and x7 is 100. */
static void set_up(struct simplev_machine *m)
{
    uint64_t value;
    simplev_machine_fresh(m);
    accepted(simplev_machine_set_mvl(m, 10, &value));
    accepted(simplev_machine_set_vl(m, 64, &value));
    expect(value == 10, "VL is cut to MVL");
    accepted(simplev_machine_set_register_entry(m, 0, 0xa885, &value));
    accepted(simplev_machine_set_register_entry(m, 1, 0xbc86, &value));
    accepted(simplev_machine_set_register(m, 7, 100, &value));
    for (uint32_t i = 0; i < 10; i++)
        accepted(simplev_machine_set_register(m, 60 + i, i + 1, &value));
}

/* The interrupt's own work: another instruction, on a machine of which it keeps nothing. */
static void other_work(struct simplev_machine *m, uint8_t *memory)
{
    uint64_t value, address;
    simplev_machine_fresh(m);
    accepted(simplev_machine_set_register(m, 10, 40, &value));
    expect(simplev_machine_step(m, ADDI_X10_X10_2, memory, 0, &address) == SIMPLEV_DONE,
           "the interrupt's ADDI is done");
    printf("  interrupt: x10 is %" PRIu64 "\n", m->registers[10]);
    expect(m->registers[10] == 42, "the interrupt's x10 is 42");
}

static void add_in_slices(void)
{
    struct simplev_machine whole, first, second, *m = &first;
    struct saved saved;
    uint8_t memory[1];
    uint64_t address;
    uint32_t answer = SIMPLEV_PAUSED;

    set_up(&whole);
    expect(simplev_machine_run(&whole, ADD_X5_X6_X7, 10, memory, 0, &address) == SIMPLEV_DONE, "one call does it all");

    set_up(&first);
    for (int slice = 1; answer == SIMPLEV_PAUSED; slice++) {
        answer = simplev_machine_run(m, ADD_X5_X6_X7, 3, memory, 0, &address);
        printf("slice %d: answer %" PRIu32 ", pc %" PRIu64 ", next element %" PRIu64 "\n", slice, answer,
               m->control[SIMPLEV_PC], m->control[SIMPLEV_DESTINATION]);
        expect(address == 0, "no address without a fault");
        if (slice == 1) {
            copy_out(m, &saved);
            other_work(m, memory);
            write_back(m, &saved);
        }
        if (slice == 2) {
            copy_out(m, &saved);
            simplev_machine_fresh(&second);
            write_back(&second, &saved);
            memset(m, 0xff, sizeof *m);
            m = &second;
            printf("  the rest goes on in another machine\n");
        }
    }
    expect(answer == SIMPLEV_DONE, "the slices end");
    printf("x40 to x49:");
    for (int i = 40; i < 50; i++)
        printf(" %" PRIu64, m->registers[i]);
    printf("\n");
    expect(memcmp(m, &whole, sizeof whole) == 0, "the slices leave what one call leaves");
}

/* LD x5, 8(x6) with x6 = 16 and VL 3 loads from 24, 32 and 40. */
static void load_with_a_fault(void)
{
    struct simplev_machine m, before;
    uint8_t memory[48] = {0};
    uint64_t value, address;
    uint32_t answer;

    simplev_machine_fresh(&m);
    accepted(simplev_machine_set_mvl(&m, 64, &value));
    accepted(simplev_machine_set_vl(&m, 3, &value));
    accepted(simplev_machine_set_register_entry(&m, 0, 0xa885, &value));
    accepted(simplev_machine_set_register(&m, 6, 16, &value));
    memory[24] = 7;
    memory[33] = 1;
    memory[40] = 9;
    answer = simplev_machine_run(&m, LD_X5_8_X6, 65535, memory, 40, &address);
    printf("load from 40 bytes: answer %" PRIu32 ", address %" PRIu64 ", pc %" PRIu64 ", at element %" PRIu64 "\n",
           answer, address, m.control[SIMPLEV_PC], m.control[SIMPLEV_SOURCE]);
    expect(answer == SIMPLEV_FAULT && address == 40, "the third access faults, at 40");
    expect(m.control[SIMPLEV_SOURCE] == 2 && m.control[SIMPLEV_DESTINATION] == 2, "the offsets stand at it");
    answer = simplev_machine_run(&m, LD_X5_8_X6, 65535, memory, 48, &address);
    printf("load from 48 bytes: answer %" PRIu32 ", address %" PRIu64 ", pc %" PRIu64, answer, address,
           m.control[SIMPLEV_PC]);
    printf(", x40 to x42: %" PRIu64 " %" PRIu64 " %" PRIu64 "\n", m.registers[40], m.registers[41], m.registers[42]);
    expect(answer == SIMPLEV_DONE && address == 0, "with its memory there the load goes on, and ends");
    expect(m.registers[40] == 7 && m.registers[41] == 256 && m.registers[42] == 9, "three elements are loaded");

    m.control[SIMPLEV_VL] = UINT64_C(1) << 40;
    before = m;
    answer = simplev_machine_run(&m, LD_X5_8_X6, 65535, memory, 48, &address);
    printf("with VL 2^40: answer %" PRIu32 "\n", answer);
    expect(answer == SIMPLEV_OUT_OF_SHAPE, "a machine out of shape is refused");
    expect(memcmp(&m, &before, sizeof m) == 0, "and unchanged");
}

int main(void)
{
    add_in_slices();
    load_with_a_fault();
    return wrong;
}
