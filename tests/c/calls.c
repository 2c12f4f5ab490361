/* calls: each call of simplev.h from C, with an answer of every kind that it gives. What the calls do is proved; this
 * is for what no proof covers, that C and the library agree on the order, the width and the place of each parameter.
 * Prints how many checks hold, and ends with status 1 where one does not. */
#include "simplev.h"
#include <stdio.h>
#include <string.h>

static int checks, wrong;

#define CHECK(fact)                                          \
    do {                                                     \
        checks++;                                            \
        if (!(fact)) {                                       \
            wrong++;                                         \
            printf("line %d: not so: %s\n", __LINE__, #fact); \
        }                                                    \
    } while (0)

/* A call gives an answer, and a value in v. */
#define GIVES(call, answer, given) \
    do {                           \
        v = 99;                    \
        CHECK((call) == (answer)); \
        CHECK(v == (given));       \
    } while (0)

static struct simplev_machine m;
static uint64_t v;

static void fresh(void)
{
    static const struct simplev_machine zero;
    memset(&m, 0xa5, sizeof m);
    simplev_machine_fresh(&m);
    CHECK(memcmp(m.registers, zero.registers, sizeof m.registers) == 0);
    CHECK(memcmp(m.register_table, zero.register_table, sizeof m.register_table) == 0);
    CHECK(memcmp(m.predicate_table, zero.predicate_table, sizeof m.predicate_table) == 0);
    CHECK(m.control[SIMPLEV_PC] == 0 && m.control[SIMPLEV_MVL] == 1 && m.control[SIMPLEV_VL] == 1);
    CHECK(m.control[SIMPLEV_CFG] == 24 && m.control[SIMPLEV_SOURCE] == 0 && m.control[SIMPLEV_DESTINATION] == 0);
}

static void settings(void)
{
    GIVES(simplev_machine_set_mvl(&m, 40, &v), SIMPLEV_DONE, 0);
    GIVES(simplev_machine_set_mvl(&m, 0, &v), SIMPLEV_BAD_VALUE, 0);
    GIVES(simplev_machine_set_mvl(&m, 65, &v), SIMPLEV_BAD_VALUE, 0);
    CHECK(m.control[SIMPLEV_MVL] == 40 && m.control[SIMPLEV_VL] == 1);
    GIVES(simplev_machine_set_vl(&m, UINT64_C(1) << 63, &v), SIMPLEV_DONE, 40);
    GIVES(simplev_machine_set_vl(&m, 0, &v), SIMPLEV_BAD_VALUE, 0);
    CHECK(m.control[SIMPLEV_VL] == 40);
    GIVES(simplev_machine_set_vl_immediate(&m, 31, &v), SIMPLEV_DONE, 32);
    GIVES(simplev_machine_set_vl_immediate(&m, 32, &v), SIMPLEV_BAD_VALUE, 0);
    CHECK(m.control[SIMPLEV_VL] == 32);
    GIVES(simplev_machine_set_cfg(&m, 9, &v), SIMPLEV_DONE, 0);
    GIVES(simplev_machine_set_cfg(&m, 32, &v), SIMPLEV_BAD_VALUE, 0);
    CHECK(m.control[SIMPLEV_CFG] == 9);
    GIVES(simplev_machine_set_state_word(&m, 0x1814327fu, &v), SIMPLEV_DONE, 0);
    GIVES(simplev_machine_set_state_word(&m, 0x20000000u, &v), SIMPLEV_BAD_VALUE, 0);
    CHECK(m.control[SIMPLEV_MVL] == 64 && m.control[SIMPLEV_VL] == 10 && m.control[SIMPLEV_CFG] == 24);
    CHECK(m.control[SIMPLEV_SOURCE] == 3 && m.control[SIMPLEV_DESTINATION] == 5);
    GIVES(simplev_machine_set_pc(&m, UINT64_C(0xfedcba9876543210), &v), SIMPLEV_DONE, 0);
    CHECK(m.control[SIMPLEV_PC] == UINT64_C(0xfedcba9876543210));
    GIVES(simplev_machine_set_register(&m, 127, UINT64_C(0x8000000000000001), &v), SIMPLEV_DONE, 0);
    GIVES(simplev_machine_set_register(&m, 0, 5, &v), SIMPLEV_DONE, 0);
    GIVES(simplev_machine_set_register(&m, 128, 5, &v), SIMPLEV_NO_SUCH, 0);
    CHECK(m.registers[127] == UINT64_C(0x8000000000000001) && m.registers[0] == 0);
    GIVES(simplev_machine_set_register_entry(&m, 15, 0xffff, &v), SIMPLEV_DONE, 0);
    GIVES(simplev_machine_set_register_entry(&m, 16, 0, &v), SIMPLEV_NO_SUCH, 0);
    CHECK(m.register_table[15] == 0xffff && m.predicate_table[15] == 0);
    GIVES(simplev_machine_set_predicate_entry(&m, 14, 0xfffe, &v), SIMPLEV_DONE, 0);
    GIVES(simplev_machine_set_predicate_entry(&m, 14, 0xffff, &v), SIMPLEV_BAD_VALUE, 0);
    GIVES(simplev_machine_set_predicate_entry(&m, 16, 0xffff, &v), SIMPLEV_NO_SUCH, 0);
    CHECK(m.predicate_table[14] == 0xfffe && m.register_table[14] == 0);
}

static void readings(void)
{
    const struct simplev_machine before = m;
    GIVES(simplev_machine_read_mvl(&m, &v), SIMPLEV_DONE, 64);
    GIVES(simplev_machine_read_vl(&m, &v), SIMPLEV_DONE, 10);
    GIVES(simplev_machine_read_cfg(&m, &v), SIMPLEV_DONE, 24);
    GIVES(simplev_machine_read_state_word(&m, &v), SIMPLEV_DONE, 0x1814327f);
    GIVES(simplev_machine_read_pc(&m, &v), SIMPLEV_DONE, UINT64_C(0xfedcba9876543210));
    GIVES(simplev_machine_read_register(&m, 127, &v), SIMPLEV_DONE, UINT64_C(0x8000000000000001));
    GIVES(simplev_machine_read_register(&m, 128, &v), SIMPLEV_NO_SUCH, 0);
    GIVES(simplev_machine_read_register_entry(&m, 15, &v), SIMPLEV_DONE, 0xffff);
    GIVES(simplev_machine_read_register_entry(&m, 16, &v), SIMPLEV_NO_SUCH, 0);
    GIVES(simplev_machine_read_predicate_entry(&m, 14, &v), SIMPLEV_DONE, 0xfffe);
    GIVES(simplev_machine_read_predicate_entry(&m, 16, &v), SIMPLEV_NO_SUCH, 0);
    CHECK(memcmp(&m, &before, sizeof m) == 0);
}

/* Each answer of a run. The word is ADD x5, x6, x7, or SD x7, 0(x6). */
static void runs(void)
{
    const uint32_t add = 0x007302b3u, sd = 0x00733023u;
    uint8_t memory[16];
    memset(memory, 0, sizeof memory);
    simplev_machine_fresh(&m);
    GIVES(simplev_machine_set_mvl(&m, 64, &v), SIMPLEV_DONE, 0);
    GIVES(simplev_machine_set_vl(&m, 2, &v), SIMPLEV_DONE, 2);
    GIVES(simplev_machine_set_register_entry(&m, 0, 0xa885, &v), SIMPLEV_DONE, 0);
    GIVES(simplev_machine_set_register(&m, 6, 8, &v), SIMPLEV_DONE, 0);
    GIVES(simplev_machine_set_register(&m, 7, UINT64_C(0x0807060504030201), &v), SIMPLEV_DONE, 0);
    GIVES(simplev_machine_run(&m, add, 0, memory, 0, &v), SIMPLEV_PAUSED, 0);
    CHECK(m.registers[40] == 0);
    GIVES(simplev_machine_step(&m, add, memory, 0, &v), SIMPLEV_PAUSED, 0);
    CHECK(m.registers[40] == UINT64_C(0x0807060504030209) && m.registers[41] == 0);
    GIVES(simplev_machine_run(&m, add, 65535, memory, 0, &v), SIMPLEV_DONE, 0);
    CHECK(m.registers[41] == UINT64_C(0x0807060504030209) && m.control[SIMPLEV_PC] == 4);
    GIVES(simplev_machine_run(&m, 0, 1, memory, 0, &v), SIMPLEV_UNKNOWN_WORD, 0);
    GIVES(simplev_machine_set_register_entry(&m, 1, 0xff86, &v), SIMPLEV_DONE, 0);
    GIVES(simplev_machine_run(&m, add, 1, memory, 0, &v), SIMPLEV_PAST_REGISTERS, 0);
    GIVES(simplev_machine_set_register_entry(&m, 1, 0x06a6, &v), SIMPLEV_DONE, 0);
    GIVES(simplev_machine_run(&m, add, 1, memory, 0, &v), SIMPLEV_BAD_WIDTH, 0);
    GIVES(simplev_machine_set_register_entry(&m, 1, 0, &v), SIMPLEV_DONE, 0);
    GIVES(simplev_machine_step(&m, sd, memory, sizeof memory, &v), SIMPLEV_DONE, 0);
    CHECK(memory[7] == 0 && memory[8] == 1 && memory[15] == 8);
    GIVES(simplev_machine_run(&m, sd, 9, memory, 15, &v), SIMPLEV_FAULT, 8);
}

/* A misaligned access, to which a mask skips: its address is given, and nothing changes but the offsets. The words are
 * LD x5, 0(x6) and SD x5, 0(x6), where x5 is the vector at x40 and x6 the one at x50. */
static void misaligned(void)
{
    const uint32_t ld = 0x00033283u, sd = 0x00533023u;
    uint8_t memory[32], zero[32];
    struct simplev_machine expected;
    memset(memory, 0, sizeof memory);
    memset(zero, 0, sizeof zero);
    simplev_machine_fresh(&m);
    GIVES(simplev_machine_set_state_word(&m, 0x180000c3u, &v), SIMPLEV_DONE, 0); /* MVL 4, VL 4 */
    GIVES(simplev_machine_set_register_entry(&m, 0, 0xa885, &v), SIMPLEV_DONE, 0);
    GIVES(simplev_machine_set_register_entry(&m, 1, 0xb286, &v), SIMPLEV_DONE, 0);
    GIVES(simplev_machine_set_predicate_entry(&m, 0, 0x3106, &v), SIMPLEV_DONE, 0); /* mask of x6: x3 */
    GIVES(simplev_machine_set_register(&m, 3, 12, &v), SIMPLEV_DONE, 0);
    GIVES(simplev_machine_set_register(&m, 40, 5, &v), SIMPLEV_DONE, 0);
    GIVES(simplev_machine_set_register(&m, 52, 20, &v), SIMPLEV_DONE, 0);
    expected = m;
    expected.control[SIMPLEV_SOURCE] = 2;
    GIVES(simplev_machine_run(&m, ld, 65535, memory, sizeof memory, &v), SIMPLEV_MISALIGNED, 20);
    CHECK(memcmp(&m, &expected, sizeof m) == 0);
    GIVES(simplev_machine_set_vl(&m, 4, &v), SIMPLEV_DONE, 4);
    expected = m;
    expected.control[SIMPLEV_DESTINATION] = 2;
    GIVES(simplev_machine_run(&m, sd, 65535, memory, sizeof memory, &v), SIMPLEV_MISALIGNED, 20);
    CHECK(memcmp(&m, &expected, sizeof m) == 0 && memcmp(memory, zero, sizeof memory) == 0);
    GIVES(simplev_machine_step(&m, sd, NULL, 0, &v), SIMPLEV_MISALIGNED, 20);
    GIVES(simplev_machine_set_register(&m, 52, UINT64_MAX, &v), SIMPLEV_DONE, 0);
    GIVES(simplev_machine_run(&m, sd, 1, memory, sizeof memory, &v), SIMPLEV_MISALIGNED, UINT64_MAX);
    GIVES(simplev_machine_set_register(&m, 52, 32, &v), SIMPLEV_DONE, 0);
    GIVES(simplev_machine_run(&m, sd, 1, memory, sizeof memory, &v), SIMPLEV_FAULT, 32);
    GIVES(simplev_machine_set_register(&m, 52, 24, &v), SIMPLEV_DONE, 0);
    GIVES(simplev_machine_step(&m, sd, memory, sizeof memory, &v), SIMPLEV_PAUSED, 0);
    CHECK(memory[24] == 5 && m.control[SIMPLEV_SOURCE] == 1 && m.control[SIMPLEV_DESTINATION] == 3);
}

/* Zeroing: at an off position a 0 is moved; a load has no access there, a store has. The words are C.MV x5, x6, LD x5,
 * 0(x6) and SD x5, 0(x6), where x5 is the vector at x40 and x6 the one at x50. */
static void zeroing(void)
{
    const uint32_t mv = 0x829au, ld = 0x00033283u, sd = 0x00533023u;
    uint8_t memory[16];
    struct simplev_machine expected;
    memset(memory, 0xff, sizeof memory);
    simplev_machine_fresh(&m);
    GIVES(simplev_machine_set_state_word(&m, 0x180000c3u, &v), SIMPLEV_DONE, 0); /* MVL 4, VL 4 */
    GIVES(simplev_machine_set_register_entry(&m, 0, 0xa885, &v), SIMPLEV_DONE, 0);
    GIVES(simplev_machine_set_register_entry(&m, 1, 0xb286, &v), SIMPLEV_DONE, 0);
    GIVES(simplev_machine_set_predicate_entry(&m, 0, 0x2d06, &v), SIMPLEV_DONE, 0); /* mask of x5: x3, zeroing */
    GIVES(simplev_machine_set_register(&m, 3, 5, &v), SIMPLEV_DONE, 0);
    for (uint32_t k = 0; k < 4; k++) {
        GIVES(simplev_machine_set_register(&m, 40 + k, 9, &v), SIMPLEV_DONE, 0);
        GIVES(simplev_machine_set_register(&m, 50 + k, 1 + k, &v), SIMPLEV_DONE, 0);
    }
    GIVES(simplev_machine_run(&m, mv, 65535, NULL, 0, &v), SIMPLEV_DONE, 0);
    CHECK(m.registers[40] == 1 && m.registers[41] == 0 && m.registers[42] == 3 && m.registers[43] == 0);
    GIVES(simplev_machine_set_register(&m, 3, 0, &v), SIMPLEV_DONE, 0);
    GIVES(simplev_machine_step(&m, ld, NULL, 0, &v), SIMPLEV_PAUSED, 0);
    CHECK(m.registers[40] == 0 && m.registers[42] == 3);
    CHECK(m.control[SIMPLEV_SOURCE] == 1 && m.control[SIMPLEV_DESTINATION] == 1);
    GIVES(simplev_machine_run(&m, ld, 65535, memory, sizeof memory, &v), SIMPLEV_DONE, 0);
    CHECK(m.registers[42] == 0 && m.control[SIMPLEV_PC] == 6);
    GIVES(simplev_machine_set_register(&m, 40, 9, &v), SIMPLEV_DONE, 0);
    GIVES(simplev_machine_set_register(&m, 50, 8, &v), SIMPLEV_DONE, 0);
    expected = m;
    GIVES(simplev_machine_run(&m, sd, 65535, NULL, 0, &v), SIMPLEV_FAULT, 8);
    CHECK(memcmp(&m, &expected, sizeof m) == 0);
    expected.control[SIMPLEV_SOURCE] = expected.control[SIMPLEV_DESTINATION] = 1;
    GIVES(simplev_machine_run(&m, sd, 65535, memory, sizeof memory, &v), SIMPLEV_MISALIGNED, 2);
    CHECK(memcmp(&m, &expected, sizeof m) == 0);
    CHECK(memory[7] == 0xff && memory[8] == 0 && memory[15] == 0);
}

/* A run of each kind, and a step, on a memory of no bytes: NULL, whatever the size says. */
static void without_memory(void)
{
    static const size_t sizes[] = {0, 4096};
    for (int i = 0; i < 2; i++) {
        const size_t size = sizes[i];
        struct simplev_machine before;
        simplev_machine_fresh(&m);
        GIVES(simplev_machine_set_mvl(&m, 2, &v), SIMPLEV_DONE, 0);
        GIVES(simplev_machine_set_vl(&m, 2, &v), SIMPLEV_DONE, 2);
        GIVES(simplev_machine_set_register_entry(&m, 0, 0xa885, &v), SIMPLEV_DONE, 0);
        GIVES(simplev_machine_set_register(&m, 6, 8, &v), SIMPLEV_DONE, 0);
        GIVES(simplev_machine_set_register(&m, 7, 5, &v), SIMPLEV_DONE, 0);
        /* ADD x5, x6, x7, where x5 is the vector of two at x40 */
        GIVES(simplev_machine_run(&m, 0x007302b3u, 2, NULL, size, &v), SIMPLEV_DONE, 0);
        CHECK(m.registers[40] == 13 && m.registers[41] == 13 && m.control[SIMPLEV_PC] == 4);
        /* C.MV x5, x6, a step and the rest */
        GIVES(simplev_machine_step(&m, 0x829au, NULL, size, &v), SIMPLEV_PAUSED, 0);
        GIVES(simplev_machine_run(&m, 0x829au, 2, NULL, size, &v), SIMPLEV_DONE, 0);
        CHECK(m.registers[40] == 8 && m.registers[41] == 8 && m.control[SIMPLEV_PC] == 6);
        /* LD x5, 8(x6), LB x5, -8(x6) and SD x7, 0(x6) fault at their first access */
        before = m;
        GIVES(simplev_machine_run(&m, 0x00833283u, 2, NULL, size, &v), SIMPLEV_FAULT, 16);
        GIVES(simplev_machine_step(&m, 0xff830283u, NULL, size, &v), SIMPLEV_FAULT, 0);
        GIVES(simplev_machine_run(&m, 0x00733023u, 2, NULL, size, &v), SIMPLEV_FAULT, 8);
        CHECK(memcmp(&m, &before, sizeof m) == 0);
    }
}

/* Every call but fresh, on a machine out of shape. */
static void out_of_shape(void)
{
    struct simplev_machine before;
    uint8_t memory[8];
    m.predicate_table[15] = 1;
    before = m;
    GIVES(simplev_machine_run(&m, 0x007302b3u, 1, memory, 0, &v), SIMPLEV_OUT_OF_SHAPE, 0);
    GIVES(simplev_machine_step(&m, 0x007302b3u, memory, 0, &v), SIMPLEV_OUT_OF_SHAPE, 0);
    GIVES(simplev_machine_set_vl(&m, 1, &v), SIMPLEV_OUT_OF_SHAPE, 0);
    GIVES(simplev_machine_set_vl_immediate(&m, 1, &v), SIMPLEV_OUT_OF_SHAPE, 0);
    GIVES(simplev_machine_set_mvl(&m, 1, &v), SIMPLEV_OUT_OF_SHAPE, 0);
    GIVES(simplev_machine_set_cfg(&m, 1, &v), SIMPLEV_OUT_OF_SHAPE, 0);
    GIVES(simplev_machine_set_state_word(&m, 0, &v), SIMPLEV_OUT_OF_SHAPE, 0);
    GIVES(simplev_machine_set_pc(&m, 1, &v), SIMPLEV_OUT_OF_SHAPE, 0);
    GIVES(simplev_machine_set_register(&m, 128, 1, &v), SIMPLEV_OUT_OF_SHAPE, 0);
    GIVES(simplev_machine_set_register_entry(&m, 16, 1, &v), SIMPLEV_OUT_OF_SHAPE, 0);
    GIVES(simplev_machine_set_predicate_entry(&m, 15, 0, &v), SIMPLEV_OUT_OF_SHAPE, 0);
    GIVES(simplev_machine_read_vl(&m, &v), SIMPLEV_OUT_OF_SHAPE, 0);
    GIVES(simplev_machine_read_mvl(&m, &v), SIMPLEV_OUT_OF_SHAPE, 0);
    GIVES(simplev_machine_read_cfg(&m, &v), SIMPLEV_OUT_OF_SHAPE, 0);
    GIVES(simplev_machine_read_pc(&m, &v), SIMPLEV_OUT_OF_SHAPE, 0);
    GIVES(simplev_machine_read_state_word(&m, &v), SIMPLEV_OUT_OF_SHAPE, 0);
    GIVES(simplev_machine_read_register(&m, 128, &v), SIMPLEV_OUT_OF_SHAPE, 0);
    GIVES(simplev_machine_read_register_entry(&m, 16, &v), SIMPLEV_OUT_OF_SHAPE, 0);
    GIVES(simplev_machine_read_predicate_entry(&m, 16, &v), SIMPLEV_OUT_OF_SHAPE, 0);
    CHECK(memcmp(&m, &before, sizeof m) == 0);
}

/* The archive is that of the header, whose text and numbers say the same. */
static void version(void)
{
    char text[32];
    snprintf(text, sizeof text, "%d.%d.%d", SIMPLEV_VERSION_MAJOR, SIMPLEV_VERSION_MINOR, SIMPLEV_VERSION_PATCH);
    CHECK(strcmp(text, SIMPLEV_VERSION) == 0);
    CHECK(simplev_version() == SIMPLEV_VERSION_NUMBER);
}

int main(void)
{
    version();
    fresh();
    settings();
    readings();
    runs();
    misaligned();
    zeroing();
    without_memory();
    out_of_shape();
    printf("%d of %d checks hold\n", checks - wrong, checks);
    return wrong != 0;
}
