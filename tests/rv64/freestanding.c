/* freestanding: a program with no library but this one, as firmware is. It brings what a compiler may call, memset and
 * memcpy, and makes a run of each kind. Ends with status 0, or with the number of the first check that does not hold,
 * by the call `exit` of Linux, as qemu-riscv64 serves it. */
#include "simplev.h"

/* The bytes are volatile, or the compiler makes a call of the same function of the loop. */
void *memset(void *to, int value, size_t size)
{
    volatile unsigned char *byte = to;
    for (size_t i = 0; i < size; i++)
        byte[i] = (unsigned char)value;
    return to;
}

void *memcpy(void *restrict to, const void *restrict from, size_t size)
{
    volatile unsigned char *byte = to;
    for (size_t i = 0; i < size; i++)
        byte[i] = ((const unsigned char *)from)[i];
    return to;
}

static struct simplev_machine m;
static uint8_t memory[64];

/* x5 is the vector of two at x40; x6 is 8, x7 is 5. */
static int start(void)
{
    uint64_t value;
    if (simplev_version() != SIMPLEV_VERSION_NUMBER)
        return 11;
    simplev_machine_fresh(&m);
    if (simplev_machine_set_mvl(&m, 2, &value) != SIMPLEV_DONE)
        return 1;
    if (simplev_machine_set_vl(&m, 2, &value) != SIMPLEV_DONE || value != 2)
        return 2;
    if (simplev_machine_set_register_entry(&m, 0, 0xa885, &value) != SIMPLEV_DONE)
        return 3;
    m.registers[6] = 8;
    m.registers[7] = 5;
    return 0;
}

static int runs(void)
{
    uint64_t address;
    if (simplev_machine_step(&m, 0x007302b3u, NULL, 0, &address) != SIMPLEV_PAUSED) /* ADD x5, x6, x7 */
        return 4;
    if (simplev_machine_run(&m, 0x007302b3u, 2, NULL, 0, &address) != SIMPLEV_DONE)
        return 5;
    if (m.registers[40] != 13 || m.registers[41] != 13)
        return 6;
    if (simplev_machine_run(&m, 0x829au, 2, NULL, 0, &address) != SIMPLEV_DONE || m.registers[41] != 8) /* C.MV */
        return 7;
    if (simplev_machine_run(&m, 0x00733023u, 2, memory, sizeof memory, &address) != SIMPLEV_DONE) /* SD x7, 0(x6) */
        return 8;
    if (memory[8] != 5)
        return 9;
    if (simplev_machine_run(&m, 0x00833283u, 2, memory, 24, &address) != SIMPLEV_FAULT || address != 24) /* LD x5, 8 */
        return 10;
    return 0;
}

static void __attribute__((noreturn, used)) begin(void)
{
    int wrong = start();
    register long status __asm__("a0") = wrong ? wrong : runs();
    register long call __asm__("a7") = 93;
    __asm__ volatile("ecall" : : "r"(status), "r"(call));
    __builtin_unreachable();
}

/* The linker's relaxation goes by gp, which is set before any C runs. */
__asm__(".globl _start\n"
        "_start:\n"
        ".option push\n"
        ".option norelax\n"
        "    lla gp, __global_pointer$\n"
        ".option pop\n"
        "    j begin\n");
