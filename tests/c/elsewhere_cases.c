/* elsewhere_cases: run_elsewhere of examples/elsewhere.c on random loads and stores, beside the same words on a memory
 * from 0 in which RAM stands at its own address, so that no register has to hold a distance. Prints how many cases were
 * the same, and ends with status 1 at the first that is not. */
#define BASE UINT64_C(8192)
#define main example
#include "../../examples/elsewhere.c"
#undef main
#include "../random.h"
#include <string.h>

#define CASES 50000
#define MASKS 120 /* mask registers are from here on, all others below */

static uint8_t whole[BASE + sizeof ram];
static unsigned long answers[10], in_one_call, by_element;

/* Element by element: a step without memory gives the address; one that is misaligned or not in RAM is the fault. */
static uint32_t run_expected(struct simplev_machine *to, uint32_t word, uint16_t allowance, uint64_t *address)
{
    const uint64_t bytes = UINT64_C(1) << (word >> 12 & 3);
    uint32_t answer = simplev_machine_run(to, word, 0, NULL, 0, address);
    for (; allowance > 0 && answer == SIMPLEV_PAUSED; allowance--) {
        answer = simplev_machine_step(to, word, NULL, 0, address);
        if (answer == SIMPLEV_FAULT && *address >= BASE && *address <= sizeof whole - bytes)
            answer = simplev_machine_step(to, word, whole, sizeof whole, address);
    }
    return answer;
}

/* Mostly divisible by 8, so that most accesses are aligned. */
static uint64_t divisible(uint64_t number)
{
    return percent(95) ? number & ~UINT64_C(7) : number;
}

/* Mostly an address in RAM, with room for the offsets that most words have. */
static uint64_t value(void)
{
    const uint64_t in_ram = BASE + below(sizeof ram - 80);
    return percent(95) ? divisible(in_ram) : any() % (2 * BASE);
}

/* Four keys, whose registers are few, so that operands overlap. */
static void fill(struct simplev_machine *to)
{
    const uint64_t vl = 1 + below(8), more = below(3);
    simplev_machine_fresh(to);
    to->control[SIMPLEV_MVL] = vl + more;
    to->control[SIMPLEV_VL] = vl;
    to->control[SIMPLEV_CFG] = percent(80) ? 24 : below(32);
    to->control[SIMPLEV_SOURCE] = percent(30) ? below(vl) : 0;
    to->control[SIMPLEV_DESTINATION] = percent(30) ? below(vl) : 0;
    for (int k = 1; k < SIMPLEV_REGISTERS; k++)
        to->registers[k] = k < MASKS ? value() : any();
    for (int k = 0; k < SIMPLEV_ENTRIES; k++) {
        const unsigned vector = (unsigned)below(2), first = (unsigned)below(percent(90) ? 20 : MASKS - 8);
        const unsigned key = 4 + (unsigned)below(4), flags = (unsigned)below(4), mask = MASKS + (unsigned)below(8);
        if (percent(50))
            to->register_table[k] = (uint16_t)(vector << 15 | first << 8 | 0x80 | key);
        if (percent(30))
            to->predicate_table[k] = (uint16_t)(key << 11 | flags << 9 | 0x100 | mask << 1);
    }
}

/* A load or a store of keys 4 to 7, at times by register 0, at times with any offset. */
static uint32_t load_or_store(void)
{
    const uint32_t address = percent(90) ? 4 + (uint32_t)below(4) : 0, other = 4 + (uint32_t)below(4);
    const uint32_t any_offset = percent(90) ? (uint32_t)below(64) : (uint32_t)below(4096);
    const uint32_t offset = (uint32_t)divisible(any_offset);
    if (percent(50))
        return offset << 20 | address << 15 | (uint32_t)below(7) << 12 | other << 7 | 0x03;
    return offset >> 5 << 25 | other << 20 | address << 15 | (uint32_t)below(4) << 12 | (offset & 31) << 7 | 0x23;
}

/* Up to five calls, while they pause. */
static int same(uint32_t word)
{
    struct simplev_machine one, two;
    struct access a;
    fill(&one);
    two = one;
    a = access_of(&one, word);
    *(is_apart(&a) ? &in_one_call : &by_element) += 1;
    for (size_t k = 0; k < sizeof ram; k += 8)
        put(k, percent(70) ? value() : any());
    memcpy(whole + BASE, ram, sizeof ram);
    for (int k = 0; k < 5; k++) {
        const uint16_t allowance = percent(50) ? (uint16_t)below(5) : 64;
        uint64_t address = 1, expected = 2;
        const uint32_t answer = run_elsewhere(&one, word, allowance, &address);
        if (answer != run_expected(&two, word, allowance, &expected) || address != expected)
            return 0;
        if (memcmp(&one, &two, sizeof one) != 0 || memcmp(ram, whole + BASE, sizeof ram) != 0)
            return 0;
        answers[answer]++;
        if (answer != SIMPLEV_PAUSED)
            break;
    }
    return 1;
}

int main(void)
{
    for (int k = 0; k < CASES; k++) {
        const uint32_t word = load_or_store();
        if (!same(word)) {
            printf("case %d, word 0x%08" PRIx32 ": another answer or another state\n", k, word);
            return 1;
        }
    }
    printf("%d loads and stores on RAM elsewhere are right: %lu in one call, %lu by element; ", CASES, in_one_call,
           by_element);
    printf("%lu done, %lu paused, %lu not in RAM, %lu misaligned\n", answers[SIMPLEV_DONE], answers[SIMPLEV_PAUSED],
           answers[SIMPLEV_FAULT], answers[SIMPLEV_MISALIGNED]);
    return in_one_call == 0 || by_element == 0 || answers[SIMPLEV_PAUSED] == 0 || answers[SIMPLEV_FAULT] == 0 ||
           answers[SIMPLEV_MISALIGNED] == 0;
}
