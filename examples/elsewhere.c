/* elsewhere: loads and stores on RAM that begins at BASE and not at address 0. The library's addresses begin at 0, so a
 * register with an address holds its distance from BASE for the time of a call, and the address itself at all other
 * times. run_elsewhere is to a run on such RAM what simplev_machine_run is to one on memory from 0.
 *
 * It asks three things. BASE is divisible by 8, so that an address is misaligned exactly where its distance is. RAM is
 * not in the lowest or highest 4096 addresses, so that an access by register 0, which can't hold a distance, is a
 * memory fault. And no mask register set for an operand is one with an address or one that the word may write, since an
 * address may change, and masks may be read, between two elements.
 *
 * Prints what happens, in hexadecimal, checks it, and ends with status 1 where something is not as it should be. Build
 * it as examples/slices.c. */
#include "simplev.h"
#include <inttypes.h>
#include <stdio.h>

#ifndef BASE
#define BASE UINT64_C(0x80000000)
#endif
_Static_assert(BASE % 8 == 0, "an address and its distance from BASE are divisible alike");
static uint8_t ram[256]; /* what lies at BASE; on the core itself a pointer to BASE */

/* --- run_elsewhere --- */

/* The highest enabled entry of a table that has these bits in these places, as the library finds it, or 0. */
static unsigned entry_of(const struct simplev_machine *m, const uint16_t *table, unsigned places, unsigned bits)
{
    const unsigned cfg = (unsigned)m->control[SIMPLEV_CFG], bank = 2 * (cfg & 7), end = bank + (2u << (cfg >> 3));
    for (unsigned k = end < SIMPLEV_ENTRIES ? end : SIMPLEV_ENTRIES; k > bank && cfg != 31; k--)
        if ((table[k - 1] & places) == bits)
            return table[k - 1];
    return 0;
}

/* The registers that an operand stands for: `count` from `first` on. */
struct operand {
    unsigned key, first, count;
    int vector;
};

static struct operand operand_of(const struct simplev_machine *m, unsigned key)
{
    const unsigned entry = entry_of(m, m->register_table, 0x9f, 0x80 | key);
    const int vector = entry >> 15 != 0;
    return (struct operand){key, entry ? entry >> 8 & 127 : key, vector ? (unsigned)m->control[SIMPLEV_VL] : 1, vector};
}

static int is_off(const struct simplev_machine *m, unsigned key, uint64_t position)
{
    const unsigned entry = entry_of(m, m->predicate_table, 0xf900, key << 11 | 0x100);
    return entry && (m->registers[entry >> 1 & 127] >> position & 1) == (entry >> 9 & 1);
}

/* The operands of a load or store, and the bytes of an access. */
struct access {
    struct operand address, value;
    unsigned bytes;
    int store;
};

static struct access access_of(const struct simplev_machine *m, uint32_t word)
{
    const int store = (word & 0x7f) == 0x23;
    return (struct access){operand_of(m, word >> 15 & 31), operand_of(m, word >> (store ? 20 : 7) & 31),
                           1u << (word >> 12 & 3), store};
}

/* Whether no register of the address is register 0, or one that is loaded or stored. */
static int is_apart(const struct access *a)
{
    return a->address.first > 0 && (a->address.first + a->address.count <= a->value.first ||
                                    a->value.first + a->value.count <= a->address.first);
}

/* All in one call: every register of the address holds a distance, and after it the address again. */
static uint32_t run_whole(struct simplev_machine *m, const struct access *a, uint32_t word, uint16_t allowance,
                          uint64_t *address)
{
    uint32_t answer;
    for (unsigned k = 0; k < a->address.count; k++)
        m->registers[a->address.first + k] -= BASE;
    answer = simplev_machine_run(m, word, allowance, ram, sizeof ram, address);
    for (unsigned k = 0; k < a->address.count; k++)
        m->registers[a->address.first + k] += BASE;
    if (answer == SIMPLEV_FAULT || answer == SIMPLEV_MISALIGNED)
        *address += BASE;
    return answer;
}

/* Whether the store that stands at a pair of positions is one of 0. It stands at no off position but with zeroing; a
 * scalar's mask isn't looked at, but an address walks always. */
static int stores_0(const struct simplev_machine *m, const struct access *a)
{
    return is_off(m, a->address.key, m->control[SIMPLEV_DESTINATION]) ||
           (a->value.vector && is_off(m, a->value.key, m->control[SIMPLEV_SOURCE]));
}

/* One element. Without memory a step comes to stand at the next element, gives its address as that of a memory fault,
 * and does nothing else; where there is none it ends the instruction, and a load of 0, which has no access, it does.
 * Then the registers of this element are known. An answer of MISALIGNED is that of the access, wherever its address
 * is. */
static uint32_t step_elsewhere(struct simplev_machine *m, const struct access *a, uint32_t word, uint64_t *address)
{
    uint32_t answer = simplev_machine_step(m, word, NULL, 0, address);
    const uint64_t source = m->control[SIMPLEV_SOURCE], destination = m->control[SIMPLEV_DESTINATION];
    const uint64_t at = *address - BASE;
    const unsigned holder = a->address.first + (a->address.count > 1 ? (unsigned)(a->store ? destination : source) : 0);
    const unsigned value = a->value.first + (a->value.count > 1 ? (unsigned)(a->store ? source : destination) : 0);
    const int distance_stored = holder == value && a->store && !stores_0(m, a);
    if (answer != SIMPLEV_FAULT || at > sizeof ram - a->bytes) /* misaligned, or not in RAM, as all by register 0 */
        return answer;
    m->registers[holder] -= BASE;
    answer = simplev_machine_step(m, word, ram, sizeof ram, address);
    if (holder != value || a->store) /* else it holds what was loaded */
        m->registers[holder] += BASE;
    if (distance_stored) /* the address belongs there */
        for (unsigned k = 0; k < a->bytes; k++)
            ram[at + k] = (uint8_t)(m->registers[holder] >> 8 * k);
    return answer;
}

static uint32_t run_elsewhere(struct simplev_machine *m, uint32_t word, uint16_t allowance, uint64_t *address)
{
    struct access a;
    uint32_t answer;
    if ((word & 0x5f) != 0x03) /* no load and no store */
        return simplev_machine_run(m, word, allowance, NULL, 0, address);
    answer = simplev_machine_run(m, word, 0, NULL, 0, address);
    if (answer != SIMPLEV_PAUSED) /* refused: the operands may be past the registers */
        return answer;
    a = access_of(m, word);
    if (is_apart(&a))
        return run_whole(m, &a, word, allowance, address);
    for (; allowance > 0 && answer == SIMPLEV_PAUSED; allowance--)
        answer = step_elsewhere(m, &a, word, address);
    return answer;
}

/* --- what it does --- */

#define LD_X5_8_X6 0x00833283u
#define SD_X6_0_X6 0x00633023u
#define LD_X5_16_X0 0x01003283u
#define LD_X5_12_X0 0x00c03283u

static struct simplev_machine m;
static int wrong;

static void expect(int holds, const char *what)
{
    if (!holds) {
        printf("WRONG: %s\n", what);
        wrong = 1;
    }
}

static void put(uint64_t at, uint64_t value)
{
    for (int k = 0; k < 8; k++)
        ram[at + k] = (uint8_t)(value >> 8 * k);
}

static uint64_t get(uint64_t at)
{
    uint64_t value = 0;
    for (int k = 0; k < 8; k++)
        value |= (uint64_t)ram[at + k] << 8 * k;
    return value;
}

/* x5 is the vector of four at x40, x6 what the entry says. */
static void set_up(uint16_t entry)
{
    simplev_machine_fresh(&m);
    m.control[SIMPLEV_MVL] = m.control[SIMPLEV_VL] = 4;
    m.register_table[0] = 0xa885;
    m.register_table[1] = entry;
    for (uint64_t k = 0; k < sizeof ram / 8; k++)
        put(8 * k, 0x100 + k);
}

static void run(const char *name, uint32_t word, uint16_t allowance, uint32_t answer, uint64_t at)
{
    uint64_t address;
    const uint32_t given = run_elsewhere(&m, word, allowance, &address);
    printf("%s: answer %" PRIu32 ", address %" PRIx64 ", x40 to x43:", name, given, address);
    for (int k = 40; k < 44; k++)
        printf(" %" PRIx64, m.registers[k]);
    printf("\n");
    expect(given == answer && address == at, name);
}

/* x6 is one address, and the load pauses. Then the RAM's last eight bytes, and a fault behind them and before BASE, and
 * an address that is misaligned. */
static void scalar_address(void)
{
    set_up(0);
    m.registers[6] = BASE + 16;
    run("a scalar address, two elements", LD_X5_8_X6, 2, SIMPLEV_PAUSED, 0);
    expect(m.registers[6] == BASE + 16 && m.control[SIMPLEV_SOURCE] == 2, "between two calls x6 is the address");
    run("and the rest", LD_X5_8_X6, 64, SIMPLEV_DONE, 0);
    expect(m.registers[40] == 0x103 && m.registers[43] == 0x106, "four elements are loaded");
    m.registers[6] = BASE + sizeof ram - 16;
    run("the last bytes", LD_X5_8_X6, 64, SIMPLEV_FAULT, BASE + sizeof ram);
    set_up(0);
    m.registers[6] = BASE - 16;
    run("before BASE", LD_X5_8_X6, 64, SIMPLEV_FAULT, BASE - 8);
    m.registers[6] = BASE + 12;
    run("misaligned", LD_X5_8_X6, 64, SIMPLEV_MISALIGNED, BASE + 20);
    expect(m.registers[6] == BASE + 12 && m.control[SIMPLEV_SOURCE] == 0, "x6 is the address, and nothing is loaded");
}

/* x6 is the vector at x60: an address for each element. */
static void vector_address(void)
{
    set_up(0xbc86);
    for (int k = 0; k < 4; k++)
        m.registers[60 + k] = BASE + 64 - 16 * (uint64_t)k;
    run("four addresses", LD_X5_8_X6, 64, SIMPLEV_DONE, 0);
    expect(m.registers[40] == 0x109 && m.registers[43] == 0x103, "an element from each address");
    expect(m.registers[60] == BASE + 64 && m.registers[63] == BASE + 16, "the addresses are what they were");
}

/* The same with a third address that is misaligned, in RAM and then behind it; the load goes on when it is aligned. */
static void vector_address_misaligned(void)
{
    set_up(0xbc86);
    for (int k = 0; k < 4; k++)
        m.registers[60 + k] = BASE + 16 * (uint64_t)k;
    m.registers[62] += 1;
    run("the third misaligned", LD_X5_8_X6, 64, SIMPLEV_MISALIGNED, BASE + 41);
    expect(m.registers[41] == 0x103 && m.registers[42] == 0, "those before it are loaded, and no other");
    expect(m.control[SIMPLEV_SOURCE] == 2 && m.control[SIMPLEV_DESTINATION] == 2, "the offsets stand at it");
    expect(m.registers[60] == BASE && m.registers[62] == BASE + 33, "the addresses are what they were");
    m.registers[62] += sizeof ram;
    run("misaligned, and not in RAM", LD_X5_8_X6, 64, SIMPLEV_MISALIGNED, BASE + sizeof ram + 41);
    m.registers[62] = BASE + 32;
    run("the rest, aligned", LD_X5_8_X6, 64, SIMPLEV_DONE, 0);
    expect(m.registers[42] == 0x105 && m.registers[43] == 0x107, "it goes on at the third");
}

/* x6 is x42, the third register of x5: the third element loads the address of the fourth. */
static void own_address(void)
{
    set_up(0x2a86);
    m.registers[42] = BASE;
    put(24, BASE + 128); /* the third element, at x42 + 8 + 2 * 8 */
    run("a load over its own address", LD_X5_8_X6, 64, SIMPLEV_DONE, 0);
    expect(m.registers[42] == BASE + 128, "the third is the address that was loaded");
    expect(m.registers[43] == 0x114, "the fourth is from there, 8 + 3 * 8 bytes on");
}

/* The same, misaligned at the first element; then the third element loads an address that is. */
static void own_address_misaligned(void)
{
    set_up(0x2a86);
    m.registers[42] = BASE + 4;
    run("its own address misaligned", LD_X5_8_X6, 64, SIMPLEV_MISALIGNED, BASE + 12);
    expect(m.registers[42] == BASE + 4 && m.control[SIMPLEV_SOURCE] == 0, "x42 is the address, and nothing is loaded");
    m.registers[42] = BASE;
    put(24, BASE + 130);
    run("a misaligned address loaded", LD_X5_8_X6, 64, SIMPLEV_MISALIGNED, BASE + 162);
    expect(m.registers[42] == BASE + 130 && m.control[SIMPLEV_SOURCE] == 3, "the fourth is at the address loaded");
}

/* x6 is the vector at x40, and is stored where it points to; then the second is misaligned. */
static void stored_address(void)
{
    set_up(0xa886);
    for (int k = 0; k < 4; k++)
        m.registers[40 + k] = BASE + 32 * (uint64_t)k;
    run("addresses stored where they point to", SD_X6_0_X6, 64, SIMPLEV_DONE, 0);
    expect(get(96) == BASE + 96, "the address is stored, and not the distance");
    m.registers[41] += 6;
    run("the second misaligned", SD_X6_0_X6, 64, SIMPLEV_MISALIGNED, BASE + 38);
    expect(m.registers[41] == BASE + 38 && ram[38] == 0, "x41 is the address, and is not stored");
}

/* Zeroing: at an off position a load accesses nothing, whatever its address is, and a store stores 0. x3 is the mask of
 * x5 (entry 0x2d06) and then of x6 (entry 0x3506), and the second element is off. */
static void zeroed(void)
{
    set_up(0xbc86);
    m.predicate_table[0] = 0x2d06;
    m.registers[3] = 13;
    m.registers[41] = 9;
    for (int k = 0; k < 4; k++)
        m.registers[60 + k] = BASE + 16 * (uint64_t)k;
    m.registers[61] = 1;
    run("four addresses, the second off", LD_X5_8_X6, 64, SIMPLEV_DONE, 0);
    expect(m.registers[40] == 0x101 && m.registers[41] == 0 && m.registers[43] == 0x107, "the second is 0");
    set_up(0xa886);
    m.predicate_table[0] = 0x3506;
    m.registers[3] = 13;
    for (int k = 0; k < 4; k++)
        m.registers[40 + k] = BASE + 32 * (uint64_t)k;
    run("addresses stored, the second off", SD_X6_0_X6, 64, SIMPLEV_DONE, 0);
    expect(get(32) == 0 && get(64) == BASE + 64, "a 0 is stored for it, and for the third its address");
    m.registers[41] += 6;
    run("off and misaligned", SD_X6_0_X6, 64, SIMPLEV_MISALIGNED, BASE + 38);
    m.registers[41] = BASE + sizeof ram;
    run("off and not in RAM", SD_X6_0_X6, 64, SIMPLEV_FAULT, BASE + sizeof ram);
    expect(m.control[SIMPLEV_SOURCE] == 1 && m.control[SIMPLEV_DESTINATION] == 1, "the offsets stand at it");
}

/* At its own address, which is not one of RAM. */
static void by_register_0(void)
{
    set_up(0);
    run("by register 0", LD_X5_16_X0, 64, SIMPLEV_FAULT, 16);
    run("by register 0, misaligned", LD_X5_12_X0, 64, SIMPLEV_MISALIGNED, 12);
}

int main(void)
{
    scalar_address();
    vector_address();
    vector_address_misaligned();
    own_address();
    own_address_misaligned();
    stored_address();
    zeroed();
    by_register_0();
    return wrong;
}
