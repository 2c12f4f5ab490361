/* simplev.h: the trap handler for Simple-V on RV64, as C calls it.
 *
 * The caller owns a machine, `struct simplev_machine`, and a memory of bytes, and lends both to each call, which works
 * on them in place. The library keeps nothing and allocates nothing, and needs nothing from outside but `memset`. Built
 * for RV64 with other flags it may need more; tools/rv64 prints what.
 *
 * Link with libsimplev.a: for x86-64 `tools/library` writes target/staticlib/libsimplev.a, for RV64 `tools/rv64`
 * writes target/rv64/libsimplev.a, and `tools/install` puts both where pkg-config finds them.
 *
 * What each function of the library guarantees, whatever the machine, the word, the memory and the arguments hold
 * (proved of its source, see docs/CONTRACTS.md, sections "C interface" and "The three demands"):
 *
 *  - It ends, and returns one of the answers below (simplev_fresh nothing, simplev_version a version). Nothing has to
 *    be checked before it.
 *  - Its out-parameter (`value` or `address`) is always written: with what the call's comment says, and with 0 where
 *    the answer is a refusal.
 *  - A refusal (2, 3, 4, 6, 7, 8) changes nothing in the machine or the memory. A memory fault (5, 9) keeps the
 *    elements before it; the comment of a run says how the machine then stands.
 *  - Every word of the machine and every byte of the memory after it is what the definition of the call gives. Of the
 *    arrays it writes only those that are not const in its declaration.
 *
 * The compiler's back end, this header and the wrappers in it are not part of the proof; tests/c calls each of them.
 *
 * What the compiler can't check, and only the caller can keep:
 *
 *  - The pointers are valid, aligned and of the sizes named here, the out-parameter's too.
 *  - The arrays, the memory and the out-parameter do not overlap each other.
 *  - simplev_run and simplev_step take a `memory` that is a valid pointer even where `size` is 0. Their wrappers
 *    simplev_machine_run and simplev_machine_step take NULL too, as a memory of no bytes.
 *
 * Threads and interrupts. The library has no data of its own, so calls may be made from any thread, and a call may be
 * interrupted at any instruction by code that makes calls itself, as long as no two have the same machine, memory or
 * out-parameter (tables that all of them take as const may be shared). Until the interrupted call has returned, an
 * interrupt neither writes these three nor reads them: the machine in between is no state that is defined. It may use
 * another machine and another memory. An interrupt that needs the machine waits for the end of the call, which a small
 * allowance brings near.
 *
 * What a call takes, measured on RV64 (rv64imac, -O3), not proved:
 *
 *  - Stack: at most 224 bytes, without those of memset. tools/rv64 prints it for other flags.
 *  - Time, counted over states chosen to be bad. docs/BENCHMARKS.md says how, and how to choose an allowance for an
 *    interrupt latency.
 *   allowance 0, 1, 4, 16, VL: at most 766, 1481, 1664, 2396, 5498 instructions
 *
 * Memory that begins elsewhere. Addresses begin at 0: an access at address a is to memory[a]. RAM that begins at BASE,
 * 0x80000000, say, or a part of it, is lent by a pointer to its first byte and its length, and during a call the
 * registers with addresses hold distances from it. BASE is to be divisible by 8: then an address and its distance are
 * divisible by 2, 4 and 8 alike, and the same accesses are misaligned.
 *
 *  - Before the call of a load or store subtract BASE, modulo 2^64, from the real register of rs1, or from all VL of
 *    them where it is a vector. After the call, also one that paused or faulted, add BASE to the same registers, and to
 *    `*address` if the answer is FAULT or MISALIGNED. A call with allowance 0 before it says whether the word is
 *    refused.
 *  - That is right where none of these registers is register 0, one that the word may load or stores, or a mask
 *    register set for an operand. Where a load may write its own address register, or a store stores it, go element by
 *    element: a step without memory does nothing but come to the next element and give its address, as that of a memory
 *    fault, or does an element of a load that is a 0 by zeroing, which has no access. If it is MISALIGNED, that is the
 *    answer. If it is FAULT and the address is one of RAM, subtract BASE from this element's register alone, step with
 *    memory, and add BASE to it again unless it was loaded; if it was stored, and not zero bytes instead by zeroing,
 *    store it once more. An access by register 0, which can't hold a distance, is a memory fault where no RAM lies
 *    within its reach. For an address register that is a mask register there is no way.
 *  - A pointer to address 0 with a size up to the end of RAM is not the way: NULL is no memory, and all that lies below
 *    RAM would be lent, so that an access there is not FAULT.
 *
 * examples/elsewhere.c has a function that does all of this.
 */
#ifndef SIMPLEV_H
#define SIMPLEV_H

#include <stddef.h>
#include <stdint.h>

/* The version of this header; simplev_version says that of the archive. The major number changes when something that
 * was there changes, the minor one when something is added. */
#define SIMPLEV_VERSION "2.0.0"
#define SIMPLEV_VERSION_MAJOR 2
#define SIMPLEV_VERSION_MINOR 0
#define SIMPLEV_VERSION_PATCH 0
#define SIMPLEV_VERSION_NUMBER (SIMPLEV_VERSION_MAJOR * 65536 + SIMPLEV_VERSION_MINOR * 256 + SIMPLEV_VERSION_PATCH)

/* The limits of a machine. */
#define SIMPLEV_REGISTERS 128 /* integer registers of 64 bits; register 0 is always 0 */
#define SIMPLEV_ELEMENTS 64   /* the largest MVL */
#define SIMPLEV_ENTRIES 16    /* entries in each table */

/* The words of `control`. */
#define SIMPLEV_PC 0          /* program counter */
#define SIMPLEV_MVL 1         /* 1 to 64 */
#define SIMPLEV_VL 2          /* 1 to MVL */
#define SIMPLEV_CFG 3         /* 0 to 31 */
#define SIMPLEV_SOURCE 4      /* source offset, below VL */
#define SIMPLEV_DESTINATION 5 /* destination offset, below VL */
#define SIMPLEV_CONTROL 6     /* how many there are */

/* What a call says. A run looks in the order 6, 2, 4, 3, then at its allowance, then at each element 9, then 5. A
 * setting call looks in the order 6, 8, 7, a reading call in the order 6, 8. 5 and 9 are the memory faults. */
enum simplev_answer {
    SIMPLEV_DONE = 0,           /* done */
    SIMPLEV_PAUSED = 1,         /* the allowance was used up: call again with the same word */
    SIMPLEV_UNKNOWN_WORD = 2,   /* not an instruction that is served */
    SIMPLEV_PAST_REGISTERS = 3, /* a vector operand's register + VL - 1 is above 127 */
    SIMPLEV_BAD_WIDTH = 4,      /* the entry that holds for an operand has a width other than 00 */
    SIMPLEV_FAULT = 5,          /* an access does not lie wholly in memory */
    SIMPLEV_OUT_OF_SHAPE = 6,   /* a range above broken, register 0 not 0, or bit 0 set in a predicate entry */
    SIMPLEV_BAD_VALUE = 7,      /* a value that cannot be set */
    SIMPLEV_NO_SUCH = 8,        /* no such entry or register */
    SIMPLEV_MISALIGNED = 9      /* an access of 2, 4 or 8 bytes is at an address that is not divisible by that number */
};

/* A machine. Its arrays stand in this order with no space between; each call takes them one by one, so a caller that
 * keeps them apart, as one pair of tables for several machines, can call the functions themselves.
 *
 * Any content is accepted: a machine out of shape is refused with 6. Control words are 64 bits wide, and one above its
 * range, also above 2^32, is out of shape. A machine of all zero bytes is out of shape: begin with
 * simplev_machine_fresh.
 *
 * Register entry: bit 15 vector, bits 14..8 real register, bit 7 one for integer, bits 6..5 width, bits 4..0 key.
 * Predicate entry: bits 15..11 key, bit 10 zeroing, bit 9 invert, bit 8 one for integer, bits 7..1 mask register, bit 0
 * zero. */
struct simplev_machine {
    uint64_t registers[SIMPLEV_REGISTERS];     /* at byte 0 */
    uint64_t control[SIMPLEV_CONTROL];         /* at byte 1024 */
    uint16_t register_table[SIMPLEV_ENTRIES];  /* at byte 1072 */
    uint16_t predicate_table[SIMPLEV_ENTRIES]; /* at byte 1104 */
};                                             /* 1136 bytes */

#if defined(__cplusplus) && __cplusplus >= 201103L
#define SIMPLEV_ASSERT(fact, text) static_assert(fact, text)
#elif defined(__STDC_VERSION__) && __STDC_VERSION__ >= 201112L
#define SIMPLEV_ASSERT(fact, text) _Static_assert(fact, text)
#endif
#ifdef SIMPLEV_ASSERT
SIMPLEV_ASSERT(offsetof(struct simplev_machine, registers) == 0, "registers at byte 0");
SIMPLEV_ASSERT(offsetof(struct simplev_machine, control) == 1024, "control at byte 1024");
SIMPLEV_ASSERT(offsetof(struct simplev_machine, register_table) == 1072, "register table at byte 1072");
SIMPLEV_ASSERT(offsetof(struct simplev_machine, predicate_table) == 1104, "predicate table at byte 1104");
SIMPLEV_ASSERT(sizeof(struct simplev_machine) == 1136, "1136 bytes");
#undef SIMPLEV_ASSERT
#endif

#ifdef __cplusplus
extern "C" {
#endif

/* SIMPLEV_VERSION_NUMBER of the header that the archive belongs to. A program that is built with one header and linked
 * with another's archive notices so by
 *
 *     if (simplev_version() != SIMPLEV_VERSION_NUMBER)
 *
 * and the archive of 1.0.0, which has no such function, isn't linked at all. */
uint32_t simplev_version(void);

/* The calls on the four arrays of a machine, in the order of the struct. Each has a wrapper below that takes the
 * struct, where its comment stands. */

void simplev_fresh(uint64_t *registers, uint64_t *control, uint16_t *register_table, uint16_t *predicate_table);

uint32_t simplev_run(uint64_t *registers, uint64_t *control, const uint16_t *register_table,
                     const uint16_t *predicate_table, uint32_t word, uint16_t allowance, uint8_t *memory, size_t size,
                     uint64_t *address);
uint32_t simplev_step(uint64_t *registers, uint64_t *control, const uint16_t *register_table,
                      const uint16_t *predicate_table, uint32_t word, uint8_t *memory, size_t size, uint64_t *address);

uint32_t simplev_set_vl(const uint64_t *registers, uint64_t *control, const uint16_t *register_table,
                        const uint16_t *predicate_table, uint64_t n, uint64_t *value);
uint32_t simplev_set_vl_immediate(const uint64_t *registers, uint64_t *control, const uint16_t *register_table,
                                  const uint16_t *predicate_table, uint32_t n, uint64_t *value);
uint32_t simplev_set_mvl(const uint64_t *registers, uint64_t *control, const uint16_t *register_table,
                         const uint16_t *predicate_table, uint32_t n, uint64_t *value);
uint32_t simplev_set_cfg(const uint64_t *registers, uint64_t *control, const uint16_t *register_table,
                         const uint16_t *predicate_table, uint32_t n, uint64_t *value);
uint32_t simplev_set_state_word(const uint64_t *registers, uint64_t *control, const uint16_t *register_table,
                                const uint16_t *predicate_table, uint32_t word, uint64_t *value);
uint32_t simplev_set_pc(const uint64_t *registers, uint64_t *control, const uint16_t *register_table,
                        const uint16_t *predicate_table, uint64_t pc, uint64_t *value);
uint32_t simplev_set_register(uint64_t *registers, const uint64_t *control, const uint16_t *register_table,
                              const uint16_t *predicate_table, uint32_t index, uint64_t value_in, uint64_t *value);
uint32_t simplev_set_register_entry(const uint64_t *registers, const uint64_t *control, uint16_t *register_table,
                                    const uint16_t *predicate_table, uint32_t index, uint16_t entry, uint64_t *value);
uint32_t simplev_set_predicate_entry(const uint64_t *registers, const uint64_t *control, const uint16_t *register_table,
                                     uint16_t *predicate_table, uint32_t index, uint16_t entry, uint64_t *value);

uint32_t simplev_read_vl(const uint64_t *registers, const uint64_t *control, const uint16_t *register_table,
                         const uint16_t *predicate_table, uint64_t *value);
uint32_t simplev_read_mvl(const uint64_t *registers, const uint64_t *control, const uint16_t *register_table,
                          const uint16_t *predicate_table, uint64_t *value);
uint32_t simplev_read_cfg(const uint64_t *registers, const uint64_t *control, const uint16_t *register_table,
                          const uint16_t *predicate_table, uint64_t *value);
uint32_t simplev_read_pc(const uint64_t *registers, const uint64_t *control, const uint16_t *register_table,
                         const uint16_t *predicate_table, uint64_t *value);
uint32_t simplev_read_state_word(const uint64_t *registers, const uint64_t *control, const uint16_t *register_table,
                                 const uint16_t *predicate_table, uint64_t *value);
uint32_t simplev_read_register(const uint64_t *registers, const uint64_t *control, const uint16_t *register_table,
                               const uint16_t *predicate_table, uint32_t index, uint64_t *value);
uint32_t simplev_read_register_entry(const uint64_t *registers, const uint64_t *control, const uint16_t *register_table,
                                     const uint16_t *predicate_table, uint32_t index, uint64_t *value);
uint32_t simplev_read_predicate_entry(const uint64_t *registers, const uint64_t *control,
                                      const uint16_t *register_table, const uint16_t *predicate_table, uint32_t index,
                                      uint64_t *value);

/* The same calls on the struct. `m` is lent for the time of the call. */

/* MVL 1, VL 1, CFG 24 and all else 0, whatever `m` held before. */
static inline void simplev_machine_fresh(struct simplev_machine *m)
{
    simplev_fresh(m->registers, m->control, m->register_table, m->predicate_table);
}

/* Runs an instruction word for at most `allowance` units, on a memory of `size` bytes at addresses from 0, or none
 * where `memory` is NULL.
 *
 * A unit of an operation is one position, also one that is off in its mask; with zeroing that becomes 0. A unit of a
 * move, a load or a store is one element, from a source position to a destination position. A vector walks through its
 * positions, and so does an address, scalar or not. A side that walks skips positions that are off, but with zeroing
 * takes them too, and the element is then a 0: a move or a load writes 0, and the load makes no access; a store writes
 * zero bytes of its access's width, by an access like any other. Where a side that walks reaches VL the instruction
 * ends, also if the other has positions left to zero. A side that doesn't walk stands at position 0, and its mask
 * doesn't count. A move or load to a scalar, and a store with both sides scalar, end after one element, a 0 too.
 *
 * An access of 2, 4 or 8 bytes has to be at an address, modulo 2^64, that is divisible by that number; one byte may be
 * at any. The pointer `memory` itself need not be aligned.
 *
 *  DONE    all elements done: the program counter has gone up by 4 (2 for C.MV), and both offsets are 0.
 *  PAUSED  the elements so far are done, the program counter is where it was, and the offsets stand at the next
 *          element. The same call again goes on from there, on this machine or on another that was in shape when this
 *          one was copied into it by the reading and setting calls: every register, both tables whole, the program
 *          counter and the state word, in any order. However it is cut, the end is the same as of one call with the sum
 *          of the allowances, as long as no mask register set for an operand is among the registers that the
 *          instruction may write (the destination's register and, for a vector, the VL - 1 above it; a store has none),
 *          and memory is not touched in between. An allowance of VL or more never pauses. With allowance 0 a good word
 *          pauses, and nothing changes.
 *  FAULT, MISALIGNED
 *          the elements before it are done, and the offsets stand at the one that failed; `*address` is the address of
 *          its access. The program counter is where it was, so the same call again tries that element again. An access
 *          that is misaligned and not wholly in memory is MISALIGNED.
 *
 * `*address` is 0 with every answer but these two. The tables, MVL, VL and CFG are never changed. */
static inline uint32_t simplev_machine_run(struct simplev_machine *m, uint32_t word, uint16_t allowance,
                                           uint8_t *memory, size_t size, uint64_t *address)
{
    uint8_t none = 0;
    return simplev_run(m->registers, m->control, m->register_table, m->predicate_table, word, allowance,
                       memory ? memory : &none, memory ? size : 0, address);
}

/* A run with allowance 1. */
static inline uint32_t simplev_machine_step(struct simplev_machine *m, uint32_t word, uint8_t *memory, size_t size,
                                            uint64_t *address)
{
    uint8_t none = 0;
    return simplev_step(m->registers, m->control, m->register_table, m->predicate_table, word, memory ? memory : &none,
                        memory ? size : 0, address);
}

/* Setting calls: answers DONE, OUT_OF_SHAPE, NO_SUCH or BAD_VALUE. `*value` is 0 but where the comment says more. */

/* VL becomes min(n, MVL), and both offsets 0. BAD_VALUE where n is 0. `*value` is the new VL. */
static inline uint32_t simplev_machine_set_vl(struct simplev_machine *m, uint64_t n, uint64_t *value)
{
    return simplev_set_vl(m->registers, m->control, m->register_table, m->predicate_table, n, value);
}

/* VL becomes min(n + 1, MVL), and both offsets 0. BAD_VALUE where n is above 31. `*value` is the new VL. */
static inline uint32_t simplev_machine_set_vl_immediate(struct simplev_machine *m, uint32_t n, uint64_t *value)
{
    return simplev_set_vl_immediate(m->registers, m->control, m->register_table, m->predicate_table, n, value);
}

/* MVL becomes n, VL min(VL, n), and both offsets 0. BAD_VALUE where n is 0 or above 64. */
static inline uint32_t simplev_machine_set_mvl(struct simplev_machine *m, uint32_t n, uint64_t *value)
{
    return simplev_set_mvl(m->registers, m->control, m->register_table, m->predicate_table, n, value);
}

/* BAD_VALUE where n is above 31. */
static inline uint32_t simplev_machine_set_cfg(struct simplev_machine *m, uint32_t n, uint64_t *value)
{
    return simplev_set_cfg(m->registers, m->control, m->register_table, m->predicate_table, n, value);
}

/* State word: bits 5..0 MVL - 1, 11..6 VL - 1, 17..12 source offset, 23..18 destination offset, 28..24 CFG, 31..29
 * zero. VL is cut to MVL. BAD_VALUE where bits 31..29 are not zero or an offset is not below the cut VL. */
static inline uint32_t simplev_machine_set_state_word(struct simplev_machine *m, uint32_t word, uint64_t *value)
{
    return simplev_set_state_word(m->registers, m->control, m->register_table, m->predicate_table, word, value);
}

/* Any program counter can be set. */
static inline uint32_t simplev_machine_set_pc(struct simplev_machine *m, uint64_t pc, uint64_t *value)
{
    return simplev_set_pc(m->registers, m->control, m->register_table, m->predicate_table, pc, value);
}

/* NO_SUCH where index is above 127. A write to register 0 is DONE and changes nothing. */
static inline uint32_t simplev_machine_set_register(struct simplev_machine *m, uint32_t index, uint64_t value_in,
                                                    uint64_t *value)
{
    return simplev_set_register(m->registers, m->control, m->register_table, m->predicate_table, index, value_in,
                                value);
}

/* NO_SUCH where index is above 15. */
static inline uint32_t simplev_machine_set_register_entry(struct simplev_machine *m, uint32_t index, uint16_t entry,
                                                          uint64_t *value)
{
    return simplev_set_register_entry(m->registers, m->control, m->register_table, m->predicate_table, index, entry,
                                      value);
}

/* NO_SUCH where index is above 15, else BAD_VALUE where bit 0 of the entry is set. */
static inline uint32_t simplev_machine_set_predicate_entry(struct simplev_machine *m, uint32_t index, uint16_t entry,
                                                           uint64_t *value)
{
    return simplev_set_predicate_entry(m->registers, m->control, m->register_table, m->predicate_table, index, entry,
                                       value);
}

/* Reading calls: answers DONE, OUT_OF_SHAPE or NO_SUCH. `*value` is what is read. */

static inline uint32_t simplev_machine_read_vl(const struct simplev_machine *m, uint64_t *value)
{
    return simplev_read_vl(m->registers, m->control, m->register_table, m->predicate_table, value);
}

static inline uint32_t simplev_machine_read_mvl(const struct simplev_machine *m, uint64_t *value)
{
    return simplev_read_mvl(m->registers, m->control, m->register_table, m->predicate_table, value);
}

static inline uint32_t simplev_machine_read_cfg(const struct simplev_machine *m, uint64_t *value)
{
    return simplev_read_cfg(m->registers, m->control, m->register_table, m->predicate_table, value);
}

static inline uint32_t simplev_machine_read_pc(const struct simplev_machine *m, uint64_t *value)
{
    return simplev_read_pc(m->registers, m->control, m->register_table, m->predicate_table, value);
}

static inline uint32_t simplev_machine_read_state_word(const struct simplev_machine *m, uint64_t *value)
{
    return simplev_read_state_word(m->registers, m->control, m->register_table, m->predicate_table, value);
}

/* NO_SUCH where index is above 127. */
static inline uint32_t simplev_machine_read_register(const struct simplev_machine *m, uint32_t index, uint64_t *value)
{
    return simplev_read_register(m->registers, m->control, m->register_table, m->predicate_table, index, value);
}

/* NO_SUCH where index is above 15. */
static inline uint32_t simplev_machine_read_register_entry(const struct simplev_machine *m, uint32_t index,
                                                           uint64_t *value)
{
    return simplev_read_register_entry(m->registers, m->control, m->register_table, m->predicate_table, index, value);
}

/* NO_SUCH where index is above 15. */
static inline uint32_t simplev_machine_read_predicate_entry(const struct simplev_machine *m, uint32_t index,
                                                            uint64_t *value)
{
    return simplev_read_predicate_entry(m->registers, m->control, m->register_table, m->predicate_table, index, value);
}

#ifdef __cplusplus
}
#endif

#endif
