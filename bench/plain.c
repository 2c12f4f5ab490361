#include "plain.h"
#include <string.h>

/* The loops of a move, load and store are compiled twice, so that one without zeroing has no test for it. */
#define INLINE static inline __attribute__((always_inline))

struct operand {
    unsigned r;
    int vector;
};

struct mask {
    uint64_t on;
    int zeroing;
};

static void enabled(uint32_t cfg, unsigned *first, unsigned *end)
{
    unsigned bank = cfg & 7, size = cfg >> 3;
    *first = 2 * bank;
    *end = cfg == 31 ? *first : *first + (2u << size);
    if (*end > 16)
        *end = 16;
}

static struct operand name(const struct machine *m, unsigned key)
{
    unsigned first, end;
    struct operand o = { key, 0 };
    enabled(m->cfg, &first, &end);
    for (unsigned i = first; i < end; i++) {
        unsigned e = m->register_table[i];
        if ((e & 0x80) && (e & 31) == key) {
            o.r = e >> 8 & 127;
            o.vector = e >> 15;
        }
    }
    return o;
}

/* All on where it isn't looked at: of a side that doesn't walk. */
static struct mask mask_of(const struct machine *m, unsigned key, int looked_at)
{
    unsigned first, end;
    struct mask k = { ~0ull, 0 };
    if (!looked_at)
        return k;
    enabled(m->cfg, &first, &end);
    for (unsigned i = first; i < end; i++) {
        unsigned e = m->predicate_table[i];
        if ((e & 0x100) && e >> 11 == key) {
            uint64_t v = m->registers[e >> 1 & 127];
            k.on = e & 0x200 ? ~v : v;
            k.zeroing = e >> 10 & 1;
        }
    }
    return k;
}

static unsigned at(struct operand o, unsigned i)
{
    return o.vector ? o.r + i : o.r;
}

static uint64_t sext(uint32_t v)
{
    return (uint64_t)(int64_t)(int32_t)v;
}

/* The high half of a product, from the four products of halves: for a core without a wide multiplication. */
static uint64_t high(uint64_t a, uint64_t b)
{
    uint64_t al = (uint32_t)a, ah = a >> 32, bl = (uint32_t)b, bh = b >> 32;
    uint64_t cross = ah * bl, middle;
    __asm__("" : "+r"(cross)); /* clang would make one wide multiplication of the four */
    middle = (al * bl >> 32) + (uint32_t)cross + al * bh;
    return ah * bh + (cross >> 32) + (middle >> 32);
}

/* What a negative factor a takes off the high half: it stands for 2^64 more than it is. */
static uint64_t excess(uint64_t a, uint64_t b)
{
    return a >> 63 ? b : 0;
}

static uint64_t quotient_of(int64_t a, int64_t b)
{
    if (b == 0)
        return ~0ull;
    return b == -1 ? 0 - (uint64_t)a : (uint64_t)(a / b);
}

static uint64_t remainder_of(int64_t a, int64_t b)
{
    if (b == 0)
        return (uint64_t)a;
    return b == -1 ? 0 : (uint64_t)(a % b);
}

/* by funct3, 8 more for SUB and arithmetic shifts, 16 more for a W form, 32 more for RV64M */
static uint64_t compute(unsigned op, uint64_t a, uint64_t b)
{
    switch (op) {
    case 0: return a + b;
    case 1: return a << (b & 63);
    case 2: return (int64_t)a < (int64_t)b;
    case 3: return a < b;
    case 4: return a ^ b;
    case 5: return a >> (b & 63);
    case 6: return a | b;
    case 7: return a & b;
    case 8: return a - b;
    case 13: return (uint64_t)((int64_t)a >> (b & 63));
    case 16: return sext((uint32_t)a + (uint32_t)b);
    case 17: return sext((uint32_t)a << (b & 31));
    case 21: return sext((uint32_t)a >> (b & 31));
    case 24: return sext((uint32_t)a - (uint32_t)b);
    case 29: return sext((uint32_t)((int32_t)a >> (b & 31)));
    case 32: return a * b;
    case 33: return high(a, b) - excess(a, b) - excess(b, a);
    case 34: return high(a, b) - excess(a, b);
    case 35: return high(a, b);
    case 36: return quotient_of((int64_t)a, (int64_t)b);
    case 37: return b ? a / b : ~0ull;
    case 38: return remainder_of((int64_t)a, (int64_t)b);
    case 39: return b ? a % b : a;
    case 48: return sext((uint32_t)a * (uint32_t)b);
    case 52: return sext((uint32_t)quotient_of((int32_t)a, (int32_t)b));
    case 53: return (uint32_t)b ? sext((uint32_t)a / (uint32_t)b) : ~0ull;
    case 54: return sext((uint32_t)remainder_of((int32_t)a, (int32_t)b));
    default: return sext((uint32_t)b ? (uint32_t)a % (uint32_t)b : (uint32_t)a);
    }
}

static int ended(struct machine *m, unsigned bytes)
{
    m->source = m->destination = 0;
    m->pc += bytes;
    return 0;
}

/* Stands at a pair of positions, which comes next or has failed. */
static int stopped(struct machine *m, size_t source, size_t destination, int answer)
{
    m->source = (uint32_t)source;
    m->destination = (uint32_t)destination;
    return answer;
}

static int operation(struct machine *m, uint32_t word, unsigned allowance)
{
    int immediate = !(word >> 5 & 1);
    unsigned f = word >> 12 & 7, alt = (word >> 30 & 1) && (!immediate || f == 5);
    unsigned multiply = !immediate && (word >> 25 & 1);
    unsigned op = multiply << 5 | (word >> 3 & 1) << 4 | alt << 3 | f;
    struct operand d = name(m, word >> 7 & 31), a = name(m, word >> 15 & 31), b = { 0, 0 };
    struct mask k = mask_of(m, word >> 7 & 31, 1);
    uint64_t value = (uint64_t)(int64_t)((int32_t)word >> 20);
    if (!immediate)
        b = name(m, word >> 20 & 31);
    if (at(d, m->vl - 1) > 127 || at(a, m->vl - 1) > 127 || at(b, m->vl - 1) > 127)
        return 3;
    uint64_t *x = m->registers;
    const uint64_t *pa = x + a.r, *pb = immediate ? &value : x + b.r;
    unsigned sa = (unsigned)a.vector, sb = (unsigned)b.vector, vl = m->vl, i = m->destination;
    if (!allowance)
        return 1;
    do {
        unsigned to = at(d, i);
        if (k.on >> i & 1) {
            uint64_t r = compute(op, pa[sa * i], pb[sb * i]);
            if (to)
                x[to] = r;
            if (!d.vector)
                return ended(m, 4);
        } else if (k.zeroing && to) {
            x[to] = 0;
        }
        i++;
        if (i == vl)
            return ended(m, 4);
    } while (--allowance);
    return stopped(m, i, i, 1);
}

/* The two sides of a move, load or store. An address walks also where it isn't a vector; a side that doesn't walk
   stays at position 0. */
struct sides {
    struct operand from, to;
    struct mask from_mask, to_mask;
};

INLINE struct sides sides_of(const struct machine *m, unsigned from, unsigned to, int from_walks, int to_walks)
{
    struct sides s;
    s.to = name(m, to);
    s.from = name(m, from);
    s.to_mask = mask_of(m, to, to_walks || s.to.vector);
    s.from_mask = mask_of(m, from, from_walks || s.from.vector);
    return s;
}

INLINE int past_registers(const struct machine *m, struct sides s)
{
    return at(s.to, m->vl - 1) > 127 || at(s.from, m->vl - 1) > 127;
}

INLINE int has_zeroing(struct sides s)
{
    return s.from_mask.zeroing || s.to_mask.zeroing;
}

/* Goes on to the next position that is on, or off with zeroing; 0 where there is none. */
INLINE int next(struct mask k, size_t *i, size_t vl, int zeroing)
{
    while (!(k.on >> *i & 1) && !(zeroing && k.zeroing))
        if (++*i == vl)
            return 0;
    return 1;
}

INLINE int both_on(struct sides s, size_t i, size_t j)
{
    return s.from_mask.on >> i & s.to_mask.on >> j & 1;
}

INLINE uint64_t fetch(unsigned f, const uint8_t *from)
{
    int8_t b;
    int16_t h;
    int32_t w;
    uint64_t v;
    switch (f & 3) {
    case 0: memcpy(&b, from, 1); return f & 4 ? (uint8_t)b : (uint64_t)b;
    case 1: memcpy(&h, from, 2); return f & 4 ? (uint16_t)h : (uint64_t)h;
    case 2: memcpy(&w, from, 4); return f & 4 ? (uint32_t)w : (uint64_t)w;
    default: memcpy(&v, from, 8); return v;
    }
}

INLINE int load_elements(struct machine *m, struct sides s, uint32_t word, unsigned allowance, const uint8_t *memory,
                         size_t size, int zeroing)
{
    unsigned f = word >> 12 & 7;
    size_t bytes = (size_t)1 << (f & 3);
    uint64_t offset = (uint64_t)(int64_t)((int32_t)word >> 20);
    uint64_t *x = m->registers, stride = s.from.vector ? 0 : bytes;
    size_t vl = m->vl, i = m->source, j = s.to.vector ? m->destination : 0;
    do {
        if (!next(s.from_mask, &i, vl, zeroing) || !next(s.to_mask, &j, vl, zeroing))
            return ended(m, 4);
        uint64_t v = 0;
        if (!zeroing || both_on(s, i, j)) {
            uint64_t address = x[s.from.r + (s.from.vector ? i : 0)] + offset + i * stride;
            if (address & (bytes - 1))
                return stopped(m, i, j, 9);
            if (size < bytes || address > size - bytes)
                return stopped(m, i, j, 5);
            v = fetch(f, memory + address);
        }
        if (s.to.r + j)
            x[s.to.r + j] = v;
        i++;
        if (!s.to.vector || i == vl || ++j == vl)
            return ended(m, 4);
    } while (--allowance);
    return stopped(m, i, j, 1);
}

static int load(struct machine *m, uint32_t word, unsigned allowance, const uint8_t *memory, size_t size)
{
    struct sides s = sides_of(m, word >> 15 & 31, word >> 7 & 31, 1, 0);
    if (past_registers(m, s))
        return 3;
    if (!allowance)
        return 1;
    return has_zeroing(s) ? load_elements(m, s, word, allowance, memory, size, 1)
                          : load_elements(m, s, word, allowance, memory, size, 0);
}

INLINE void put(unsigned f, uint8_t *to, uint64_t v)
{
    switch (f & 3) {
    case 0: *to = (uint8_t)v; break;
    case 1: memcpy(to, &v, 2); break;
    case 2: memcpy(to, &v, 4); break;
    default: memcpy(to, &v, 8);
    }
}

INLINE int store_elements(struct machine *m, struct sides s, uint32_t word, unsigned allowance, uint8_t *memory,
                          size_t size, int zeroing)
{
    unsigned f = word >> 12 & 7;
    size_t bytes = (size_t)1 << (f & 3);
    uint64_t offset = (uint64_t)(int64_t)((int32_t)word >> 25) << 5 | (word >> 7 & 31);
    uint64_t *x = m->registers, stride = s.to.vector ? 0 : bytes;
    size_t vl = m->vl, i = s.from.vector ? m->source : 0, j = m->destination;
    do {
        if (!next(s.from_mask, &i, vl, zeroing) || !next(s.to_mask, &j, vl, zeroing))
            return ended(m, 4);
        uint64_t address = x[s.to.r + (s.to.vector ? j : 0)] + offset + j * stride;
        if (address & (bytes - 1))
            return stopped(m, i, j, 9);
        if (size < bytes || address > size - bytes)
            return stopped(m, i, j, 5);
        put(f, memory + address, !zeroing || both_on(s, i, j) ? x[s.from.r + i] : 0);
        j++;
        if (j == vl || (s.from.vector && ++i == vl) || (!s.from.vector && !s.to.vector))
            return ended(m, 4);
    } while (--allowance);
    return stopped(m, i, j, 1);
}

static int store(struct machine *m, uint32_t word, unsigned allowance, uint8_t *memory, size_t size)
{
    struct sides s = sides_of(m, word >> 20 & 31, word >> 15 & 31, 0, 1);
    if (past_registers(m, s))
        return 3;
    if (!allowance)
        return 1;
    return has_zeroing(s) ? store_elements(m, s, word, allowance, memory, size, 1)
                          : store_elements(m, s, word, allowance, memory, size, 0);
}

INLINE int move_elements(struct machine *m, struct sides s, unsigned allowance, int zeroing)
{
    uint64_t *x = m->registers;
    size_t vl = m->vl, i = s.from.vector ? m->source : 0, j = s.to.vector ? m->destination : 0;
    do {
        if (!next(s.from_mask, &i, vl, zeroing) || !next(s.to_mask, &j, vl, zeroing))
            return ended(m, 2);
        uint64_t v = !zeroing || both_on(s, i, j) ? x[s.from.r + i] : 0;
        if (s.to.r + j)
            x[s.to.r + j] = v;
        if (!s.to.vector || (s.from.vector && ++i == vl) || ++j == vl)
            return ended(m, 2);
    } while (--allowance);
    return stopped(m, i, j, 1);
}

static int move(struct machine *m, uint32_t word, unsigned allowance)
{
    struct sides s = sides_of(m, word >> 2 & 31, word >> 7 & 31, 0, 0);
    if (past_registers(m, s))
        return 3;
    if (!allowance)
        return 1;
    return has_zeroing(s) ? move_elements(m, s, allowance, 1) : move_elements(m, s, allowance, 0);
}

int plain_run(struct machine *m, uint32_t word, uint16_t allowance, uint8_t *memory, size_t size)
{
    if ((word & 3) != 3)
        return (word & 0xf003) == 0x8002 && (word >> 2 & 31) ? move(m, word, allowance) : 2;
    switch (word & 127) {
    case 0x13: case 0x33: case 0x1b: case 0x3b: return operation(m, word, allowance);
    case 0x03: return load(m, word, allowance, memory, size);
    case 0x23: return store(m, word, allowance, memory, size);
    default: return 2;
    }
}
