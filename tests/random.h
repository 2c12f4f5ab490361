/* Random numbers that are the same on every machine, for the programs that draw cases. */
#include <stdint.h>

static uint64_t random_state = 1; /* odd, and set by who wants other numbers */

static inline uint64_t any(void) /* xorshift64* */
{
    random_state ^= random_state >> 12;
    random_state ^= random_state << 25;
    random_state ^= random_state >> 27;
    return random_state * 0x2545F4914F6CDD1DULL;
}

static inline uint64_t below(uint64_t bound)
{
    return (any() >> 11) % bound;
}

static inline int percent(unsigned chance)
{
    return below(100) < chance;
}
