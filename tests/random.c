/* random.c: SplitMix64, which is short and good enough to choose tests with. */
#include "random.h"

static uint64_t state;

void seed_random(uint64_t seed)
{
    state = seed;
}

uint32_t random_word(void)
{
    uint64_t mixed = state += 0x9E3779B97F4A7C15u;
    mixed = (mixed ^ (mixed >> 30)) * 0xBF58476D1CE4E5B9u;
    mixed = (mixed ^ (mixed >> 27)) * 0x94D049BB133111EBu;
    return (uint32_t)(mixed >> 32);
}

uint32_t random_between(uint32_t low, uint32_t high)
{
    uint64_t span = (uint64_t)high - low + 1;
    return low + (uint32_t)(((uint64_t)random_word() * span) >> 32);
}

int one_in(uint32_t times)
{
    return random_between(1, times) == 1;
}
