/* random.h: random numbers that a seed settles. */
#ifndef WILLOWBLINK_RANDOM_H
#define WILLOWBLINK_RANDOM_H

#include <stddef.h>
#include <stdint.h>

void seed_random(uint64_t seed);
uint32_t random_word(void);

/* From low to high, both included. */
uint32_t random_between(uint32_t low, uint32_t high);

/* True once in so many times. */
int one_in(uint32_t times);

/* One element of an array. */
#define ONE_OF(array) ((array)[random_between(0, sizeof(array) / sizeof *(array) - 1)])

#endif
