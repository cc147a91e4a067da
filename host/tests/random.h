/* Random numbers that are the same at each run with the same seed. */
#ifndef RANDOM_H
#define RANDOM_H

#include <stdbool.h>
#include <stdint.h>

struct random {
    uint64_t state;
};

/* A generator of its own for each number under a seed. */
struct random random_start(uint64_t seed, uint64_t number);
uint64_t random_word(struct random *random);
uint64_t random_below(struct random *random, uint64_t limit);
bool random_percent(struct random *random, unsigned percent);

#endif
