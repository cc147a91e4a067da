#include "random.h"

/* The generator known as splitmix64. */
uint64_t random_word(struct random *random)
{
    random->state += UINT64_C(0x9e3779b97f4a7c15);
    uint64_t z = random->state;
    z = (z ^ z >> 30) * UINT64_C(0xbf58476d1ce4e5b9);
    z = (z ^ z >> 27) * UINT64_C(0x94d049bb133111eb);
    return z ^ z >> 31;
}

struct random random_start(uint64_t seed, uint64_t number)
{
    struct random random = {seed};
    random.state = random_word(&random) + number;
    random.state = random_word(&random);
    return random;
}

uint64_t random_below(struct random *random, uint64_t limit)
{
    return random_word(random) % limit;
}

bool random_percent(struct random *random, unsigned percent)
{
    return random_below(random, 100) < percent;
}
