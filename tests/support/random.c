#include "random.h"

struct random random_stream(uint64_t seed, uint64_t stream)
{
    struct random random = {seed * 0x9E3779B97F4A7C15u + stream};
    random.state = random_any(&random) ^ (stream << 32);
    return random;
}

uint64_t random_any(struct random *random)
{
    uint64_t z = random->state += 0x9E3779B97F4A7C15u;
    z = (z ^ (z >> 30)) * 0xBF58476D1CE4E5B9u;
    z = (z ^ (z >> 27)) * 0x94D049BB133111EBu;
    return z ^ (z >> 31);
}

uint32_t random_below(struct random *random, uint32_t bound)
{
    return (uint32_t)(((random_any(random) >> 32) * bound) >> 32);
}

uint32_t random_between(struct random *random, uint32_t least, uint32_t most)
{
    return least + random_below(random, most - least + 1);
}

bool random_percent(struct random *random, unsigned percent)
{
    return random_below(random, 100) < percent;
}

void random_octets(struct random *random, uint8_t *to, size_t length)
{
    for (size_t i = 0; i < length; i++) {
        to[i] = (uint8_t)(random_any(random) >> 56);
    }
}

uint32_t random_of(struct random *random, const uint32_t *values, size_t count)
{
    return values[random_below(random, (uint32_t)count)];
}
