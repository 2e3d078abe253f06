#include "check.h"

#include <stdio.h>
#include <stdlib.h>
#include <time.h>

static const char *name;
static unsigned long long seed = 20261115;
static unsigned long checks, current;
static uint64_t state;

void begin(int argc, char **argv)
{
    name = argv[0];
    if (argc > 1) seed = strtoull(argv[1], NULL, 0);
    begin_case(0);
}

int finish(void)
{
    printf("%s: %lu checks hold, seed %llu, %.1f s\n", name, checks, seed, (double)clock() / CLOCKS_PER_SEC);
    return 0;
}

void expect(int holds, const char *what, unsigned long long detail)
{
    if (!holds) fail(what, detail);
    count_check();
}

void count_check(void)
{
    checks++;
}

void fail(const char *what, unsigned long long detail)
{
    fprintf(stderr, "%s: failed: %s (%llu), seed %llu, case %lu\n", name, what, detail, seed, current);
    exit(1);
}

void begin_case(unsigned long index)
{
    current = index;
    state = seed + index * 0xD1342543DE82EF95u;
}

/* splitmix64 */
uint64_t number(void)
{
    uint64_t z = state += 0x9E3779B97F4A7C15u;
    z = (z ^ (z >> 30)) * 0xBF58476D1CE4E5B9u;
    z = (z ^ (z >> 27)) * 0x94D049BB133111EBu;
    return z ^ (z >> 31);
}

uint64_t below(uint64_t limit)
{
    return number() % limit;
}

int chance(unsigned percent)
{
    return below(100) < percent;
}

void fill(uint8_t *at, size_t n)
{
    for (size_t i = 0; i < n; i++) at[i] = (uint8_t)number();
}
