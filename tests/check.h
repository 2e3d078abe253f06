/*
 * What every test program shares: checks that are counted, random numbers that follow from a seed, and the closing line.
 */
#ifndef CHECK_H
#define CHECK_H

#include <stddef.h>
#include <stdint.h>

#define COUNT(a) (sizeof(a) / sizeof(a)[0])

/* Takes the arguments of main: the first is the seed, where there is one. */
void begin(int argc, char **argv);

/* Prints the program's one line: checks, seed, processor time. Returns what main returns. */
int finish(void);

/* Counts a check; one that does not hold fails. */
void expect(int holds, const char *what, unsigned long long detail);

/* Counts a check that was made otherwise, and holds. */
void count_check(void);

/* Prints what is wrong, with the seed and the case, and ends the program. */
_Noreturn void fail(const char *what, unsigned long long detail);

/* The random numbers from here on follow from the seed and this number alone; a failure names it. */
void begin_case(unsigned long index);

uint64_t number(void);
uint64_t below(uint64_t limit);
int chance(unsigned percent);
void fill(uint8_t *at, size_t n);

#endif
