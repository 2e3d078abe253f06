/*
 * Random lists of calls on a session table of any bytes, by the library and by the model: the same answers, and after each call the
 * same bytes in the whole table and in all else that was lent. At the end every number that a function can answer must have come up,
 * but 3: table_numbers_test.c has it; and each of the four ciphers on 3.1.1, often.
 *
 * Usage: table_test [SEED [LISTS [FIRST]]]: a list is made again by its number, with LISTS 1.
 */
#include <stdlib.h>

#include "check.h"
#include "table_generate.h"

enum { LISTS = 100000, NUMBERS = 41, ENOUGH = 20000, CIPHERS = 4 };

static unsigned long seen[TABLE_FUNCTIONS][NUMBERS], done[TABLE_FUNCTIONS][1 + CIPHERS];

static const struct { enum table_function function; uint32_t number; } answers[] = {
    {TABLE_FIND, 0},  {TABLE_FIND, 6},  {TABLE_ADD, 0},    {TABLE_ADD, 18},   {TABLE_ADD, 19},  {TABLE_ADD, 20},  {TABLE_ADD, 21},
    {TABLE_ADD, 22},  {TABLE_ADD, 40},  {TABLE_REMOVE, 0}, {TABLE_REMOVE, 6}, {TABLE_SEAL, 0},  {TABLE_SEAL, 1},  {TABLE_SEAL, 2},
    {TABLE_SEAL, 6},  {TABLE_SEAL, 7},  {TABLE_SEAL, 8},   {TABLE_SEAL, 11},  {TABLE_SEAL, 12}, {TABLE_SEAL, 13}, {TABLE_SEAL, 14},
    {TABLE_SEAL, 15}, {TABLE_SEAL, 16}, {TABLE_SEAL, 17},  {TABLE_OPEN, 0},   {TABLE_OPEN, 1},  {TABLE_OPEN, 2},  {TABLE_OPEN, 4},
    {TABLE_OPEN, 5},  {TABLE_OPEN, 6},  {TABLE_OPEN, 7},   {TABLE_OPEN, 8},   {TABLE_OPEN, 9},  {TABLE_OPEN, 10}, {TABLE_OPEN, 11},
    {TABLE_OPEN, 12}, {TABLE_OPEN, 13}, {TABLE_OPEN, 14},  {TABLE_OPEN, 15},  {TABLE_OPEN, 16}, {TABLE_OPEN, 29}, {TABLE_SEAL, 35},
    {TABLE_OPEN, 35},
};

static void one_list(void)
{
    struct table_call c = generate_list();
    for (uint64_t left = 1 + below(MOST_CALLS); left > 0; left--) {
        generate_table_call(&c);
        uint64_t r = compare_table(&c, &heap);
        if (c.function == TABLE_FIND) r = r < c.table_len ? 0 : 6;
        if (r >= NUMBERS) fail("a number that the rules do not have", r);
        seen[c.function][r]++;
        if (r == 0 && c.connection.dialect == 0x0311 && c.connection.cipher <= CIPHERS) done[c.function][c.connection.cipher]++;
    }
}

int main(int argc, char **argv)
{
    unsigned long lists = argc > 2 ? strtoul(argv[2], NULL, 0) : LISTS, first = argc > 3 ? strtoul(argv[3], NULL, 0) : 0;
    begin(argc, argv);
    for (unsigned long i = first; i < first + lists; i++) {
        begin_case(i);
        one_list();
    }
    for (size_t i = 0; i < COUNT(answers) && lists >= ENOUGH; i++)
        expect(seen[answers[i].function][answers[i].number] >= 10, "an answer that hardly came up", answers[i].number);
    for (uint16_t cipher = 1; cipher <= CIPHERS && lists >= ENOUGH; cipher++)
        for (enum table_function f = TABLE_ADD; f <= TABLE_OPEN; f++)
            expect(f == TABLE_REMOVE || done[f][cipher] >= lists / 100, "a cipher that hardly came up", cipher);
    return finish();
}
