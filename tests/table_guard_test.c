/*
 * Random lists of calls on a session table with the table, and all else that is lent, hard against a page that cannot be touched: first
 * with its beginning there, then with its end. A table that is only looked at cannot be written.
 *
 * Usage: table_guard_test [SEED [LISTS [FIRST]]]
 */
#include <stdlib.h>

#include "check.h"
#include "guard.h"
#include "table_generate.h"

enum { LISTS = 4000 };

static void one_list(void)
{
    struct table_call c = generate_list();
    for (uint64_t left = 1 + below(MOST_CALLS); left > 0; left--) {
        generate_table_call(&c);
        compare_table(&c, &guarded);
    }
}

int main(int argc, char **argv)
{
    unsigned long lists = argc > 2 ? strtoul(argv[2], NULL, 0) : LISTS, first = argc > 3 ? strtoul(argv[3], NULL, 0) : 0;
    begin(argc, argv);
    guard_begin();
    for (unsigned long i = first; i < first + lists; i++)
        for (int end = 0; end <= 1; end++) {
            begin_case(i);
            guard_at_the_end(end);
            one_list();
        }
    return finish();
}
