/*
 * Random calls with each lent buffer, and each lent number, hard against a page that cannot be touched: first with its beginning there,
 * then with its end. Buffers that are not to be written cannot be.
 *
 * Usage: guard_test [SEED [CASES [FIRST]]]
 */
#include <stdlib.h>

#include "check.h"
#include "generate.h"
#include "guard.h"

enum { CASES = 20000 };

int main(int argc, char **argv)
{
    unsigned long cases = argc > 2 ? strtoul(argv[2], NULL, 0) : CASES, first = argc > 3 ? strtoul(argv[3], NULL, 0) : 0;
    begin(argc, argv);
    guard_begin();
    for (unsigned long i = first; i < first + cases; i++)
        for (int end = 0; end <= 1; end++) {
            begin_case(i);
            guard_at_the_end(end);
            struct call c = generate();
            compare(&c, &guarded);
        }
    return finish();
}
