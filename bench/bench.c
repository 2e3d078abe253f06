/*
 * Sealing, opening, derivation and folding beside other libraries, in one run. peer.h says what is compared.
 *
 * The columns take turns, so that what else the machine does falls on all of them alike, and all tasks are gone through several
 * times, so that no task has only bad moments. The best of all rounds counts.
 *
 * Usage: bench FILE.csv
 */
#include <stdio.h>
#include <stdlib.h>

#include "report.h"

enum { PASSES = 4, ROUNDS = 3 };

static void measure(int task, double *best)
{
    for (int round = 0; round < ROUNDS; round++)
        for (int c = 0; c < COLUMNS; c++) {
            double seconds = column_time(c, task);
            if (best[c] == 0 || seconds < best[c]) best[c] = seconds;
        }
}

int main(int argc, char **argv)
{
    static char descriptions[COLUMNS][DESCRIPTION];
    static figures best;
    if (argc == 4) return column_serve(atoi(argv[1]), atoi(argv[2]), atoi(argv[3]));
    if (argc != 2) {
        fprintf(stderr, "usage: bench FILE.csv\n");
        return 2;
    }
    for (int c = 0; c < COLUMNS; c++) column_start(c, descriptions[c]);
    report_columns(descriptions);
    fflush(stdout);
    for (int pass = 0; pass < PASSES; pass++) {
        fprintf(stderr, "pass %d of %d\n", pass + 1, PASSES);
        for (int t = 0; t < TASKS; t++) measure(t, best[t]);
    }
    columns_end();
    report_table(best);
    return report_csv(best, argv[1]) ? 0 : 1;
}
