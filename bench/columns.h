/* The columns of the table: a library and the instructions that it may use, each in a process of its own. */
#ifndef COLUMNS_H
#define COLUMNS_H

#include "batch.h"

enum { COLUMNS = 10, OURS = 0, DESCRIPTION = 160 };

/* Libraries that choose by the processor read a variable of the environment as they are loaded. */
struct column {
    const char *library, *path;
    const struct peer *peer;
    const char *variable, *value;
};

extern const struct column columns[COLUMNS];

/* Starts a column's process, and writes what it says of its library. */
void column_start(int column, char *description);

/* Processor time of one call of a task in seconds; 0 where the library lacks it. Ends the program where anything fails. */
double column_time(int column, int task);

void columns_end(void);

/* The whole of a column's process: answers until there are no more questions. */
int column_serve(int column, int questions, int answers);

#endif
