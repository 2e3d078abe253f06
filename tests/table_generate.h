/*
 * Random lists of calls on a random table, by check.h's numbers: a table of any bytes, and calls with any arguments.
 */
#ifndef TABLE_GENERATE_H
#define TABLE_GENERATE_H

#include "table_call.h"

enum { MOST_RECORDS = 20, MOST_CALLS = 6 };

/* Begins a list: a table of up to MOST_RECORDS records, and no call on it yet. Its buffers are good until the next list. */
struct table_call generate_list(void);

/* The next call of the list, on the table as the last one left it. */
void generate_table_call(struct table_call *c);

#endif
