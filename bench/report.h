/* Seconds of processor time for each task and column, as a table for the terminal and as a file of comma-separated values. */
#ifndef REPORT_H
#define REPORT_H

#include "columns.h"

typedef double figures[TASKS][COLUMNS];

void report_columns(char descriptions[COLUMNS][DESCRIPTION]);
void report_table(figures seconds);

/* Answers 0 where the file cannot be written. */
int report_csv(figures seconds, const char *file);

#endif
