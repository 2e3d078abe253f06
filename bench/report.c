#include "report.h"

#include <cpuid.h>
#include <stdint.h>
#include <stdio.h>

static const char *yes_or_no(int b)
{
    return b ? "yes" : "no";
}

static void print_processor(void)
{
    uint32_t name[13] = {0}, b = 0, unused;
    for (uint32_t i = 0; i < 3; i++)
        __get_cpuid(0x80000002 + i, &name[4 * i], &name[4 * i + 1], &name[4 * i + 2], &name[4 * i + 3]);
    __get_cpuid_count(7, 0, &unused, &b, &unused, &unused);
    printf("%s: SSSE3 %s, AVX2 %s, AES-NI %s, PCLMULQDQ %s, SHA extensions %s\n", (const char *)name,
           yes_or_no(__builtin_cpu_supports("ssse3")), yes_or_no(__builtin_cpu_supports("avx2")),
           yes_or_no(__builtin_cpu_supports("aes")), yes_or_no(__builtin_cpu_supports("pclmul")), yes_or_no((b >> 29 & 1) != 0));
}

void report_columns(char descriptions[COLUMNS][DESCRIPTION])
{
    print_processor();
    for (int c = 0; c < COLUMNS; c++) printf("%-12s %-9s %s\n", columns[c].library, columns[c].path, descriptions[c]);
    printf("\n");
}

static void print_heading(void)
{
    printf("ours in microseconds a call and megabytes a second; then the ratio of each library's time to ours (above 1: ours is "
           "faster)\n\n%-15s %8s %10s %8s",
           "", "", "", "");
    for (int c = 1; c < COLUMNS; c++) printf(" %11s", columns[c].library);
    printf("\n%-15s %8s %10s %8s", "", "bytes", "us", "MB/s");
    for (int c = 1; c < COLUMNS; c++) printf(" %11s", columns[c].path);
    printf("\n");
}

static double megabytes_per_second(int task, double seconds)
{
    return (double)tasks[task].n / seconds / 1e6;
}

static void print_row(int task, const double *seconds)
{
    if (tasks[task].n == 0) printf("%-15s %8s %10.2f %8s", work_names[tasks[task].work], "", 1e6 * seconds[OURS], "");
    else
        printf("%-15s %8zu %10.2f %8.1f", work_names[tasks[task].work], tasks[task].n, 1e6 * seconds[OURS],
               megabytes_per_second(task, seconds[OURS]));
    for (int c = 1; c < COLUMNS; c++) {
        if (seconds[c] == 0) printf(" %11s", "-");
        else printf(" %11.*f", seconds[c] < 0.1 * seconds[OURS] ? 3 : 2, seconds[c] / seconds[OURS]);
    }
    printf("\n");
}

void report_table(figures seconds)
{
    print_heading();
    for (int t = 0; t < TASKS; t++) {
        if (t > 0 && tasks[t].work != tasks[t - 1].work) printf("\n");
        print_row(t, seconds[t]);
    }
    for (int c = 1; c < COLUMNS; c++)
        if (columns[c].peer->lacks != NULL) printf("-: %s %s\n", columns[c].library, columns[c].peer->lacks);
}

int report_csv(figures seconds, const char *file)
{
    FILE *f = fopen(file, "w");
    if (f == NULL) return 0;
    fprintf(f, "work,bytes,library,path,microseconds,megabytes_per_second,its_time_to_ours\n");
    for (int t = 0; t < TASKS; t++)
        for (int c = 0; c < COLUMNS; c++) {
            double s = seconds[t][c];
            if (s == 0) continue;
            fprintf(f, "%s,%zu,%s,%s,%.3f,%.1f,%.4f\n", work_names[tasks[t].work], tasks[t].n, columns[c].library, columns[c].path,
                    1e6 * s, megabytes_per_second(t, s), s / seconds[t][OURS]);
        }
    return fclose(f) == 0;
}
