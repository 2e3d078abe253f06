/*
 * What the session table costs: its calls beside those under one key, by the number of records. The session is the last record, so
 * that lookup passes over all the others; adding fills the last record, which alone is free.
 *
 * The tasks take turns, and the best of all rounds counts. Times are of the processor, for whole calls of smb3seal.h.
 *
 * Usage: table FILE.csv: times every task; or table TASK: makes the call of one task once, to count its instructions
 *        (scripts/table-instructions)
 */
#define _POSIX_C_SOURCE 200809L
#include <stdint.h>
#include <stdio.h>
#include <stdlib.h>
#include <string.h>
#include <time.h>

#include "../include/smb3seal.h"

enum { HEADER = SMB3SEAL_HEADER_BYTES, LONGEST = 1024, MESSAGES = 64, MOST_RECORDS = 1024, SESSION = 0x3039 };
enum { ROUNDS = 12, MANY = 64 * MESSAGES };
enum { CCM = SMB3SEAL_CIPHER_AES_128_CCM, GCM = SMB3SEAL_CIPHER_AES_128_GCM };

enum work { SEAL, OPEN, ADD, FIND, REMOVE };
static const char *const names[] = {"seal", "open", "add", "find", "remove"}, *const ciphers[] = {"", "CCM", "GCM"};

/* records: 0 for the call under one key; for adding that is the derivation of the same keys. n: bytes of the inner message. */
struct task {
    enum work work;
    uint16_t cipher;
    size_t n, records;
};

#define BY_RECORDS(work, cipher, n) {work, cipher, n, 1}, {work, cipher, n, 16}, {work, cipher, n, 1024}
#define BESIDE_ONE_KEY(work, cipher, n) {work, cipher, n, 0}, BY_RECORDS(work, cipher, n)

static const struct task tasks[] = {
    BESIDE_ONE_KEY(SEAL, CCM, 64), BESIDE_ONE_KEY(SEAL, CCM, LONGEST), BESIDE_ONE_KEY(SEAL, GCM, 64),
    BESIDE_ONE_KEY(SEAL, GCM, LONGEST), BESIDE_ONE_KEY(OPEN, CCM, 64), BESIDE_ONE_KEY(OPEN, CCM, LONGEST),
    BESIDE_ONE_KEY(OPEN, GCM, 64), BESIDE_ONE_KEY(OPEN, GCM, LONGEST), BESIDE_ONE_KEY(ADD, 0, 0),
    BY_RECORDS(FIND, 0, 0), BY_RECORDS(REMOVE, 0, 0),
};
enum { TASKS = sizeof tasks / sizeof tasks[0] };

static const uint8_t key[16] = {1, 2, 3}, chain[64] = {7, 8, 9};
static struct smb3seal_session table[MOST_RECORDS], *last;
static uint8_t before[MESSAGES][HEADER + LONGEST], messages[MESSAGES][HEADER + LONGEST];
static struct smb3seal_connection connection = {.dialect = SMB3SEAL_DIALECT_311, .encryption = 1};
static uint64_t counter, headers;

/* Where the client seals and the server opens: the key of one direction. */
static int run_under_key(const struct task *t, uint8_t *m)
{
    uint8_t keys[64];
    size_t n = HEADER + t->n;
    uint16_t dialect = connection.dialect;
    if (t->work == SEAL)
        return smb3seal_seal(SMB3SEAL_CLIENT, dialect, 1, t->cipher, key, 16, SESSION, &counter, m, n, &headers) == SMB3SEAL_DONE;
    if (t->work == OPEN)
        return smb3seal_open(SMB3SEAL_SERVER, dialect, 1, t->cipher, key, 16, SESSION, m, n, &headers) == SMB3SEAL_DONE;
    return smb3seal_derive(dialect, t->cipher, key, 16, chain, 64, keys, 64) == SMB3SEAL_DONE;
}

/* Before adding the last record is made free, before removing it is made the session's: one or two stores. */
static int run_one(const struct task *t, uint8_t *m)
{
    if (t->records == 0) return run_under_key(t, m);
    switch (t->work) {
    case SEAL: return smb3seal_table_seal(table, t->records, connection, SESSION, m, HEADER + t->n, &headers) == SMB3SEAL_DONE;
    case OPEN: return smb3seal_table_open(table, t->records, connection, m, HEADER + t->n, &headers) == SMB3SEAL_DONE;
    case FIND: return smb3seal_table_find(table, t->records, SESSION) == t->records - 1;
    case ADD:
        last->used = 0;
        return smb3seal_table_add(table, t->records, connection, SESSION, 0, 0, key, 16, chain, 64) == SMB3SEAL_DONE;
    default:
        last->used = 1;
        last->id = SESSION;
        return smb3seal_table_remove(table, t->records, SESSION) == SMB3SEAL_DONE;
    }
}

static _Noreturn void stop(const struct task *t)
{
    fprintf(stderr, "table: %s %s, %zu bytes, %zu records: not done\n", names[t->work], ciphers[t->cipher], t->n, t->records);
    exit(1);
}

/* The table, and the messages as they are to be sealed or, sealed under the one key, opened. */
static void prepare(const struct task *t)
{
    struct task sealing = {SEAL, t->cipher, t->n, 0};
    connection.cipher = t->cipher;
    connection.role = t->work == OPEN ? SMB3SEAL_SERVER : SMB3SEAL_CLIENT;
    memset(table, 0, sizeof table);
    for (size_t i = 0; i < t->records; i++) table[i] = (struct smb3seal_session){.id = SESSION + 1 + i, .used = 1};
    last = t->records > 0 ? &table[t->records - 1] : NULL;
    if (last != NULL) last->id = SESSION;
    if (last != NULL) memcpy(last->client_to_server, key, 16);
    memset(before, 0, sizeof before);
    for (size_t i = 0; i < MESSAGES; i++) {
        memcpy(before[i] + HEADER, "\xFESMB", 4);
        memcpy(before[i] + HEADER + 40, "\x39\x30", 2);
        if (t->work == OPEN && !run_under_key(&sealing, before[i])) stop(&sealing);
    }
    memcpy(messages, before, sizeof messages);
}

static double now(void)
{
    struct timespec t;
    clock_gettime(CLOCK_PROCESS_CPUTIME_ID, &t);
    return (double)t.tv_sec + 1e-9 * (double)t.tv_nsec;
}

/* Seconds of a call, over some 10 milliseconds. The messages are put back outside the timing; calls without one are timed by many. */
static double measure(const struct task *t)
{
    double spent = 0;
    size_t calls = 0, at_once = t->n > 0 ? MESSAGES : MANY;
    prepare(t);
    while (spent < 0.01) {
        memcpy(messages, before, sizeof messages);
        double start = now();
        for (size_t i = 0; i < at_once; i++)
            if (!run_one(t, messages[i % MESSAGES])) stop(t);
        spent += now() - start;
        calls += at_once;
    }
    return spent / (double)calls;
}

/* The call under one key stands before the calls with the table that it is compared with; finding and removing have none. */
static void report(FILE *csv, const double *best)
{
    fprintf(csv, "call,cipher,bytes,records,microseconds,to_one_key\n");
    printf("\n%-8s %-4s %6s %8s %12s %12s\n", "", "", "bytes", "records", "microseconds", "to one key");
    double one_key = 0;
    for (size_t i = 0; i < TASKS; i++) {
        const struct task *t = &tasks[i];
        char records[24] = "one key", bytes[24] = "", ratio[24] = "";
        if (t->records == 0) one_key = best[i];
        else snprintf(records, sizeof records, "%zu", t->records);
        if (t->n > 0) snprintf(bytes, sizeof bytes, "%zu", t->n);
        if (t->work < FIND) snprintf(ratio, sizeof ratio, "%.3f", best[i] / one_key);
        printf("%-8s %-4s %6s %8s %12.3f %12s\n", names[t->work], ciphers[t->cipher], bytes, records, 1e6 * best[i], ratio);
        fprintf(csv, "%s,%s,%s,%s,%.4f,%s\n", names[t->work], ciphers[t->cipher], bytes, records, 1e6 * best[i], ratio);
    }
}

int main(int argc, char **argv)
{
    static double best[TASKS];
    char *end = NULL;
    unsigned long one = argc == 2 ? strtoul(argv[1], &end, 10) : 0;
    if (argc == 2 && *end == '\0' && one < TASKS) {
        prepare(&tasks[one]);
        return run_one(&tasks[one], messages[0]) ? 0 : 1;
    }
    FILE *csv = argc == 2 ? fopen(argv[1], "w") : NULL;
    if (csv == NULL) {
        fprintf(stderr, "usage: table FILE.csv | TASK\n");
        return 2;
    }
    for (int round = 0; round < ROUNDS; round++)
        for (size_t i = 0; i < TASKS; i++) {
            double seconds = measure(&tasks[i]);
            if (best[i] == 0 || seconds < best[i]) best[i] = seconds;
        }
    report(csv, best);
    return fclose(csv) == 0 ? 0 : 1;
}
