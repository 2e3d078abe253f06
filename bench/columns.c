#define _POSIX_C_SOURCE 200809L
#include "columns.h"

#include <stdio.h>
#include <stdlib.h>
#include <sys/wait.h>
#include <unistd.h>

/*
 * scalar: no extension at all. vector: the vector instructions that the processor has, but without AES-NI and PCLMULQDQ (first
 * word) and the SHA extensions (second word). hardware: all that library and processor have.
 */
const struct column columns[COLUMNS] = {
    {"smb3seal", "software", &peer_smb3seal, NULL, NULL},
    {"mbedTLS", "software", &peer_mbedtls, "MBEDTLS_SOFTWARE", "1"},
    {"nettle", "software", &peer_nettle, "NETTLE_FAT_OVERRIDE", "none"},
    {"wolfSSL", "software", &peer_wolfssl, NULL, NULL},
    {"libtomcrypt", "software", &peer_libtomcrypt, NULL, NULL},
    {"OpenSSL", "scalar", &peer_openssl, "OPENSSL_ia32cap", "0:0"},
    {"OpenSSL", "vector", &peer_openssl, "OPENSSL_ia32cap", "~0x200000200000000:~0x20000000"},
    {"mbedTLS", "hardware", &peer_mbedtls, NULL, NULL},
    {"nettle", "hardware", &peer_nettle, NULL, NULL},
    {"OpenSSL", "hardware", &peer_openssl, NULL, NULL},
};

enum { AGREES_NOT = -1, FAILED = -2 };

static struct {
    pid_t pid;
    int questions, answers;
} processes[COLUMNS];

static _Noreturn void stop(int column, const char *what)
{
    fprintf(stderr, "bench: %s, %s: %s\n", columns[column].library, columns[column].path, what);
    exit(1);
}

static void become(int column, int questions, int answers)
{
    static const char *const variables[] = {"MBEDTLS_SOFTWARE", "NETTLE_FAT_OVERRIDE", "OPENSSL_ia32cap"};
    char c[16], q[16], a[16];
    snprintf(c, sizeof c, "%d", column);
    snprintf(q, sizeof q, "%d", questions);
    snprintf(a, sizeof a, "%d", answers);
    for (size_t i = 0; i < sizeof variables / sizeof variables[0]; i++) unsetenv(variables[i]);
    if (columns[column].variable != NULL) setenv(columns[column].variable, columns[column].value, 1);
    execl("/proc/self/exe", "bench", c, q, a, (char *)NULL);
    _exit(127);
}

void column_start(int column, char *description)
{
    int questions[2], answers[2];
    if (pipe(questions) != 0 || pipe(answers) != 0) stop(column, "no pipe");
    pid_t pid = fork();
    if (pid == 0) {
        close(questions[1]);
        close(answers[0]);
        become(column, questions[0], answers[1]);
    }
    close(questions[0]);
    close(answers[1]);
    processes[column].pid = pid;
    processes[column].questions = questions[1];
    processes[column].answers = answers[0];
    if (pid < 0 || read(answers[0], description, DESCRIPTION) != DESCRIPTION) stop(column, "does not start");
}

double column_time(int column, int task)
{
    double seconds;
    if (write(processes[column].questions, &task, sizeof task) != (ssize_t)sizeof task ||
        read(processes[column].answers, &seconds, sizeof seconds) != (ssize_t)sizeof seconds)
        stop(column, "ended early");
    if (seconds == AGREES_NOT) stop(column, "does not compute the bytes that smb3seal computes");
    if (seconds < 0) stop(column, "failed");
    return seconds;
}

void columns_end(void)
{
    for (int c = 0; c < COLUMNS; c++) close(processes[c].questions);
    for (int c = 0; c < COLUMNS; c++) waitpid(processes[c].pid, NULL, 0);
}

/* The first time that a task is asked for, the library has to agree with ours on it. */
static double answer(const struct peer *p, int task)
{
    static int filled = -1;
    if (!batch_offered(p, tasks[task].work)) return 0;
    if (task != filled) {
        if (!batch_fill(tasks[task])) return FAILED;
        if (!batch_agrees(p)) return AGREES_NOT;
        filled = task;
    }
    double seconds = batch_time(p);
    return seconds < 0 ? FAILED : seconds;
}

int column_serve(int column, int questions, int answers)
{
    const struct peer *p = columns[column].peer;
    char description[DESCRIPTION] = "";
    int task;
    if (!p->prepare(description, sizeof description)) return 1;
    if (write(answers, description, sizeof description) != (ssize_t)sizeof description) return 1;
    while (read(questions, &task, sizeof task) == (ssize_t)sizeof task) {
        double seconds = answer(p, task);
        if (write(answers, &seconds, sizeof seconds) != (ssize_t)sizeof seconds) return 1;
    }
    return 0;
}
