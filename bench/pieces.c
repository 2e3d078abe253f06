/*
 * What a message in pieces costs: folded, signed and verified in pieces of 1,460 bytes, as TCP brings them, beside one call on the whole.
 *
 * The two take turns, and the best of all rounds counts. Times are of the processor, for whole calls of smb3seal.h.
 *
 * Usage: pieces FILE.csv
 */
#define _POSIX_C_SOURCE 200809L
#include <stdint.h>
#include <stdio.h>
#include <stdlib.h>
#include <string.h>
#include <time.h>

#include "../include/smb3seal.h"

enum { PIECE = 1460, ROUNDS = 60, BYTES_A_ROUND = 4 << 20 };

static const size_t lengths[] = {PIECE, 4 * PIECE, 65536, 1 << 20};
enum { LENGTHS = sizeof lengths / sizeof lengths[0] };

static const uint8_t key[SMB3SEAL_KEY_BYTES] = {1, 2, 3};
static uint8_t message[1 << 20], chain[SMB3SEAL_CHAIN_BYTES];

static int fold(size_t n)
{
    return smb3seal_fold(chain, sizeof chain, message, n) == SMB3SEAL_DONE;
}

static int fold_pieces(size_t n)
{
    struct smb3seal_fold_step step = smb3seal_fold_begin(chain, sizeof chain);
    for (size_t at = 0; at < n && step.number == SMB3SEAL_DONE; at += PIECE)
        step = smb3seal_fold_piece(step.state, message + at, n - at < PIECE ? n - at : PIECE);
    return smb3seal_fold_finish(step.state, chain, sizeof chain).number == SMB3SEAL_DONE;
}

static int sign(size_t n)
{
    return smb3seal_sign(key, sizeof key, message, n) == SMB3SEAL_DONE;
}

static struct smb3seal_sign_state pieces_of(size_t n)
{
    struct smb3seal_sign_step step = smb3seal_sign_begin(key, sizeof key);
    for (size_t at = 0; at < n && step.number == SMB3SEAL_DONE; at += PIECE)
        step = smb3seal_sign_piece(step.state, message + at, n - at < PIECE ? n - at : PIECE);
    return step.state;
}

static int sign_pieces(size_t n)
{
    return smb3seal_sign_finish(pieces_of(n), message + 48, 16).number == SMB3SEAL_DONE;
}

static int verify(size_t n)
{
    return smb3seal_verify(key, sizeof key, message, n) == SMB3SEAL_DONE;
}

static int verify_pieces(size_t n)
{
    return smb3seal_verify_finish(pieces_of(n)).number == SMB3SEAL_DONE;
}

static const struct task {
    const char *name;
    int (*whole)(size_t n);
    int (*pieces)(size_t n);
} tasks[] = {{"fold", fold, fold_pieces}, {"sign", sign, sign_pieces}, {"verify", verify, verify_pieces}};
enum { TASKS = sizeof tasks / sizeof tasks[0] };

static double now(void)
{
    struct timespec t;
    clock_gettime(CLOCK_PROCESS_CPUTIME_ID, &t);
    return (double)t.tv_sec * 1e6 + (double)t.tv_nsec / 1e3;
}

/* Microseconds for one call, if that is better than the best so far. */
static double better(double best, int (*call)(size_t n), size_t n)
{
    size_t times = BYTES_A_ROUND / n;
    double start = now();
    for (size_t i = 0; i < times; i++)
        if (!call(n)) exit(1);
    double one = (now() - start) / (double)times;
    return one < best ? one : best;
}

int main(int argc, char **argv)
{
    FILE *out = argc > 1 ? fopen(argv[1], "w") : stdout;
    if (out == NULL) return 1;
    memcpy(message, "\xFESMB", 4);
    fprintf(out, "call,bytes,microseconds_whole,microseconds_in_pieces,speed_in_pieces\n");
    for (const struct task *t = tasks; t < tasks + TASKS; t++)
        for (size_t i = 0; i < LENGTHS; i++) {
            double whole = 1e9, pieces = 1e9;
            if (!sign(lengths[i])) return 1;
            for (int round = 0; round < ROUNDS; round++) {
                whole = better(whole, t->whole, lengths[i]);
                pieces = better(pieces, t->pieces, lengths[i]);
            }
            fprintf(out, "%s,%zu,%.3f,%.3f,%.3f\n", t->name, lengths[i], whole, pieces, whole / pieces);
        }
    return fclose(out) != 0;
}
