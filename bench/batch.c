#define _POSIX_C_SOURCE 200809L
#include "batch.h"

#include <string.h>
#include <time.h>

/* TOGETHER: bytes of a batch of several pieces. */
enum { LONGEST = 8388608, TOGETHER = 1048576, POOL = LONGEST + 131072, MOST = 1024, LINE = 64 };

#define AT_EACH_SIZE(work) {work, 64}, {work, 1024}, {work, 65536}, {work, 1048576}, {work, LONGEST}

const struct task tasks[TASKS] = {
    AT_EACH_SIZE(CCM_SEAL), AT_EACH_SIZE(CCM_OPEN), AT_EACH_SIZE(GCM_SEAL), AT_EACH_SIZE(GCM_OPEN),
    AT_EACH_SIZE(CCM_256_SEAL), AT_EACH_SIZE(CCM_256_OPEN), AT_EACH_SIZE(GCM_256_SEAL), AT_EACH_SIZE(GCM_256_OPEN),
    AT_EACH_SIZE(SIGN),     {DERIVE, 0},            AT_EACH_SIZE(FOLD),     AT_EACH_SIZE(SHA256),
    AT_EACH_SIZE(CTR),
};

const char *const work_names[WORKS] = {"seal CCM",     "open CCM",     "seal GCM",    "open GCM",    "seal CCM-256",   "open CCM-256", "seal GCM-256",
                                       "open GCM-256", "sign (CMAC)", "derive keys", "fold (SHA-512)", "SHA-256",      "AES-128-CTR"};

static const uint8_t key[KEY_256_BYTES] = {1, 2, 3, [30] = 4}, counter_block[16] = {4, 5, 6, [15] = 1};
static const uint8_t chain[64] = {7, 8, 9};
static uint8_t text[LONGEST], strings[4][128];
static struct derivation derivation = {.material = key, .chain = chain};

static uint8_t before[POOL], after[POOL], memory[POOL];
static struct task task;
static size_t stride, count;

int batch_offered(const struct peer *p, enum work work)
{
    switch (work) {
    case CCM_SEAL:
    case CCM_256_SEAL: return p->ccm_seal != NULL;
    case CCM_OPEN:
    case CCM_256_OPEN: return p->ccm_open != NULL;
    case GCM_SEAL:
    case GCM_256_SEAL: return p->gcm_seal != NULL;
    case GCM_OPEN:
    case GCM_256_OPEN: return p->gcm_open != NULL;
    case SIGN: return p->sign != NULL;
    case DERIVE: return p->derive != NULL;
    case FOLD: return p->fold != NULL;
    case SHA256: return p->sha256 != NULL;
    case CTR: return p->ctr != NULL;
    default: return 0;
    }
}

static int run_one(const struct peer *p, uint8_t *piece)
{
    switch (task.work) {
    case CCM_SEAL: return p->ccm_seal(key, KEY_BYTES, piece, task.n);
    case CCM_OPEN: return p->ccm_open(key, KEY_BYTES, piece, task.n);
    case GCM_SEAL: return p->gcm_seal(key, KEY_BYTES, piece, task.n);
    case GCM_OPEN: return p->gcm_open(key, KEY_BYTES, piece, task.n);
    case CCM_256_SEAL: return p->ccm_seal(key, KEY_256_BYTES, piece, task.n);
    case CCM_256_OPEN: return p->ccm_open(key, KEY_256_BYTES, piece, task.n);
    case GCM_256_SEAL: return p->gcm_seal(key, KEY_256_BYTES, piece, task.n);
    case GCM_256_OPEN: return p->gcm_open(key, KEY_256_BYTES, piece, task.n);
    case SIGN: return p->sign(key, piece, task.n);
    case DERIVE: return p->derive(&derivation, piece);
    case FOLD: return p->fold(piece, text, task.n);
    case SHA256: return p->sha256(piece, text, task.n);
    case CTR: return p->ctr(key, counter_block, piece, task.n);
    default: return 0;
    }
}

static int run_all(const struct peer *p)
{
    int done = 1;
    for (size_t i = 0; i < count; i++) done &= run_one(p, memory + i * stride);
    return done;
}

/* What is changed by one call. */
static size_t piece_bytes(struct task t)
{
    switch (t.work) {
    case DERIVE:
    case FOLD: return 64;
    case SHA256: return 32;
    case SIGN:
    case CTR: return t.n;
    default: return TEXT_AT + t.n;
    }
}

/* SP 800-108 as SMB 3.1.1 uses it: 00 00 00 01, the label with its zero, 00, the chain value, 00 00 00 80. */
static void write_strings(void)
{
    static const char *const labels[4] = {"SMBSigningKey", "SMBAppKey", "SMBC2SCipherKey", "SMBS2CCipherKey"};
    for (int i = 0; i < 4; i++) {
        size_t at = strlen(labels[i]) + 1;
        memcpy(strings[i], "\0\0\0\1", 4);
        memcpy(strings[i] + 4, labels[i], at);
        strings[i][4 + at] = 0;
        memcpy(strings[i] + 5 + at, chain, 64);
        memcpy(strings[i] + 69 + at, "\0\0\0\x80", 4);
        derivation.strings[i] = strings[i];
        derivation.lengths[i] = 73 + at;
    }
}

/* One SMB 2 message behind a transform header with the counter i, as sealing writes it but for the tag. */
static void write_message(uint8_t *m, size_t n, size_t i)
{
    static const uint8_t header[TEXT_AT] = {0xFD, 'S', 'M', 'B', [42] = 1, [44] = 0x39, 0x30};
    memcpy(m, header, TEXT_AT);
    m[NONCE_AT] = (uint8_t)i;
    m[NONCE_AT + 1] = (uint8_t)(i >> 8);
    for (int b = 0; b < 4; b++) m[36 + b] = (uint8_t)(n >> 8 * b);
    memcpy(m + TEXT_AT, text, n);
    memset(m + TEXT_AT, 0, 64);
    memcpy(m + TEXT_AT, "\xFESMB", 4);
    memcpy(m + TEXT_AT + 40, header + 44, 8);
}

/* One SMB 2 message in clear. */
static void write_clear(uint8_t *m, size_t n)
{
    memcpy(m, text, n);
    memcpy(m, "\xFESMB", 4);
}

static int is_message(enum work work)
{
    return work <= GCM_256_OPEN;
}

/* Runs ours on all of `memory` and keeps the outcome in `to`. */
static int keep_ours(enum work work, uint8_t *to)
{
    task.work = work;
    int done = run_all(&peer_smb3seal);
    memcpy(to, memory, count * stride);
    return done;
}

int batch_fill(struct task t)
{
    int done = 1;
    for (size_t i = 0; i < sizeof text; i++) text[i] = (uint8_t)(i * 167 + (i >> 8));
    write_strings();
    task = t;
    stride = (piece_bytes(t) + LINE - 1) / LINE * LINE;
    count = TOGETHER / (t.n + LINE);
    count = count == 0 ? 1 : count > MOST ? MOST : count;
    for (size_t i = 0; i < count * stride; i++) memory[i] = (uint8_t)(i * 31 + 1);
    for (size_t i = 0; i < count && is_message(t.work); i++) write_message(memory + i * stride, t.n, i);
    for (size_t i = 0; i < count && t.work == SIGN; i++) write_clear(memory + i * stride, t.n);
    memcpy(before, memory, count * stride);
    if (t.work == CCM_OPEN) done &= keep_ours(CCM_SEAL, before);
    if (t.work == GCM_OPEN) done &= keep_ours(GCM_SEAL, before);
    if (t.work == CCM_256_OPEN) done &= keep_ours(CCM_256_SEAL, before);
    if (t.work == GCM_256_OPEN) done &= keep_ours(GCM_256_SEAL, before);
    return done & keep_ours(t.work, after);
}

int batch_agrees(const struct peer *p)
{
    memcpy(memory, before, count * stride);
    return run_all(p) && memcmp(memory, after, count * stride) == 0;
}

static double now(void)
{
    struct timespec t;
    clock_gettime(CLOCK_PROCESS_CPUTIME_ID, &t);
    return (double)t.tv_sec + 1e-9 * (double)t.tv_nsec;
}

double batch_time(const struct peer *p)
{
    double spent = 0;
    size_t calls = 0;
    while (spent < 0.01) {
        memcpy(memory, before, count * stride);
        double start = now();
        if (!run_all(p)) return -1;
        spent += now() - start;
        calls += count;
    }
    return spent / (double)calls;
}
