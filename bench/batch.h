/*
 * A batch: the same work on several pieces of memory, so that it can be timed as a whole and put back outside the timing.
 * There is one batch at a time.
 */
#ifndef BATCH_H
#define BATCH_H

#include "peer.h"

enum work { CCM_SEAL, CCM_OPEN, GCM_SEAL, GCM_OPEN, CCM_256_SEAL, CCM_256_OPEN, GCM_256_SEAL, GCM_256_OPEN, SIGN, DERIVE, FOLD, SHA256,
            CTR, WORKS };
enum { SIZES = 5, TASKS = SIZES * (WORKS - 1) + 1 };

/* n: bytes of the inner message, of the signed or folded message, or of the text; 0 for the derivation, which has no length. */
struct task {
    enum work work;
    size_t n;
};

extern const struct task tasks[TASKS];
extern const char *const work_names[WORKS];

int batch_offered(const struct peer *p, enum work work);

/* Fills the batch for a task: what the memory holds before, and what ours makes of it. Answers 0 where ours fails. */
int batch_fill(struct task t);

/* Whether the peer makes the same bytes of the whole batch as ours. */
int batch_agrees(const struct peer *p);

/* Processor time of one call in seconds, over some 10 milliseconds; negative where a call failed. */
double batch_time(const struct peer *p);

#endif
