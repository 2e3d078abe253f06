/*
 * Damaged lab traces rescued from C, beside a second rescue (trace_format.c): on random traces of both editions that are damaged in up to
 * four places, with every room and every list of a small one, with a trace of many megabytes, and with one that promises more than there is
 * at every place, which must not take long. After a refusal all that was lent is as it was.
 *
 * Usage: rescue_test [SEED [CASES]]
 */
#include <stdlib.h>
#include <string.h>
#include <time.h>

#include "../include/smb3seal.h"
#include "check.h"
#include "trace_format.h"

enum { CASES = 100000, MANY = 8000000, SECONDS = 5 };

/* By both, with places of these lengths and any content; what the model left is returned. */
static struct rescue rescue_both(const uint8_t *trace, size_t n, size_t rescued_len, size_t gaps_len)
{
    struct rescue expected = {0, copy_of(NULL, rescued_len), rescued_len, NULL, gaps_len, (size_t)number(), (size_t)number()};
    size_t list = gaps_len * sizeof(uint64_t);
    expected.gaps = (uint64_t *)copy_of(NULL, list);
    fill(expected.rescued, rescued_len < 2000 ? rescued_len : 2000);
    fill((uint8_t *)expected.gaps, list < 2000 ? list : 2000);
    uint8_t *rescued = copy_of(expected.rescued, rescued_len), *lent = copy_of(trace, n);
    uint64_t *gaps = (uint64_t *)copy_of(expected.gaps, list);
    size_t written = expected.written, count = expected.count;
    model_trace_rescue(trace, n, &expected);
    uint32_t r = smb3seal_trace_rescue(lent, n, rescued, rescued_len, gaps, gaps_len, &written, &count);
    expect(r == expected.number, "trace_rescue: its number", r);
    expect(written == expected.written && count == expected.count, "trace_rescue: bytes written and gaps", written);
    expect(memcmp(rescued, expected.rescued, rescued_len) == 0, "trace_rescue: what comes out", n);
    expect(memcmp(gaps, expected.gaps, list) == 0, "trace_rescue: the gaps", n);
    expect(memcmp(lent, trace, n) == 0, "trace_rescue: the trace is changed", n);
    free(rescued);
    free(lent);
    free(gaps);
    return expected;
}

static void release(struct rescue r)
{
    free(r.rescued);
    free(r.gaps);
}

/* With room that is always enough; what comes out is rescued again, and comes out as it is. */
static void rescue_twice(const uint8_t *trace, size_t n)
{
    struct rescue once = rescue_both(trace, n, n, 2 * (n / 9 + 1));
    expect(once.number == 0, "room that is always enough", n);
    struct rescue again = rescue_both(once.rescued, once.written, once.written, 0);
    expect(again.number == 0 && again.written == once.written && again.count == 0, "what comes out is clean", again.count);
    expect(memcmp(again.rescued, once.rescued, once.written) == 0, "and comes out as it is", once.written);
    release(again);
    release(once);
}

/* ---- traces */

static size_t put_record(uint8_t edition, uint8_t *trace, size_t room, size_t at)
{
    uint8_t payload[200];
    uint32_t kind = (uint32_t)below(4);
    size_t len = kind == 3 ? 24 : 1 + below(chance(50) ? 20 : sizeof payload);
    fill(payload, sizeof payload);
    if (kind < 3 && chance(75)) memcpy(payload, chance(50) ? "\xFESMB" : "\xFDSMB", 4);
    /* a record inside the payload */
    if (len > 40 && chance(30)) {
        put_head(edition, (uint32_t)below(3), 0, 12, payload + 8);
        memcpy(payload + 12, "\xFESMB", 4);
    }
    model_trace_record(edition, kind, chance(50), payload, len, trace, room, &at);
    return at;
}

static size_t damage(uint8_t *trace, size_t n, size_t room)
{
    size_t at = HEAD + below(n - HEAD + 1), some = 1 + below(8);
    switch (below(4)) {
    case 0: return at;
    case 1:
        if (at + some > n) return n;
        memmove(trace + at, trace + at + some, n - at - some);
        return n - some;
    case 2:
        if (n + some > room) return n;
        memmove(trace + at + some, trace + at, n - at);
        fill(trace + at, some);
        return n + some;
    default:
        if (at < n) trace[at] ^= (uint8_t)(1u << below(8));
        return n;
    }
}

static void random_trace(void)
{
    uint8_t trace[2000] = {(uint8_t)(1 + below(2)), 3, 17, 2};
    size_t n = HEAD;
    for (unsigned i = (unsigned)below(9); i > 0; i--) n = put_record(trace[0], trace, sizeof trace, n);
    for (unsigned i = (unsigned)below(5); i > 0; i--) n = damage(trace, n, sizeof trace);
    rescue_twice(trace, n);
    if (chance(10)) trace[0] = (uint8_t)number();
    release(rescue_both(trace, chance(95) ? n : below(HEAD), below(n + 20), below(20)));
}

/* Every room and every list, of a trace with three gaps; and every byte of it changed. */
static void small_trace(uint8_t edition)
{
    uint8_t trace[100] = {edition, 3, 17, 2, 9, 9}, payload[24] = "\xFESMB", session[24] = {7};
    size_t at = HEAD + 2, n;
    model_trace_record(edition, 0, 0, payload, 9, trace, sizeof trace, &at);
    trace[at++] = 0xFF;
    model_trace_record(edition, 1, 1, payload, 4, trace, sizeof trace, &at);
    model_trace_record(edition, 3, 0, session, 24, trace, sizeof trace, &at);
    n = at + 3;
    for (size_t rescued = 0; rescued <= n + 2; rescued++)
        for (size_t gaps = 0; gaps <= 9; gaps++) {
            struct rescue r = rescue_both(trace, n, rescued, gaps);
            expect(r.number == (rescued >= n - 6 && gaps >= 6 ? 0u : 36u), "room for what comes out and for three gaps", rescued);
            release(r);
        }
    for (size_t place = 0; place < n; place++)
        for (int value = 0; value < 256; value += place < HEAD ? 1 : 17) {
            uint8_t before = trace[place];
            trace[place] = (uint8_t)value;
            release(rescue_both(trace, n, n, 2 * (n / 9 + 1)));
            trace[place] = before;
        }
}

/* ---- many megabytes */

static uint8_t many[MANY];

static void expect_quick(const char *what, size_t n)
{
    clock_t start = clock();
    struct rescue lent = {0, copy_of(NULL, n), n, (uint64_t *)copy_of(NULL, (n / 9 + 1) * 2 * sizeof(uint64_t)), 2 * (n / 9 + 1), 0, 0};
    lent.number = smb3seal_trace_rescue(many, n, lent.rescued, n, lent.gaps, lent.gaps_len, &lent.written, &lent.count);
    expect(lent.number == 0, what, lent.number);
    expect(lent.count == 1 && lent.written == HEAD && lent.gaps[0] == HEAD && lent.gaps[1] == n - HEAD, "one gap to the end", lent.count);
    expect((double)(clock() - start) / CLOCKS_PER_SEC < SECONDS, "seconds for a trace that promises more than there is", n);
    release(lent);
}

/* At every fourth place, then at every place, a head that promises the longest payload, which is not there: at each it must be given up at once. */
static void promises(void)
{
    memcpy(many, (uint8_t[]){2, 3, 17, 2}, HEAD);
    for (size_t at = HEAD; at + HEAD <= MANY; at += HEAD) put_head(2, 2, 1, LONGEST, many + at);
    expect_quick("heads that promise more than there is", MANY);
    /* four of these bytes are a head of 328,965 bytes */
    memset(many + HEAD, 0x50, 300000);
    expect_quick("a byte that promises more than there is, again and again", 300000);
}

/* Longer than any program holds, with payloads over 65,536 bytes, and gaps of one byte and of many. */
static void long_trace(uint8_t edition)
{
    static uint8_t payload[300000];
    size_t at = HEAD;
    memset(many, 0xEE, sizeof many);
    memcpy(many, (uint8_t[]){edition, 3, 17, 2}, HEAD);
    memcpy(payload, "\xFDSMB", 4);
    for (size_t i = 0; i < 8; i++) {
        expect(model_trace_record(edition, 2, 1, payload, sizeof payload >> i % 3, many, sizeof many, &at) == 0, "a long record", i);
        at += i % 2 == 0 ? 1 : 100000;
    }
    rescue_twice(many, at);
}

int main(int argc, char **argv)
{
    unsigned long cases = argc > 2 ? strtoul(argv[2], NULL, 0) : CASES;
    begin(argc, argv);
    begin_case(0);
    small_trace(1);
    small_trace(2);
    promises();
    long_trace(1);
    long_trace(2);
    for (unsigned long i = 1; i <= cases; i++) {
        begin_case(i);
        random_trace();
    }
    return finish();
}
