#include "trace_format.h"

#include <stdlib.h>
#include <string.h>

#include "check.h"

/* Of editions 1 and 2: the zero bits below the length, and the longest payload. */
static const struct { uint32_t zeros, longest; } editions[] = {[1] = {7, 1048628}, [2] = {4, LONGEST}};

int known_edition(uint8_t edition)
{
    return edition == 1 || edition == 2;
}

size_t longest_payload(uint8_t edition)
{
    return editions[edition].longest;
}

static uint32_t head_at(const uint8_t *b)
{
    return (uint32_t)b[0] << 24 | (uint32_t)b[1] << 16 | (uint32_t)b[2] << 8 | b[3];
}

static int admitted(uint8_t edition, uint32_t kind, size_t len)
{
    return kind == 3 ? len == 24 : kind < 3 && len >= 1 && len <= editions[edition].longest;
}

void put_head(uint8_t edition, uint32_t kind, uint32_t from_server, size_t len, uint8_t *at)
{
    uint32_t head = kind << 29 | (uint32_t)(from_server != 0) << 28 | (uint32_t)len << editions[edition].zeros;
    for (int i = 0; i < HEAD; i++) at[i] = (uint8_t)(head >> (24 - 8 * i));
}

struct trace_record model_trace_read(const uint8_t *trace, size_t n, struct trace_record lent)
{
    struct trace_record refused = lent;
    refused.number = 36;
    lent.number = 0;
    if (n < HEAD || !known_edition(trace[0])) return refused;
    if (lent.at >= n) {
        lent.payload_len = 0;
        return lent;
    }
    if (n - lent.at < HEAD) return refused;
    uint32_t head = head_at(trace + lent.at), zeros = editions[trace[0]].zeros, len = (head & 0xFFFFFFF) >> zeros;
    if (head % (1u << zeros) != 0 || !admitted(trace[0], head >> 29, len) || n - lent.at - HEAD < len) return refused;
    return (struct trace_record){0, lent.at + HEAD + len, lent.at + HEAD, len, head >> 29, (head >> 28) & 1};
}

uint32_t model_trace_record(uint8_t edition, uint32_t kind, uint32_t from_server, const uint8_t *payload, size_t len, uint8_t *room, size_t n,
                            size_t *at)
{
    if (!admitted(edition, kind, len) || *at > n || n - *at < HEAD || n - *at - HEAD < len) return 36;
    put_head(edition, kind, from_server, len, room + *at);
    memcpy(room + *at + HEAD, payload, len);
    *at += HEAD + len;
    return 0;
}

/* Whether the record at this place is one where the reader takes up again. */
static int is_found(const uint8_t *trace, size_t n, size_t at)
{
    struct trace_record r = model_trace_read(trace, n, (struct trace_record){.at = at});
    const uint8_t *p = trace + r.payload;
    return r.number == 0 && r.payload_len >= 4 && r.kind < 3 && (p[0] == 0xFE || p[0] == 0xFD) && memcmp(p + 1, "SMB", 3) == 0;
}

void model_trace_rescue(const uint8_t *trace, size_t n, struct rescue *lent)
{
    uint8_t *out = copy_of(trace, n);
    uint64_t *gaps = (uint64_t *)copy_of(NULL, (n / 9 + 1) * 2 * sizeof *gaps);
    size_t written = HEAD, count = 0, next;
    int good = n >= HEAD && known_edition(trace[0]);
    for (size_t at = HEAD; good && at < n; at = next) {
        struct trace_record r = model_trace_read(trace, n, (struct trace_record){.at = at});
        next = r.number == 0 ? r.at : at + 1;
        if (r.number == 0) {
            memcpy(out + written, trace + at, next - at);
            written += next - at;
            continue;
        }
        while (next < n && !is_found(trace, n, next)) next++;
        gaps[2 * count] = at;
        gaps[2 * count++ + 1] = next - at;
    }
    lent->number = good && written <= lent->rescued_len && 2 * count <= lent->gaps_len ? 0 : 36;
    if (lent->number == 0) {
        memcpy(lent->rescued, out, written);
        memcpy(lent->gaps, gaps, 2 * count * sizeof *gaps);
        lent->written = written;
        lent->count = count;
    }
    free(out);
    free(gaps);
}

uint8_t *copy_of(const void *bytes, size_t n)
{
    uint8_t *copy = calloc(n > 0 ? n : 1, 1);
    if (copy == NULL) fail("no memory", n);
    if (n > 0 && bytes != NULL) memcpy(copy, bytes, n);
    return copy;
}
