/*
 * Lab traces: the reader and the writer from C beside a second one (trace_format.c), on random traces of both editions, every head of
 * one byte changed, every room and every cut of a small trace. After a refusal all that was lent is as it was.
 *
 * Usage: trace_test [SEED [CASES]]
 */
#include <stdlib.h>
#include <string.h>

#include "../include/smb3seal.h"
#include "check.h"
#include "trace_format.h"

enum { CASES = 100000 };

/* ---- one call by both */

static struct trace_record read_both(const uint8_t *trace, size_t n, size_t at)
{
    struct trace_record lent = {0, at, (size_t)number(), (size_t)number(), (uint32_t)number(), (uint32_t)number()};
    struct trace_record expected = model_trace_read(trace, n, lent), got = lent;
    uint8_t *copy = copy_of(trace, n);
    got.number = smb3seal_trace_read(copy, n, &got.at, &got.kind, &got.from_server, &got.payload, &got.payload_len);
    expect(got.number == expected.number, "trace_read: its number", got.number);
    expect(got.at == expected.at, "trace_read: the next place", got.at);
    expect(got.kind == expected.kind && got.from_server == expected.from_server, "trace_read: kind and direction", got.kind);
    expect(got.payload == expected.payload && got.payload_len == expected.payload_len, "trace_read: the payload", got.payload_len);
    expect(memcmp(copy, trace, n) == 0, "trace_read: the trace is changed", n);
    free(copy);
    return got;
}

static void read_head_both(const uint8_t *trace, size_t n)
{
    uint8_t edition = (uint8_t)number(), lent_edition = edition;
    uint16_t dialect = (uint16_t)number(), cipher = (uint16_t)number(), lent_dialect = dialect, lent_cipher = cipher;
    uint8_t *copy = copy_of(trace, n);
    uint32_t r = smb3seal_trace_read_head(copy, n, &edition, &dialect, &cipher);
    int good = n >= HEAD && known_edition(trace[0]);
    expect(r == (good ? 0u : 36u), "trace_read_head: its number", r);
    expect(edition == (good ? trace[0] : lent_edition), "trace_read_head: the edition", edition);
    expect(dialect == (good ? trace[1] << 8 | trace[2] : lent_dialect), "trace_read_head: the dialect", dialect);
    expect(cipher == (good ? trace[3] : lent_cipher), "trace_read_head: the cipher", cipher);
    free(copy);
}

static uint32_t write_both(uint32_t kind, uint32_t from_server, const uint8_t *payload, size_t len, uint8_t *room, size_t n, size_t *at)
{
    uint8_t *copy = copy_of(room, n), *lent = copy_of(payload, len);
    size_t place = *at;
    uint32_t expected = model_trace_record(WRITTEN, kind, from_server, payload, len, room, n, at);
    uint32_t r = smb3seal_trace_record(kind, from_server, lent, len, copy, n, &place);
    expect(r == expected, "trace_record: its number", r);
    expect(place == *at, "trace_record: the next place", place);
    expect(memcmp(copy, room, n) == 0, "trace_record: the room", n);
    free(copy);
    free(lent);
    return r;
}

static uint32_t write_head_both(uint8_t edition, uint16_t dialect, uint16_t cipher, uint8_t *room, size_t n, size_t *at)
{
    uint8_t *copy = copy_of(room, n);
    size_t place = *at;
    uint32_t expected = edition == WRITTEN && cipher < 256 && n >= HEAD ? 0 : 36;
    if (expected == 0) {
        memcpy(room, (uint8_t[]){edition, (uint8_t)(dialect >> 8), (uint8_t)dialect, (uint8_t)cipher}, HEAD);
        *at = HEAD;
    }
    uint32_t r = smb3seal_trace_head(edition, dialect, cipher, copy, n, &place);
    expect(r == expected, "trace_head: its number", r);
    expect(place == *at, "trace_head: the first record's place", place);
    expect(memcmp(copy, room, n) == 0, "trace_head: the room", n);
    free(copy);
    return r;
}

/* ---- cases */

/* A record of edition 2 by both, and of edition 1, which the library does not write, by the one here. */
static uint32_t write_in(uint8_t edition, uint32_t kind, uint32_t from_server, const uint8_t *payload, size_t len, uint8_t *room, size_t n,
                         size_t *at)
{
    if (edition == WRITTEN) return write_both(kind, from_server, payload, len, room, n, at);
    return model_trace_record(edition, kind, from_server, payload, len, room, n, at);
}

/* A list of calls of the writer, refused ones among them; then everything that was accepted is read again. */
static void random_trace(void)
{
    enum { ROOM = 400, RECORDS = 8 };
    uint8_t room[ROOM], payload[120];
    struct { uint32_t kind; int from_server; size_t len; uint8_t bytes[120]; } kept[RECORDS];
    size_t n = below(ROOM), at = below(ROOM), count = 0;
    fill(room, sizeof room);
    uint8_t edition = chance(95) ? (uint8_t)(1 + below(2)) : (uint8_t)number();
    uint32_t refused = write_head_both(edition, (uint16_t)number(), (uint16_t)(chance(90) ? below(256) : number()), room, n, &at);
    if (refused != 0 && (edition != 1 || n < HEAD)) return;
    if (edition == 1) {
        room[0] = 1;
        at = HEAD;
    }
    for (int i = 0; i < RECORDS; i++) {
        uint32_t kind = chance(95) ? (uint32_t)below(4) : (uint32_t)number(), from_server = chance(50) ? 0 : (uint32_t)number();
        size_t len = kind == 3 && chance(80) ? 24 : below(sizeof payload);
        fill(payload, sizeof payload);
        if (write_in(edition, kind, from_server, payload, len, room, n, &at) != 0) continue;
        kept[count].kind = kind;
        kept[count].from_server = from_server != 0;
        kept[count].len = len;
        memcpy(kept[count++].bytes, payload, len);
    }
    read_head_both(room, at);
    struct trace_record r = {0, HEAD, 0, 0, 0, 0};
    for (size_t i = 0; i < count; i++) {
        r = read_both(room, at, r.at);
        expect(r.number == 0 && r.kind == kept[i].kind && (int)r.from_server == kept[i].from_server, "what was written is read", i);
        expect(r.payload_len == kept[i].len && memcmp(room + r.payload, kept[i].bytes, r.payload_len) == 0, "its payload", i);
    }
    expect(read_both(room, at, r.at).payload_len == 0, "the end behind the last record", at);
    for (int i = 0; i < 4; i++) {
        room[below(n)] ^= (uint8_t)(1u << below(8));
        read_head_both(room, n);
        read_both(room, n, chance(50) ? below(n + 2) : HEAD);
    }
}

/* Every cut of a small trace, at every place, and every bit of its head and of a record's head. */
static void small_trace(uint8_t edition)
{
    uint8_t trace[64] = {edition, 3, 17, 2}, payload[24] = {7};
    size_t at = HEAD, first = 0;
    write_in(edition, 0, 0, payload, 5, trace, sizeof trace, &at);
    first = at;
    write_in(edition, 3, 1, payload, 24, trace, sizeof trace, &at);
    for (size_t n = 0; n <= at; n++)
        for (size_t place = 0; place <= at + 5; place++) read_both(trace, n, place);
    for (size_t n = 0; n <= HEAD; n++) read_head_both(trace, n);
    for (size_t place = HEAD; place <= first; place += first - HEAD)
        for (int bit = 0; bit < 32; bit++) {
            trace[place + bit / 8] ^= (uint8_t)(0x80 >> bit % 8);
            read_both(trace, at, place);
            trace[place + bit / 8] ^= (uint8_t)(0x80 >> bit % 8);
        }
    read_both(trace, at, SIZE_MAX);
    read_both(trace, at, SIZE_MAX - 3);
    for (int other = 0; other < 256; other++) {
        trace[0] = (uint8_t)other;
        read_head_both(trace, at);
        read_both(trace, at, HEAD);
    }
}

/* Both sides of each limit on lengths and rooms. */
static void limits(void)
{
    static uint8_t room[2 * HEAD + LONGEST + 1], payload[LONGEST + 1];
    for (uint32_t kind = 0; kind < 9; kind++)
        for (size_t len = 0; len < 27; len++)
            for (size_t left = len; left < len + 6; left++) {
                size_t at = 10;
                write_both(kind, 1, payload, len, room, at + left, &at);
            }
    for (uint8_t edition = 1; edition <= 2; edition++)
        for (size_t len = longest_payload(edition); len <= longest_payload(edition) + 1; len++) {
            memcpy(room, (uint8_t[]){edition, 3, 17, 1}, HEAD);
            put_head(edition, 2, 1, len, room + HEAD);
            read_both(room, HEAD + HEAD + len, HEAD);
            read_both(room, HEAD + HEAD + len - 1, HEAD);
        }
    for (size_t len = LONGEST; len <= LONGEST + 1; len++) {
        size_t at = HEAD;
        write_both(2, 1, payload, len, room, sizeof room, &at);
    }
    size_t at = SIZE_MAX;
    write_both(0, 0, payload, 1, room, 100, &at);
    for (int edition = 0; edition < 256; edition++)
        for (size_t n = 3; n <= 5; n++) write_head_both((uint8_t)edition, 0xABCD, (uint16_t)(edition * 2), room, n, &at);
}

int main(int argc, char **argv)
{
    unsigned long cases = argc > 2 ? strtoul(argv[2], NULL, 0) : CASES;
    begin(argc, argv);
    begin_case(0);
    small_trace(1);
    small_trace(2);
    limits();
    for (unsigned long i = 1; i <= cases; i++) {
        begin_case(i);
        random_trace();
    }
    return finish();
}
