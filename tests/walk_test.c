/*
 * The walk over inner headers, with each answer written out: sealing, and opening of the same inner message behind a right tag at the
 * other end, from each role, by both ciphers.
 */
#include <string.h>

#include "check.h"
#include "messages.h"

struct header {
    size_t place;
    uint32_t flags, next;
    uint64_t id, message_id;
    uint16_t command;
};

static void write_headers(const struct call *c, const struct header *headers, size_t count)
{
    memset(c->message.at, 0, c->message.len);
    for (size_t i = 0; i < count; i++) {
        uint8_t *at = c->message.at + TRANSFORM + headers[i].place;
        put_header(at, headers[i].flags, headers[i].next, headers[i].id);
        put(at + 12, headers[i].command, 2);
        put(at + 24, headers[i].message_id, 8);
    }
}

enum { FROM_CLIENT = 0, FROM_SERVER = 1 };

/* n inner bytes with these headers, from this role, get this number, or 0 and this count of headers visited. */
static void walk_from(uint32_t role, size_t n, const struct header *headers, size_t count, uint32_t number, uint64_t visited)
{
    for (uint16_t cipher = 1; cipher <= 4; cipher++) {
        struct call c = plain_call(SEAL, cipher, n);
        c.role = role;
        write_headers(&c, headers, count);
        expect_answer(&c, number, "the walk on sealing");
        if (number == 0) expect(c.headers == visited, "headers sealed", c.headers);
        c = plain_call(OPEN, cipher, n);
        c.role = 1 - role;
        write_headers(&c, headers, count);
        put_transform(&c, 77);
        forge(&c);
        expect_answer(&c, number, "the walk on opening");
        if (number == 0) expect(c.headers == visited, "headers opened", c.headers);
    }
}

/* The same from both roles: all that has nothing to do with break notices. */
static void walk(size_t n, const struct header *headers, size_t count, uint32_t number, uint64_t visited)
{
    walk_from(FROM_CLIENT, n, headers, count, number, visited);
    walk_from(FROM_SERVER, n, headers, count, number, visited);
}

/* From a server it is done with this count; from a client it gets 14. */
static void walk_notice(size_t n, const struct header *headers, size_t count, uint64_t visited)
{
    walk_from(FROM_SERVER, n, headers, count, 0, visited);
    walk_from(FROM_CLIENT, n, headers, count, 14, 0);
}

/* P5 to P11 of the rules. */
static void sums(void)
{
    struct header h[] = {{0, 0, 0, SESSION, 0, 0}, {64, 4, 0, 9, 0, 0}};
    walk(63, h, 1, 11, 0);
    walk(64, h, 1, 0, 1);
    h[0].next = 64;
    walk(128, h, 2, 0, 2);
    h[0].next = 65;
    walk(128, h, 2, 15, 0);
    h[0].next = 68;
    walk(136, h, 2, 16, 0);
    h[0].next = 64;
    walk(127, h, 2, 15, 0);
    h[0].next = 4294967288;
    walk(128, h, 2, 15, 0);
}

static void one_header(void)
{
    struct header h = {0, 0, 0, SESSION, 0, 0};
    for (unsigned bit = 0; bit < 32; bit++) {
        h.flags = (uint32_t)1 << bit;
        walk(64, &h, 1, h.flags == 4 ? 13 : 0, 1);
    }
    h.flags = 0;
    for (unsigned bit = 0; bit < 64; bit++) {
        h.id = SESSION ^ (uint64_t)1 << bit;
        walk(64, &h, 1, 14, 0);
    }
}

static void two_headers(void)
{
    struct header h[] = {{0, 0, 64, SESSION, 0, 0}, {64, 4, 0, 9, 0, 0}};
    walk(128, h, 1, 12, 0);
    h[1] = (struct header){64, 0, 0, 9, 0, 0};
    walk(128, h, 2, 14, 0);
    h[1] = (struct header){64, 0, 0, SESSION, 0, 0};
    walk(128, h, 2, 0, 2);
    h[1] = (struct header){72, 4, 0, 9, 0, 0};
    h[0].next = 72;
    walk(136, h, 2, 0, 2);
    h[0].next = 80;
    walk(136, h, 2, 15, 0);
    h[1].place = h[0].next = 56;
    walk(136, h, 2, 15, 0);
}

/* Each distance there is near an end of its range: only 64 to n - 64 in steps of 8 leads to a header. */
static void distances(void)
{
    enum { INNER = 256 };
    for (uint32_t d = 1; d <= INNER + 8; d++) {
        int inside = d >= HEADER && d + HEADER <= INNER;
        struct header h[] = {{0, 0, d, SESSION, 0, 0}, {inside ? d : HEADER, 4, 0, 9, 0, 0}};
        begin_case(d);
        walk(INNER, h, 2, !inside ? 15 : d % 8 != 0 ? 16 : 0, 2);
    }
    for (uint64_t d = UINT32_MAX - 300; d <= UINT32_MAX; d++) {
        struct header h[] = {{0, 0, (uint32_t)d, SESSION, 0, 0}, {HEADER, 4, 0, 9, 0, 0}};
        begin_case(d);
        walk(INNER, h, 2, 15, 0);
    }
}

/* From the second header a distance that leads back by wrapping at 2^32 ends the walk. */
static void backwards(void)
{
    struct header h[] = {{0, 0, 64, SESSION, 0, 0}, {64, 4, (uint32_t)-64, 9, 0, 0}};
    walk(200, h, 2, 15, 0);
    h[1].next = 0xFFFFFFF8;
    walk(200, h, 2, 15, 0);
    h[1].next = 64;
    walk(191, h, 2, 15, 0);
    walk(192, h, 2, 12, 0);
}

/* Many headers, of which the last is inside, or outside by one byte. */
static void long_chain(void)
{
    enum { MANY = 1000 };
    static struct header h[MANY];
    for (size_t i = 0; i < MANY; i++) h[i] = (struct header){HEADER * i, i == 0 ? 0 : 4, i + 1 == MANY ? 0 : HEADER, SESSION, 0, 0};
    walk(HEADER * MANY, h, MANY, 0, MANY);
    h[MANY - 1].flags = 0;
    h[MANY - 1].id = 9;
    walk(HEADER * MANY, h, MANY, 14, 0);
    walk(HEADER * MANY - 1, h, MANY, 15, 0);
}

/* ---- break notices */

static struct header notice(size_t place, uint32_t flags, uint32_t next)
{
    return (struct header){place, flags, next, 0, UINT64_MAX, OPLOCK_BREAK};
}

/* With any bit of any of the three marks changed it is none. */
static void near_notices(void)
{
    for (unsigned bit = 0; bit < 16 + 64 + 64; bit++) {
        struct header first = notice(0, 0, 0), h[] = {{0, 0, 64, SESSION, 0, 0}, notice(64, 0, 0)};
        begin_case(bit);
        if (bit < 16) h[1].command ^= (uint16_t)(1u << bit);
        else if (bit < 80) h[1].message_id ^= (uint64_t)1 << (bit - 16);
        else h[1].id ^= (uint64_t)1 << (bit - 80);
        first.command = h[1].command;
        first.message_id = h[1].message_id;
        first.id = h[1].id;
        walk(64, &first, 1, 14, 0);
        walk(128, h, 2, 14, 0);
    }
}

/* The marks by themselves, with the session's id. */
static void marks_of_a_session(void)
{
    struct header h = notice(0, 0, 0);
    h.id = SESSION;
    walk(64, &h, 1, 0, 1);
    h.command = 0;
    walk(64, &h, 1, 0, 1);
}

static void places_of_notices(void)
{
    struct header h[] = {notice(0, 0, 0), {64, 0, 0, SESSION, 0, 0}, notice(128, 0, 0)};
    walk_notice(64, h, 1, 1);
    h[0].next = 64;
    walk_notice(128, h, 2, 2);
    h[1].next = 64;
    walk_notice(192, h, 3, 3);
    h[0] = (struct header){0, 0, 64, SESSION, 0, 0};
    walk_notice(192, h, 3, 3);
    h[2].flags = 4;
    walk(192, h, 3, 0, 3);
    h[1] = notice(64, 4, 64);
    walk(192, h, 3, 0, 3);
    h[1].flags = 0xFFFFFFFB;
    walk_notice(192, h, 3, 3);
    h[0] = notice(0, 0, 64);
    h[1].id = SESSION + 1;
    walk(192, h, 2, 14, 0);
}

/* The other rules are tested at a notice as at any header, and before and after it. */
static void other_rules_at_notices(void)
{
    struct header h[] = {notice(0, 0, 0), notice(64, 0, 0)};
    walk(63, h, 1, 11, 0);
    h[0].flags = 4;
    walk(64, h, 1, 13, 0);
    h[0] = notice(0, 0, 64);
    walk_from(FROM_SERVER, 128, h, 1, 12, 0);
    walk_from(FROM_CLIENT, 128, h, 1, 14, 0);
    walk_from(FROM_SERVER, 127, h, 2, 15, 0);
    h[0].next = 56;
    walk_from(FROM_SERVER, 136, h, 2, 15, 0);
    h[0].next = 68;
    walk_from(FROM_SERVER, 136, h, 2, 16, 0);
    h[0].next = 64;
    h[1].next = 65;
    walk_from(FROM_SERVER, 192, h, 2, 15, 0);
    h[1].next = 68;
    walk_from(FROM_SERVER, 200, h, 2, 16, 0);
    h[1].next = 64;
    walk_from(FROM_SERVER, 192, h, 2, 12, 0);
}

/* Marks at a place where no header begins are none; and a notice does not begin otherwise than a header. */
static void notices_that_do_not_begin(void)
{
    for (uint16_t cipher = 1; cipher <= 2; cipher++)
        for (size_t at = 0; at < 4; at++) {
            struct call c = plain_call(SEAL, cipher, HEADER);
            c.role = FROM_SERVER;
            mark_as_notice(c.message.at + TRANSFORM);
            c.message.at[TRANSFORM + at] ^= 0x20;
            expect_answer(&c, 12, "a notice that does not begin FE 53 4D 42");
        }
}

int main(int argc, char **argv)
{
    begin(argc, argv);
    sums();
    one_header();
    two_headers();
    distances();
    backwards();
    long_chain();
    near_notices();
    marks_of_a_session();
    places_of_notices();
    other_rules_at_notices();
    notices_that_do_not_begin();
    return finish();
}
