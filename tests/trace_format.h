/*
 * The format of lab traces a second time, in C: what is read, written and rescued by it. Written from the papers, apart from the library.
 */
#ifndef TRACE_FORMAT_H
#define TRACE_FORMAT_H

#include <stddef.h>
#include <stdint.h>

enum { HEAD = 4, LONGEST = 8454196, WRITTEN = 2 };

/* All the places that reading lends, and what it returns. */
struct trace_record {
    uint32_t number;
    size_t at, payload, payload_len;
    uint32_t kind, from_server;
};

/* All that a rescue lends to be written, and what it returns. */
struct rescue {
    uint32_t number;
    uint8_t *rescued;
    size_t rescued_len;
    uint64_t *gaps;
    size_t gaps_len, written, count;
};

int known_edition(uint8_t edition);
size_t longest_payload(uint8_t edition);

/* The four bytes before a payload, whatever its kind and length, as far as their fields hold them. */
void put_head(uint8_t edition, uint32_t kind, uint32_t from_server, size_t len, uint8_t *at);

struct trace_record model_trace_read(const uint8_t *trace, size_t n, struct trace_record lent);
uint32_t model_trace_record(uint8_t edition, uint32_t kind, uint32_t from_server, const uint8_t *payload, size_t len, uint8_t *room, size_t n,
                            size_t *at);

/* Answers 36 and writes nothing where what it would write does not fit. */
void model_trace_rescue(const uint8_t *trace, size_t n, struct rescue *lent);

/* Bytes of its own, so that one too many is seen. */
uint8_t *copy_of(const void *bytes, size_t n);

#endif
