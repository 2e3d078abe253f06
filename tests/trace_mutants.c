#include "mutants.h"

#include <string.h>

#include "../include/smb3seal.h"

uint32_t __real_smb3seal_trace_head(uint8_t, uint16_t, uint16_t, uint8_t *, size_t, size_t *);
uint32_t __wrap_smb3seal_trace_head(uint8_t edition, uint16_t dialect, uint16_t cipher, uint8_t *trace, size_t trace_len, size_t *at)
{
    if (fault("trace_head: edition 1 is written as 2") && edition == 1) edition = 2;
    if (fault("trace_head: the cipher is cut to eight bits")) cipher &= 255;
    uint32_t r = __real_smb3seal_trace_head(edition, dialect, cipher, trace, trace_len, at);
    if (fault("trace_head: edition 1 is written") && edition == 1 && trace_len >= 4 && cipher < 256) {
        memcpy(trace, (uint8_t[]){1, (uint8_t)(dialect >> 8), (uint8_t)dialect, (uint8_t)cipher}, 4);
        *at = 4;
        return 0;
    }
    if (fault("trace_head: a refusal writes") && r != 0 && trace_len > 0) trace[0] ^= 1;
    if (fault("trace_head: the bytes of the dialect in the other order") && r == 0 && trace[1] != trace[2]) trace[1] = trace[2];
    return r;
}

uint32_t __real_smb3seal_trace_record(uint32_t, uint32_t, const uint8_t *, size_t, uint8_t *, size_t, size_t *);
uint32_t __wrap_smb3seal_trace_record(uint32_t kind, uint32_t from_server, const uint8_t *payload, size_t payload_len, uint8_t *trace,
                                      size_t trace_len, size_t *at)
{
    size_t before = *at;
    if (fault("trace_record: kind 4 is written as 0") && kind == 4) kind = 0;
    if (fault("trace_record: directions above 1 are the client's") && from_server > 1) from_server = 0;
    if (fault("trace_record: a lab session of 25 bytes is cut") && kind == 3 && payload_len == 25) payload_len = 24;
    if (fault("trace_record: the last byte of room is not used") && trace_len > 0) trace_len--;
    if (fault("trace_record: edition 1's longest payload is the longest") && payload_len > 1048628) return 36;
    uint32_t r = __real_smb3seal_trace_record(kind, from_server, payload, payload_len, trace, trace_len, at);
    if (fault("trace_record: a refusal moves the place") && r != 0) *at = before + 4;
    if (fault("trace_record: the place stays") && r == 0) *at = before;
    if (fault("trace_record: a refusal writes the head") && r != 0 && before < trace_len) trace[before] ^= 32;
    if (fault("trace_record: a spare bit is set") && r == 0) trace[before + 3] |= 1;
    return r;
}

uint32_t __real_smb3seal_trace_read_head(const uint8_t *, size_t, uint8_t *, uint16_t *, uint16_t *);
uint32_t __wrap_smb3seal_trace_read_head(const uint8_t *trace, size_t trace_len, uint8_t *edition, uint16_t *dialect, uint16_t *cipher)
{
    if (fault("trace_read_head: three bytes are enough") && trace_len == 3 && trace[0] == 1) return 0;
    if (fault("trace_read_head: edition 1 is refused") && trace_len >= 4 && trace[0] == 1) return 36;
    uint32_t r = __real_smb3seal_trace_read_head(trace, trace_len, edition, dialect, cipher);
    if (fault("trace_read_head: edition 1 is said to be 2") && r == 0) *edition = 2;
    if (fault("trace_read_head: a refusal says edition 2") && r != 0) *edition = 2;
    if (fault("trace_read_head: a refusal clears the dialect") && r != 0) *dialect = 0;
    if (fault("trace_read_head: the cipher is left") && r == 0) *cipher = (uint16_t)~*cipher;
    return r;
}

uint32_t __real_smb3seal_trace_read(const uint8_t *, size_t, size_t *, uint32_t *, uint32_t *, size_t *, size_t *);
uint32_t __wrap_smb3seal_trace_read(const uint8_t *trace, size_t trace_len, size_t *at, uint32_t *kind, uint32_t *from_server,
                                    size_t *payload, size_t *payload_len)
{
    size_t before = *at;
    if (fault("trace_read: the end is 36") && before >= trace_len) return 36;
    if (fault("trace_read: two stray bytes are the end") && trace_len - before == 2 && trace_len >= 4 && trace[0] == 1) {
        *payload_len = 0;
        return 0;
    }
    if (fault("trace_read: edition 1 is refused") && trace_len >= 4 && trace[0] == 1) return 36;
    if (fault("trace_read: edition 1 may be as long as edition 2") && trace_len == 8 + 1048629 && trace[0] == 1 && before == 4) {
        *at = trace_len;
        return 0;
    }
    if (fault("trace_read: edition 2 ends where edition 1 does") && trace_len > 8 + 1048628 && trace[0] == 2 && before == 4) return 36;
    uint32_t r = __real_smb3seal_trace_read(trace, trace_len, at, kind, from_server, payload, payload_len);
    if (fault("trace_read: any edition is read") && r != 0 && trace_len >= 4 && trace[0] == 0) return 0;
    if (fault("trace_read: the next place is the payload's") && r == 0 && *payload_len != 0) *at = *payload;
    if (fault("trace_read: the payload begins at the head") && r == 0 && *payload_len != 0) *payload = before;
    if (fault("trace_read: the direction is left") && r == 0 && *payload_len != 0) *from_server ^= 1;
    if (fault("trace_read: a refusal says a length of 0") && r != 0) *payload_len = 0;
    return r;
}

uint32_t __real_smb3seal_trace_rescue(const uint8_t *, size_t, uint8_t *, size_t, uint64_t *, size_t, size_t *, size_t *);
uint32_t __wrap_smb3seal_trace_rescue(const uint8_t *trace, size_t trace_len, uint8_t *rescued, size_t rescued_len, uint64_t *gaps,
                                      size_t gaps_len, size_t *written, size_t *count)
{
    if (fault("trace_rescue: the last byte of room is not used") && rescued_len > 0) rescued_len--;
    if (fault("trace_rescue: a list that is just enough is refused") && gaps_len > 0) gaps_len--;
    if (fault("trace_rescue: a trace over 65,536 bytes is refused") && trace_len > 65536) return 36;
    uint32_t r = __real_smb3seal_trace_rescue(trace, trace_len, rescued, rescued_len, gaps, gaps_len, written, count);
    if (fault("trace_rescue: a refusal writes the head") && r != 0 && trace_len >= 4 && rescued_len >= 4) memcpy(rescued, trace, 4);
    if (fault("trace_rescue: a refusal says that nothing was written") && r != 0) *written = 0;
    if (fault("trace_rescue: a refusal says that there is no gap") && r != 0) *count = 0;
    if (r != 0) return r;
    if (fault("trace_rescue: edition 1 comes out as 2") && rescued[0] == 1) rescued[0] = 2;
    if (fault("trace_rescue: a gap's place is its end") && *count > 0) gaps[0] += gaps[1];
    if (fault("trace_rescue: a gap at the end is not listed") && *count > 0 && gaps[2 * *count - 2] + gaps[2 * *count - 1] == trace_len) --*count;
    if (fault("trace_rescue: the last byte is not counted") && *count > 0) --*written;
    return r;
}
