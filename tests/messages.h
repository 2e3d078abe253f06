/*
 * Messages made byte by byte, for tests of sealing and opening. One is made at a time: all of them stand in the same buffer.
 */
#ifndef MESSAGES_H
#define MESSAGES_H

#include "call.h"

enum { TRANSFORM = 52, HEADER = 64, LIMIT = 8454144, ROOM = TRANSFORM + LIMIT + 1, SESSION = 5, OPLOCK_BREAK = 0x12 };
enum { MATERIAL_LIMIT = 65536, KEY_ROOM = MATERIAL_LIMIT + 1 };

/* A number in n little-endian bytes. */
void put(uint8_t *at, uint64_t value, size_t n);

/* The 64 bytes of an inner header, zero but for what is given. */
void put_header(uint8_t *at, uint32_t flags, uint32_t next, uint64_t id);

/* Puts the three marks of a break notice over a header: Command, MessageId, SessionId. */
void mark_as_notice(uint8_t *header);

/*
 * A call with nothing wrong: a client's, 3.1.1, a key, session 5, a counter, and a message of this cipher with room for the transform header and
 * n inner bytes, which begin with one header (as far as they reach). Its buffers have room for ROOM message bytes, KEY_ROOM of a key or
 * of key material, and twice the right length of a chain.
 */
struct call plain_call(enum function function, uint16_t cipher, size_t n);

/* How long a key of this dialect and cipher is; and the call on another dialect, with a key of the right length. */
size_t key_bytes(uint16_t dialect, uint16_t cipher);
void set_dialect(struct call *c, uint16_t dialect);

/* The transform header of the call's message, all but the tag, as a sender with this nonce writes it. */
void put_transform(const struct call *c, uint64_t nonce);

/* Encrypts the inner bytes with OpenSSL and writes the tag, whatever stands in the other header fields. */
void forge(const struct call *c);

#endif
