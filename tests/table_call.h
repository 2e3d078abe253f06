/*
 * One call of one of the five functions of the session table, as plain data; and the comparison of the library with the model over it.
 */
#ifndef TABLE_CALL_H
#define TABLE_CALL_H

#include "../include/smb3seal.h"
#include "call.h"

enum table_function { TABLE_FIND, TABLE_ADD, TABLE_REMOVE, TABLE_SEAL, TABLE_OPEN, TABLE_FUNCTIONS };

struct table_call {
    enum table_function function;
    struct smb3seal_session *table;
    size_t table_len;
    struct smb3seal_connection connection;
    uint64_t id;
    uint32_t guest, anonymous;
    struct lent material, chain, message;
    uint64_t headers;
};

/*
 * Makes the call by the library and by the model, each on buffers of its own: one check, that the answers are the same, all bytes
 * of the table, the message and what was lent to be read, and the number of headers; and that they are what they were before after a
 * refusal, and the table also after finding and opening. The library's are then in the call. Returns the answer; of finding, the place.
 */
uint64_t compare_table(struct table_call *call, const struct lender *lender);

/* The same on the heap; the answer must also be this one. */
void expect_table_answer(struct table_call *call, uint64_t answer, const char *what);

/*
 * A call with nothing wrong: 3.1.1, a client, and a table of RECORDS records of random bytes in which the one at PLACE is session 5's,
 * with cipher keys of the cipher's size. Adding lends as many bytes of key material.
 * The others are used, under other ids, but for the last, which is free. Adding is for session 6, the others for session 5. The
 * message has room for the transform header and n inner bytes, which begin with one header. One is made at a time.
 */
enum { RECORDS = 5, PLACE = 2, OTHER_SESSION = 6 };
struct table_call plain_table_call(enum table_function function, uint16_t cipher, size_t n);

/* The key that the peer of this connection seals with, in this record: what this end opens with. */
uint8_t *opening_key(struct smb3seal_connection connection, struct smb3seal_session *record);

/* The call and session 5 on another dialect: the record's key size follows, and nothing else of the record. */
void set_table_dialect(struct table_call *c, uint16_t dialect);

/* The call's message as one under that key of session 5: what put_transform and forge of messages.h take. */
struct call under_key(const struct table_call *c);

#endif
