/*
 * One call of one of the functions, as plain data; and the comparison of the library with the model over it.
 */
#ifndef CALL_H
#define CALL_H

#include <stddef.h>
#include <stdint.h>

enum function { DERIVE, FOLD, FOLD_RESPONSE, SEAL, OPEN, SIGN, VERIFY, FUNCTIONS };

struct lent {
    uint8_t *at;
    size_t len;
};

struct call {
    enum function function;
    uint32_t role;
    uint16_t dialect, cipher;
    uint32_t encryption;
    uint64_t id;
    struct lent key; /* of the cipher or the signature; or the key material */
    struct lent chain;
    struct lent message; /* or the place for the four keys */
    uint64_t counter, headers;
    uint32_t folded;
};

/* What a call lends, each at a place of its own. */
enum place { KEY, CHAIN, MESSAGE, COUNTER, HEADERS, FOLDED, TABLE, PLACES };

/* How the library is lent its buffers: n bytes copied from `from`, for reading alone where they are not to be written. */
struct lender {
    void *(*lend)(enum place place, const void *from, size_t n, int writable);
    void (*take_back)(enum place place, void *at);
};

/* Blocks of the heap of exactly n bytes, so that valgrind sees a step outside. */
extern const struct lender heap;

/*
 * Makes the call by the library and by the model, each on buffers of its own: one check, that the answers are the same, and all
 * bytes and numbers that were lent; and after a refusal, that they are what they were before. The library's are then in the call.
 * Returns the answer.
 */
uint32_t compare(struct call *call, const struct lender *lender);

/* The same on the heap; the answer must also be this number. */
void expect_answer(struct call *call, uint32_t number, const char *what);

#endif
