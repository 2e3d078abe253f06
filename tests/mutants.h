/*
 * Wrong libraries, to see that the tests notice them. Linked with --wrap, so that each call of the library comes to mutants.c,
 * sign_mutants.c or table_mutants.c first; the environment variable MUTANT names the one fault to make. scripts/mutants runs the tests for each.
 */
#ifndef MUTANTS_H
#define MUTANTS_H

#include <stddef.h>
#include <stdint.h>

int fault(const char *name);

/* A byte is read and written again: only where that is not allowed can it be noticed. */
void touch(const void *at);

/* A byte is read. */
void look(const void *at);

/* Which of the three marks of a break notice a header has. */
enum { COMMAND = 1, MESSAGE_ID = 2, SESSION_ID = 4, NOTICE = 7 };
int marks_of(const uint8_t *header);

/* What a library that decrypts in place and forgets about it leaves behind. */
void leave_plaintext(uint16_t dialect, uint16_t cipher, const uint8_t *key, uint8_t *message, size_t message_len);

/* The marks of the first header of a sealed message with a right tag. */
int sealed_marks(uint16_t dialect, uint16_t cipher, const uint8_t *key, const uint8_t *message, size_t message_len);

#endif
