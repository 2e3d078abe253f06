/*
 * Each lent buffer, and each lent number, hard against a page that cannot be touched. A step outside, and a write to what is only lent
 * to be read, end the program, which says so.
 */
#ifndef GUARD_H
#define GUARD_H

#include "call.h"

extern const struct lender guarded;

/* Makes the pages: once, before anything is lent. */
void guard_begin(void);

/* Buffers from here on have their end at the page that cannot be touched, or else their beginning. */
void guard_at_the_end(int end);

#endif
