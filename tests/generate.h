/*
 * Random calls, by check.h's numbers: right ones, and ones that are wrong in any field, alone and together.
 */
#ifndef GENERATE_H
#define GENERATE_H

#include "call.h"

/* A call of one of the functions. Its buffers are good until the next one. */
struct call generate(void);

/* Parts of it. Numbers and lengths: mostly right or near the right ones. */
uint16_t any_dialect(void);
uint16_t any_cipher(void);
uint64_t any_counter(void);
size_t any_length_like(size_t right);
size_t any_material_length(void);

/* A message to be sealed or opened, as the call's function says, for its id and, where it is opened, its key. */
void generate_message(struct call *c);

#endif
