/*
 * The rules a second time, on top of OpenSSL: written from the papers, and sharing nothing with the library but this
 * shape of the functions. include/smb3seal.h says what they take.
 */
#ifndef MODEL_H
#define MODEL_H

#include <stddef.h>
#include <stdint.h>

uint32_t model_derive(uint16_t dialect, uint16_t cipher, const uint8_t *material, size_t material_len, const uint8_t *chain,
                      size_t chain_len, uint8_t *keys, size_t keys_len);
uint32_t model_fold(uint8_t *chain, size_t chain_len, const uint8_t *message, size_t message_len);
uint32_t model_fold_response(uint8_t *chain, size_t chain_len, const uint8_t *message, size_t message_len, uint32_t *folded);
uint32_t model_seal(uint32_t role, uint16_t dialect, uint32_t encryption, uint16_t cipher, const uint8_t *key, size_t key_len,
                    uint64_t session_id, uint64_t *counter, uint8_t *message, size_t message_len, uint64_t *headers);
uint32_t model_open(uint32_t role, uint16_t dialect, uint32_t encryption, uint16_t cipher, const uint8_t *key, size_t key_len,
                    uint64_t session_id, uint8_t *message, size_t message_len, uint64_t *headers);
uint32_t model_sign(const uint8_t *key, size_t key_len, uint8_t *message, size_t message_len);
uint32_t model_verify(const uint8_t *key, size_t key_len, const uint8_t *message, size_t message_len);

/* Whether cipher keys have 32 bytes, and whether the cipher is a GCM one. */
int model_wide(uint16_t dialect, uint16_t cipher);
int model_gcm(uint16_t dialect, uint16_t cipher);

/* Parts of sealing and opening, between which the session table has tests of its own: 40, 1, 2 and 3; then 4 and 5; then the id. */
uint32_t model_first_tests(uint32_t role, uint16_t dialect, uint32_t encryption, uint16_t cipher, size_t key_len, size_t message_len);
uint32_t model_transform_tests(uint16_t dialect, uint16_t cipher, const uint8_t *message);
uint64_t model_session_id(const uint8_t *message);

#endif
