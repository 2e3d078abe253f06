/*
 * The primitives as C functions, from the crate `test_primitives`: what the tests and benchmarks of this repository link
 * (target/staticlib/libtest_primitives.a). Not part of the library's interface.
 *
 * Each returns 0, or 40 where a buffer has not the length asked for; then no byte is changed. Buffers do not overlap.
 */
#ifndef PRIMITIVES_H
#define PRIMITIVES_H

#include <stddef.h>
#include <stdint.h>

/* digest: 32 bytes */
uint32_t primitives_sha256(const uint8_t *message, size_t message_len, uint8_t *digest, size_t digest_len);
/* digest: 64 bytes */
uint32_t primitives_sha512(const uint8_t *message, size_t message_len, uint8_t *digest, size_t digest_len);
/* code: 32 bytes */
uint32_t primitives_hmac(const uint8_t *key, size_t key_len, const uint8_t *message, size_t message_len, uint8_t *code,
                         size_t code_len);
/* derived: 16 bytes */
uint32_t primitives_kdf(const uint8_t *key, size_t key_len, const uint8_t *label, size_t label_len,
                        const uint8_t *context, size_t context_len, uint8_t *derived, size_t derived_len);
/* derived: 32 bytes */
uint32_t primitives_kdf_32(const uint8_t *key, size_t key_len, const uint8_t *label, size_t label_len,
                           const uint8_t *context, size_t context_len, uint8_t *derived, size_t derived_len);
/* key: 16 or 32 bytes, prefix: 12; first counter at most 2^16; text in place, below 2^32 - 2^17 bytes */
uint32_t primitives_ctr(const uint8_t *key, size_t key_len, const uint8_t *prefix, size_t prefix_len, uint16_t first,
                        uint8_t *text, size_t text_len);
/* key and code: 16 bytes; the message is front and then back */
uint32_t primitives_cmac(const uint8_t *key, size_t key_len, const uint8_t *front, size_t front_len, const uint8_t *back,
                         size_t back_len, uint8_t *code, size_t code_len);
/* key: 16 or 32 bytes, nonce: 11, aad: 32, tag: 16; text in place, below 2^32 - 16 bytes */
uint32_t primitives_ccm_seal(const uint8_t *key, size_t key_len, const uint8_t *nonce, size_t nonce_len,
                             const uint8_t *aad, size_t aad_len, uint8_t *text, size_t text_len, uint8_t *tag,
                             size_t tag_len);
/* *right becomes 1 where the tag is right, and 0 where it is not and the text is as it was */
uint32_t primitives_ccm_open(const uint8_t *key, size_t key_len, const uint8_t *nonce, size_t nonce_len,
                             const uint8_t *aad, size_t aad_len, const uint8_t *tag, size_t tag_len, uint8_t *text,
                             size_t text_len, uint32_t *right);
/* key: 16 or 32 bytes, nonce: 12, aad: any length below 2^32 - 16, tag: 16; text in place, below 2^32 - 16 bytes */
uint32_t primitives_gcm_seal(const uint8_t *key, size_t key_len, const uint8_t *nonce, size_t nonce_len,
                             const uint8_t *aad, size_t aad_len, uint8_t *text, size_t text_len, uint8_t *tag,
                             size_t tag_len);
uint32_t primitives_gcm_open(const uint8_t *key, size_t key_len, const uint8_t *nonce, size_t nonce_len,
                             const uint8_t *aad, size_t aad_len, const uint8_t *tag, size_t tag_len, uint8_t *text,
                             size_t text_len, uint32_t *right);

#endif
