/*
 * AES-CCM and AES-GCM by OpenSSL, in place, with keys of 16 or 32 bytes and tags of 16. A nonce of 11 bytes means CCM, one of 12 GCM.
 * And its AES-128-CMAC.
 */
#ifndef OPENSSL_AEAD_H
#define OPENSSL_AEAD_H

#include <stddef.h>
#include <stdint.h>

struct aead {
    const uint8_t *key;
    size_t key_len;
    const uint8_t *nonce;
    int nonce_len;
    const uint8_t *aad;
    size_t aad_len;
};

void openssl_seal(const struct aead *how, uint8_t *text, size_t n, uint8_t *tag);

/* 1 where the tag is right and the text is now the plaintext; 0 where it is not, and then the text is of no use. */
int openssl_open(const struct aead *how, uint8_t *text, size_t n, const uint8_t *tag);

void openssl_cmac(const uint8_t key[16], const uint8_t *message, size_t n, uint8_t code[16]);

#endif
