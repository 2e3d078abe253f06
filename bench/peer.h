/*
 * What the benchmark asks of a library: one table of functions, the same for all.
 *
 * A message is laid out as SMB 3 sends it: 52 bytes of transform header (Signature at 4, Nonce at 20, and the associated data is
 * 20..52), then n bytes of text. A function answers 1, or 0 where the library failed.
 *
 * What is timed on each side:
 * - seal, open: ours is the whole call of smb3seal.h, with the tests of the arguments, the walk over the inner headers and, on
 *   sealing, the writing of the header. A peer encrypts and makes the tag, or checks the tag and decrypts, in place; the header
 *   stands there already. Both sides set the key, of 16 or 32 bytes, up in each call. No peer puts the message back as it was where it refuses.
 * - derive: ours is smb3seal_derive, which builds the hashed strings. A peer is handed the four strings and makes four HMACs,
 *   each from the key's bytes.
 * - fold: ours is smb3seal_fold. A peer hashes the chain value and the message.
 * - sign: of a message in clear with no transform header. Ours is smb3seal_sign. A peer sets the flag, zeroes the signature, makes the
 *   AES-128-CMAC of the whole and stores it; it sets the key up in each call.
 * - sha256, ctr: ours are exports of the same proved code for tests; ctr sets the key up in each call.
 * Contexts that a library keeps in allocated memory, and algorithms that it looks up by name, are made once, before the timing.
 * What a call of a library allocates by itself is timed: mbedTLS for a CCM or GCM key, libtomcrypt for a GCM key's table of 64 KiB.
 */
#ifndef PEER_H
#define PEER_H

#include <stddef.h>
#include <stdint.h>

enum { FLAGS_AT = 16, SIGNATURE_AT = 48 };
enum { TAG_AT = 4, NONCE_AT = 20, AAD_AT = 20, TEXT_AT = 52 };
enum { KEY_BYTES = 16, KEY_256_BYTES = 32, TAG_BYTES = 16, AAD_BYTES = 32, CCM_NONCE_BYTES = 11, GCM_NONCE_BYTES = 12 };

/* The derivation of the four keys on dialect 3.1.1. */
struct derivation {
    const uint8_t *material, *chain; /* 16 and 64 bytes: what ours takes */
    const uint8_t *strings[4];       /* what a peer hashes under the material */
    size_t lengths[4];
};

struct peer {
    const char *name;
    /* Makes contexts. Writes which version this is and which instructions it uses. */
    int (*prepare)(char *description, size_t room);
    /* Each of the following may be NULL: then `lacks` says in a word why. */
    int (*ccm_seal)(const uint8_t *key, size_t key_len, uint8_t *message, size_t n);
    int (*ccm_open)(const uint8_t *key, size_t key_len, uint8_t *message, size_t n);
    int (*gcm_seal)(const uint8_t *key, size_t key_len, uint8_t *message, size_t n);
    int (*gcm_open)(const uint8_t *key, size_t key_len, uint8_t *message, size_t n);
    int (*sign)(const uint8_t *key, uint8_t *message, size_t n);
    int (*derive)(const struct derivation *d, uint8_t *keys);
    int (*fold)(uint8_t *chain, const uint8_t *message, size_t n);
    int (*sha256)(uint8_t *digest, const uint8_t *message, size_t n);
    int (*ctr)(const uint8_t *key, const uint8_t *counter_block, uint8_t *text, size_t n);
    const char *lacks;
};

/* What a peer does to the header before its code goes to SIGNATURE_AT. */
static inline void mark_signed(uint8_t *message)
{
    message[FLAGS_AT] |= 8;
    for (int i = 0; i < TAG_BYTES; i++) message[SIGNATURE_AT + i] = 0;
}

extern const struct peer peer_smb3seal, peer_openssl, peer_mbedtls, peer_nettle, peer_wolfssl, peer_libtomcrypt;

#endif
