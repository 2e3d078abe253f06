#include "mutants.h"

#include "../include/smb3seal.h"
#include "openssl_aead.h"

uint32_t __real_smb3seal_sign(const uint8_t *, size_t, uint8_t *, size_t);
uint32_t __wrap_smb3seal_sign(const uint8_t *key, size_t key_len, uint8_t *message, size_t message_len)
{
    if (fault("sign: the message is taken as 32 bits long")) message_len = (uint32_t)message_len;
    if (fault("sign: 12 before 11") && key_len == 16 && message_len < 64 && message_len > 0 && message[0] != 0xFE) return 12;
    if (fault("sign: the key is written")) touch(key);
    if (fault("sign: a byte behind the message is read")) look(message + message_len);
    uint32_t r = __real_smb3seal_sign(key, key_len, message, message_len);
    if (fault("sign: a refusal sets the flag") && r != 0 && message_len > 16) message[16] |= 8;
    if (r != 0) return r;
    if (fault("sign: the flag is not set")) message[16] &= (uint8_t)~8;
    if (fault("sign: the other flags are cleared")) message[16] = 8;
    if (fault("sign: a wrong bit")) message[63] ^= 1;
    if (fault("sign: the old signature is signed too")) openssl_cmac(key, message, message_len, message + 48);
    return r;
}

uint32_t __real_smb3seal_verify(const uint8_t *, size_t, const uint8_t *, size_t);
uint32_t __wrap_smb3seal_verify(const uint8_t *key, size_t key_len, const uint8_t *message, size_t message_len)
{
    if (fault("verify: accepts everything")) return 0;
    if (fault("verify: refuses everything")) return 25;
    if (fault("verify: the message is written") && message_len > 48) touch(message + 48);
    if (fault("verify: a byte before the message is read")) look(message - 1);
    if (fault("verify: the last byte is left out") && message_len > 64) message_len--;
    uint32_t r = __real_smb3seal_verify(key, key_len, message, message_len);
    if (fault("verify: 25 before 24") && r == 24) return 25;
    if (fault("verify: 24 for 12") && r == 12) return 24;
    return r;
}
