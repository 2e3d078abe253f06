/* load FILE: loads a shared object made of the archive, and folds a message through it. */
#include <dlfcn.h>
#include <smb3seal.h>
#include <stdio.h>
#include <string.h>

/* SHA-512 of 128 zero bytes, at its beginning: a fresh value after a message of 64 zero bytes. */
static const uint8_t expected[8] = {0xAB, 0x94, 0x2F, 0x52, 0x62, 0x72, 0xE4, 0x56};

int main(int argc, char **argv)
{
    void *object = argc == 2 ? dlopen(argv[1], RTLD_NOW | RTLD_LOCAL) : NULL;
    if (object == NULL) return fprintf(stderr, "load: %s\n", argc == 2 ? dlerror() : "usage: load FILE"), 1;
    uint32_t (*fold)(uint8_t *, size_t, const uint8_t *, size_t);
    void *symbol = dlsym(object, "smb3seal_fold");
    if (symbol == NULL) return fprintf(stderr, "load: %s\n", dlerror()), 1;
    memcpy(&fold, &symbol, sizeof fold);

    uint8_t chain[SMB3SEAL_CHAIN_BYTES] = {0};
    const uint8_t message[64] = {0};
    if (fold(chain, sizeof chain, message, 63) != SMB3SEAL_FOLD_LENGTH) return fprintf(stderr, "load: another answer\n"), 1;
    if (fold(chain, sizeof chain, message, 64) != SMB3SEAL_DONE || memcmp(chain, expected, sizeof expected) != 0)
        return fprintf(stderr, "load: another value\n"), 1;
    printf("a shared object made of the archive loads and folds\n");
    return dlclose(object);
}
