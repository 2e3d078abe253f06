#include <string.h>

#include "mutants.h"

#include "../include/smb3seal.h"

typedef struct smb3seal_sign_state state;
typedef struct smb3seal_sign_step step;

step __real_smb3seal_sign_begin(const uint8_t *, size_t);
step __wrap_smb3seal_sign_begin(const uint8_t *key, size_t key_len)
{
    if (fault("sign_begin: the key is taken as 32 bits long")) key_len = (uint32_t)key_len;
    step r = __real_smb3seal_sign_begin(key, key_len);
    if (fault("sign_begin: a refused begin can be gone on with") && r.number == 40) r.state.begun = 1;
    if (fault("sign_begin: one key always")) memset(r.state.key, 1, 16);
    if (fault("sign_begin: any key is taken")) r.number = 0;
    return r;
}

step __real_smb3seal_sign_piece(state, const uint8_t *, size_t);
step __wrap_smb3seal_sign_piece(state s, const uint8_t *piece, size_t piece_len)
{
    if (fault("sign_piece: the piece is taken as 32 bits long")) piece_len = (uint32_t)piece_len;
    if (fault("sign_piece: the last byte is left out") && piece_len > 1) piece_len--;
    if (fault("sign_piece: a refused piece ends the message")) {
        step r = __real_smb3seal_sign_piece(s, piece, piece_len);
        if (r.number != 0) memset(&r.state, 0, sizeof r.state);
        return r;
    }
    step r = __real_smb3seal_sign_piece(s, piece, piece_len);
    if (fault("sign_piece: the piece is not taken") && r.number == 0) r.state = s;
    if (fault("sign_piece: a cut in the flags loses them") && s.length < 20 && s.length > 16) r.state.header[16] = 0;
    if (fault("sign_piece: a cut in the signature loses it") && s.length < 64 && s.length > 48) r.state.header[48] = 0;
    if (fault("sign_piece: no limit") && r.number == 3) r.number = 0;
    if (fault("sign_piece: a cut in a block is forgotten") && s.length > 64 && s.length % 16 != 0) r.state.buffer[0] ^= 1;
    return r;
}

step __real_smb3seal_sign_finish(state, uint8_t *, size_t);
step __wrap_smb3seal_sign_finish(state s, uint8_t *signature, size_t signature_len)
{
    if (fault("sign_finish: the place is taken as 32 bits long")) signature_len = (uint32_t)signature_len;
    step r = __real_smb3seal_sign_finish(s, signature, signature_len);
    if (fault("sign_finish: the message goes on")) r.state = s;
    if (fault("sign_finish: a refusal writes") && r.number != 0 && signature_len > 0) signature[0] = 0;
    if (fault("sign_finish: a wrong bit") && r.number == 0) signature[15] ^= 1;
    if (fault("sign_finish: 12 before 11") && r.number == 11 && s.length > 0 && s.header[1] != 'S') r.number = 12;
    if (fault("sign_finish: 12 is not tested") && r.number == 12) r.number = 0;
    return r;
}

step __real_smb3seal_verify_finish(state);
step __wrap_smb3seal_verify_finish(state s)
{
    step r = __real_smb3seal_verify_finish(s);
    if (fault("verify_finish: accepts everything")) r.number = 0;
    if (fault("verify_finish: refuses everything") && r.number == 0) r.number = 25;
    if (fault("verify_finish: 25 before 24") && r.number == 24) r.number = 25;
    if (fault("verify_finish: 24 for 12") && r.number == 12) r.number = 24;
    if (fault("verify_finish: the message goes on")) r.state = s;
    return r;
}
