#include "mutants.h"

#include <string.h>

#include "../include/smb3seal.h"

struct smb3seal_fold_step __real_smb3seal_fold_begin(const uint8_t *, size_t);
struct smb3seal_fold_step __wrap_smb3seal_fold_begin(const uint8_t *chain, size_t chain_len)
{
    static const uint8_t fresh[64];
    if (fault("begin: from a fresh chain") && chain_len == 64) return __real_smb3seal_fold_begin(fresh, 64);
    if (fault("begin: a longer chain is taken") && chain_len > 64) chain_len = 64;
    if (fault("begin: the chain is written") && chain_len > 0) touch(chain);
    if (fault("begin: a byte before the chain is read")) look(chain - 1);
    struct smb3seal_fold_step r = __real_smb3seal_fold_begin(chain, chain_len);
    if (fault("begin: a refusal begins all the same") && r.number != 0) r.state.underway = 1;
    return r;
}

struct smb3seal_fold_step __real_smb3seal_fold_piece(struct smb3seal_fold_state, const uint8_t *, size_t);
struct smb3seal_fold_step __wrap_smb3seal_fold_piece(struct smb3seal_fold_state state, const uint8_t *piece, size_t piece_len)
{
    struct smb3seal_fold_state lent = state;
    if (fault("piece: the length is taken as 32 bits long")) piece_len = (uint32_t)piece_len;
    if (fault("piece: a byte behind the piece is read")) look(piece + piece_len);
    if (fault("piece: the piece is written") && piece_len > 0) touch(piece);
    if (fault("piece: its last byte is left out") && piece_len > 0) piece_len--;
    if (fault("piece: the joined bytes do not count")) state.joined = 0;
    if (fault("piece: the limit is one lower") && state.joined + piece_len == SMB3SEAL_LONGEST_MESSAGE) state.joined++;
    struct smb3seal_fold_step r = __real_smb3seal_fold_piece(state, piece, piece_len);
    if (fault("piece: a refusal ends the message") && r.number != 0) r.state.underway = 0;
    if (fault("piece: a refusal spoils a spare byte") && r.number != 0) r.state.spare[2] ^= 1;
    if (fault("piece: the status is that of the last piece") && piece_len >= 12) memcpy(r.state.head + 8, piece + 8, 4);
    if (fault("piece: a status that is cut is lost") && lent.joined > 8 && lent.joined < 12) memcpy(r.state.head, lent.head, 12);
    if (fault("piece: the first piece alone") && lent.joined > 0 && r.number == 0) {
        size_t n = r.state.joined;
        r.state = lent;
        r.state.joined = n;
    }
    return r;
}

/* What both finishes can do wrong. The faults are named where scripts/mutants finds them, once. */
static struct smb3seal_fold_step wrong_finish(struct smb3seal_fold_step r, struct smb3seal_fold_state lent, uint8_t *chain)
{
    if (fault("finish: a refusal hands the state back") && r.number != 0) r.state = lent;
    if (fault("finish: a done one hands the state back") && r.number == 0) r.state = lent;
    if (fault("finish: a refusal clears the chain") && r.number == 23) memset(chain, 0, 64);
    if (fault("finish: a wrong bit") && r.folded == 1) chain[63] ^= 1;
    return r;
}

struct smb3seal_fold_step __real_smb3seal_fold_finish(struct smb3seal_fold_state, uint8_t *, size_t);
struct smb3seal_fold_step __wrap_smb3seal_fold_finish(struct smb3seal_fold_state state, uint8_t *chain, size_t chain_len)
{
    if (fault("finish: 63 bytes are enough") && state.joined == 63) state.joined = 64;
    if (fault("finish: 23 before 40") && state.underway == 0) chain_len = 64;
    if (fault("finish: a bit of the hash value is lost")) state.hash[7] &= ~(uint64_t)1;
    return wrong_finish(__real_smb3seal_fold_finish(state, chain, chain_len), state, chain);
}

struct smb3seal_fold_step __real_smb3seal_fold_response_finish(struct smb3seal_fold_state, uint8_t *, size_t);
struct smb3seal_fold_step __wrap_smb3seal_fold_response_finish(struct smb3seal_fold_state state, uint8_t *chain, size_t chain_len)
{
    if (fault("response: the status is not looked at")) return __wrap_smb3seal_fold_finish(state, chain, chain_len);
    if (fault("response: three bytes of the status count")) state.head[11] = 0xC0;
    struct smb3seal_fold_step r = __real_smb3seal_fold_response_finish(state, chain, chain_len);
    if (fault("response: not folded, but says so") && r.number == 0) r.folded = 1;
    return wrong_finish(r, state, chain);
}
