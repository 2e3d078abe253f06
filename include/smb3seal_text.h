/*
 * smb3seal_text: a sentence for each answer of smb3seal.h, for logs. It is compiled into the program that includes it; the archive
 * knows numbers only.
 */
#ifndef SMB3SEAL_TEXT_H
#define SMB3SEAL_TEXT_H

#include "smb3seal.h"

static inline const char *smb3seal_text(uint32_t number)
{
    switch (number) {
    case SMB3SEAL_DONE: return "done";
    case SMB3SEAL_NOT_ENCRYPTING: return "this connection does not encrypt: dialect, role, setting or cipher";
    case SMB3SEAL_TOO_SHORT: return "the message is not longer than a transform header";
    case SMB3SEAL_TOO_LONG: return "the message is longer than 8,454,144 bytes, those behind its transform header if it has one";
    case SMB3SEAL_NOT_TRANSFORM: return "the message does not begin with a transform header";
    case SMB3SEAL_BAD_FLAGS: return "the transform header's Flags are not 0x0001";
    case SMB3SEAL_OTHER_SESSION: return "the transform header names another session, or the table has no session of this id";
    case SMB3SEAL_CONSTRAINED: return "the connection is constrained";
    case SMB3SEAL_GUEST: return "the session is guest or anonymous";
    case SMB3SEAL_BAD_TAG: return "the tag differs";
    case SMB3SEAL_BAD_SIZE: return "OriginalMessageSize differs from the message's size";
    case SMB3SEAL_INNER_TOO_SHORT: return "the inner message, or the one to sign or verify, is shorter than a header";
    case SMB3SEAL_NOT_HEADER: return "an inner header, or the message to sign or verify, does not begin FE 53 4D 42";
    case SMB3SEAL_FIRST_RELATED: return "the first inner header has the related flag";
    case SMB3SEAL_INNER_SESSION: return "an inner header names another session";
    case SMB3SEAL_NEXT_OUTSIDE: return "NextCommand points into its own header or past the end";
    case SMB3SEAL_NEXT_UNALIGNED: return "NextCommand is not a multiple of 8";
    case SMB3SEAL_COUNTER_USED_UP: return "the send counter is used up: end the session and set up a new one";
    case SMB3SEAL_UNKNOWN_DIALECT: return "the dialect is none of 3.0, 3.0.2 and 3.1.1";
    case SMB3SEAL_BAD_KEY_MATERIAL: return "the key material is empty, or too long for a cipher of 256 bits";
    case SMB3SEAL_ID_ZERO: return "the id of the session to add is 0";
    case SMB3SEAL_ID_TAKEN: return "a session with this id is in the table";
    case SMB3SEAL_TABLE_FULL: return "the session table is full";
    case SMB3SEAL_FOLD_LENGTH: return "a message to fold has under 64 or over 8,454,144 bytes";
    case SMB3SEAL_NOT_SIGNED: return "the message is not signed";
    case SMB3SEAL_BAD_SIGNATURE: return "the signature differs";
    case SMB3SEAL_DIRTY_NONCE: return "the nonce does not end in zeros";
    case SMB3SEAL_OTHER_KEY_SIZE: return "the session was added for a cipher of the other key size";
    case SMB3SEAL_UNREADABLE: return "the trace cannot be read here, or would not be, or its room is full";
    case SMB3SEAL_BAD_LENGTH: return "a lent key, chain value, place for keys or place for a signature has the wrong length";
    default: return "unknown number";
    }
}

#endif
