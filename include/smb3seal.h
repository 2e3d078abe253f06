/*
 * smb3seal: the message protection of SMB 3 (dialects 3.0, 3.0.2 and 3.1.1).
 *
 * Both interfaces begin with the preauthentication hash value (the chain), message by message:
 *
 *     smb3seal_fold            a negotiate message or a session setup request
 *     smb3seal_fold_response   a session setup response
 *
 * or in the chunks in which a message arrives, with a state that is handed on from piece to piece:
 *
 *     smb3seal_fold_begin            a message begins from a chain value
 *     smb3seal_fold_piece            the next bytes of it
 *     smb3seal_fold_finish           all of it folded: a negotiate message or a session setup request
 *     smb3seal_fold_response_finish  all of it folded: a session setup response
 *
 * With a session table, an array that the program owns, the library keeps keys and send counters in it and picks the right ones:
 *
 *     smb3seal_table_add       a session put into the table, with its four keys
 *     smb3seal_table_seal      a message made ready to send
 *     smb3seal_table_open      a received message decrypted, if every check holds
 *     smb3seal_table_remove    a session taken out, its record zeroed
 *     smb3seal_table_find      where a session's record is
 *
 * Under one key the program keeps keys and counters itself:
 *
 *     smb3seal_derive          the four keys of a session
 *     smb3seal_seal            a message made ready to send
 *     smb3seal_open            a received message decrypted, if every check holds
 *
 * smb3seal_connection_derive, smb3seal_connection_seal and smb3seal_connection_open are the same three for a program that has its
 * connection as a struct.
 *
 * A message in clear, where a session signs and does not seal, under its signing key (in a table, the record's `signing`):
 *
 *     smb3seal_sign            a message made ready to send
 *     smb3seal_verify          a received message checked
 *
 * and the same of a message that arrives, or is made, piece by piece:
 *
 *     smb3seal_sign_begin      a message begun under a key
 *     smb3seal_sign_piece      its next bytes
 *     smb3seal_sign_finish     its signature
 *     smb3seal_verify_finish   or whether it verifies
 *
 * For support, what passes on a connection can be recorded as a lab trace, which smb3seal-replay replays:
 *
 *     smb3seal_trace_head       the head of a trace, written
 *     smb3seal_trace_record     a record behind it
 *     smb3seal_trace_read_head  the head, read
 *     smb3seal_trace_read       a record, read
 *     smb3seal_trace_rescue     what is good of a damaged trace, copied
 *
 * No function allocates, locks, calls back or keeps anything outside of what it is lent: calls on different buffers may run in
 * different threads. Each is total: any numbers, any bytes, any table and any lengths get an answer.
 *
 * - A buffer is a pointer and a length in bytes, and may have any alignment. A table is a pointer to its first record and the number of
 *   records, and the gaps of a rescue are one to the first of them and how many numbers fit. No pointer may be null, also where the
 *   length is 0.
 * - Buffers and table of one call do not overlap. A lent number (counter, headers, folded; of a trace at, dialect, cipher, kind,
 *   from_server, payload, payload_len, written, count) lies in none of them and in no other number. Each pointer has as many bytes,
 *   records or numbers behind it as its length says. The library cannot check this, nor that a counter value is new under its key, nor
 *   that a table is the one that the call before left.
 * - Each function but smb3seal_table_find returns SMB3SEAL_DONE (0), or the number of the one reason for which it refused; those for
 *   pieces return it as the `number` of a step, beside the state. After a refusal every byte and every number that was lent is as it
 *   was: message, table, counter, headers, folded, chain, keys, signature, and of a trace each place that a call writes.
 * - Where several reasons apply, SMB3SEAL_BAD_LENGTH comes first and then the lowest number wins; but 29 stands between 5 and 6, 35 between 8
 *   and 9, and the walk over the headers of a compounded message ends at the first header that breaks a rule.
 *
 * smb3seal_text.h has a sentence for each number. docs/SECURITY.md says what the library does not protect against.
 */
#ifndef SMB3SEAL_H
#define SMB3SEAL_H

#include <stddef.h>
#include <stdint.h>

#ifdef __cplusplus
extern "C" {
#endif

/*
 * ---- version
 *
 * A number keeps its meaning for good: it is never used again for another reason. Treat every answer but 0 as a refusal, also one
 * that this header does not name.
 *
 * A patch version changes no function and no answer. A minor version may add functions, constants and numbers; it may accept what
 * was refused (another cipher, a longer message) or refuse what was accepted (another check), and its notes say which. Until 1.0 a
 * minor version may also give a function other parameters; their number then changes, so that an old call does not compile. From
 * 1.0 on, that takes a new major version.
 *
 * Later versions add fields to struct smb3seal_session (further channels), and until 1.0 a minor version may make
 * it larger. So header and archive are of one version, all parts of a program that share a table are compiled with one header, and a
 * table lives in memory alone: it is not stored and not sent. The spare bytes of a record that the library makes are 0. The spare byte
 * of a struct smb3seal_connection must be 0, so that it can get a meaning.
 */

#define SMB3SEAL_VERSION_MAJOR 0
#define SMB3SEAL_VERSION_MINOR 11
#define SMB3SEAL_VERSION_PATCH 0
#define SMB3SEAL_VERSION "0.11.0"

/* ---- dialects and ciphers, as MS-SMB2 numbers them */

#define SMB3SEAL_DIALECT_300 0x0300
#define SMB3SEAL_DIALECT_302 0x0302
#define SMB3SEAL_DIALECT_311 0x0311

#define SMB3SEAL_CIPHER_AES_128_CCM 1
#define SMB3SEAL_CIPHER_AES_128_GCM 2
#define SMB3SEAL_CIPHER_AES_256_CCM 3 /* on 3.1.1 alone */
#define SMB3SEAL_CIPHER_AES_256_GCM 4 /* on 3.1.1 alone */

/* ---- roles */

#define SMB3SEAL_CLIENT 0
#define SMB3SEAL_SERVER 1

/* ---- lengths */

#define SMB3SEAL_HEADER_BYTES 52         /* the transform header, before every sealed message */
#define SMB3SEAL_KEY_BYTES 16            /* a signing key, an application key, a cipher key of 128 bits */
#define SMB3SEAL_KEY_256_BYTES 32        /* a cipher key of 256 bits: on 3.1.1 with cipher 3 or 4 */
#define SMB3SEAL_CHAIN_BYTES 64          /* a preauthentication integrity hash value */
#define SMB3SEAL_KEYS_BYTES 64           /* the four keys that smb3seal_derive writes */
#define SMB3SEAL_KEYS_256_BYTES 96       /* the same with cipher keys of 256 bits */
#define SMB3SEAL_LONGEST_MATERIAL 65536  /* bytes of key material that cipher keys of 256 bits come from; else any length will do */
#define SMB3SEAL_LONGEST_MESSAGE 8454144 /* bytes behind the transform header, and of a message that is folded, signed or verified */

/* ---- where smb3seal_derive writes each key */

#define SMB3SEAL_SIGNING_KEY 0               /* both ends sign and verify with it */
#define SMB3SEAL_APPLICATION_KEY 16
#define SMB3SEAL_CLIENT_TO_SERVER_KEY 32     /* a client seals with it, a server opens with it */
#define SMB3SEAL_SERVER_TO_CLIENT_KEY 48     /* a server seals with it, a client opens with it */
#define SMB3SEAL_SERVER_TO_CLIENT_KEY_256 64 /* the same, behind a cipher key of 256 bits */

/*
 * ---- break notices
 *
 * A server tells a client unasked that an oplock or a lease is broken (MS-SMB2 2.2.23). The header of such a notice has the Command
 * 0x0012 (bytes 12..14), a MessageId of all ones (24..32) and the SessionId 0 (40..48). Where a server seals and where a client opens,
 * a header with all three marks is not tested for 14, at any place in the message; all else is tested as ever. With two of the three,
 * or from a client, it gets 14.
 *
 * A client that opened a message looks for the three marks before it looks for the request (3.2.5.19): a notice belongs to none, and
 * the 0 in its header is no session. It says by itself which file or lease it is about. It has no MessageId of its own, so one that was
 * sent again by somebody on the way cannot be told by it: act on it as on one that may come twice.
 */

/*
 * ---- answers
 *
 * What to do on a number, where its own line does not say more:
 *
 * opening, 1 to 16   A server disconnects without an answer (MS-SMB2 3.3.5.2.1.1, 3.3.7.1). A client must not use the message
 *                    either: it disconnects, or discards the message and leaves the request unanswered. The transports of SMB
 *                    deliver bytes whole and in order, so a refusal is a fault or an attack, never noise.
 * sealing, 1 to 16   A fault of the program: it made a message, or names a connection or a session, that no peer would accept. Send
 *                    nothing, least of all the inner message in clear.
 * signing, 3 to 12   A fault of the program, too. Send nothing.
 * verifying, 3 to 12 The message is none of SMB 3: a server disconnects (MS-SMB2 3.3.5.2), a client discards it or disconnects.
 * 17 to 40           As its line says, for both roles.
 *
 * An answer says nothing about keys or plaintext beyond the rule that was broken, and may be logged.
 */

#define SMB3SEAL_DONE 0

/* The connection. Opening: the peer sealed where nothing was agreed, or the program lends the wrong dialect or cipher. */
#define SMB3SEAL_NOT_ENCRYPTING 1 /* unknown dialect or role, encryption off, cipher 0, or on 3.1.1 a cipher other than 1 to 4 */

/* The message as it arrived, before any decryption. */
#define SMB3SEAL_TOO_SHORT 2     /* the whole message has at most 52 bytes */
#define SMB3SEAL_TOO_LONG 3      /* more than 8,454,144 bytes behind the transform header, or in a message to sign or verify */
#define SMB3SEAL_NOT_TRANSFORM 4 /* the message does not begin FD 53 4D 42: it is not sealed, so the program should not open it */
#define SMB3SEAL_BAD_FLAGS 5     /* the transform header's Flags are not 0x0001 */
#define SMB3SEAL_OTHER_SESSION 6 /* the transform header's SessionId is not the session's; with a session table, no used record has the id */

/* The session of the table. Messages of such a connection or session are not sealed at all. */
#define SMB3SEAL_CONSTRAINED 7 /* the connection is constrained */
#define SMB3SEAL_GUEST 8       /* the session is guest or anonymous */

/* The message under its key. */
#define SMB3SEAL_BAD_TAG 9   /* the tag differs: the message, its header or the key is not the sender's */
#define SMB3SEAL_BAD_SIZE 10 /* OriginalMessageSize differs from the number of bytes behind the header */

/* The inner message, or (11, 12) the one to sign or verify. On opening, the tag was right: the peer holds the key and made it itself. */
#define SMB3SEAL_INNER_TOO_SHORT 11 /* the inner message, or the one to sign or verify, has less than 64 bytes */
#define SMB3SEAL_NOT_HEADER 12      /* an inner header, or the message to sign or verify, does not begin FE 53 4D 42 */
#define SMB3SEAL_FIRST_RELATED 13   /* the first inner header has the related flag */
#define SMB3SEAL_INNER_SESSION 14   /* an inner SessionId differs from the session's; that of a related later header or a server's break notice may */
#define SMB3SEAL_NEXT_OUTSIDE 15    /* NextCommand is under 64, or the next header is not wholly inside */
#define SMB3SEAL_NEXT_UNALIGNED 16  /* NextCommand is not a multiple of 8 */

/* Sealing. End the session and set up a new one, with new keys and counter 0. A reauthentication does not promise new keys. */
#define SMB3SEAL_COUNTER_USED_UP 17 /* the counter is 2^64 - 1: this key must not seal any more */

/* Deriving and adding. Do not finish the session's setup; a client fails the logon, a server disconnects. */
#define SMB3SEAL_UNKNOWN_DIALECT 18  /* the dialect is not one of the three: a fault of the program */
#define SMB3SEAL_BAD_KEY_MATERIAL 19 /* the key material is empty, or has over 65,536 bytes where cipher keys of 256 bits come from it */

/* Adding. Do not finish the session's setup; 20, 21: a server takes another id, a client disconnects; 22: refuse the logon. */
#define SMB3SEAL_ID_ZERO 20    /* the id of the session to add is 0 */
#define SMB3SEAL_ID_TAKEN 21   /* a used record has the id of the session to add */
#define SMB3SEAL_TABLE_FULL 22 /* no record is free for the session to add */

/* Folding. Disconnect: no negotiate or session setup message has such a length. */
#define SMB3SEAL_FOLD_LENGTH 23 /* the message has under 64 or over 8,454,144 bytes, or would with this piece */

/* Verifying. A server fails the request with STATUS_ACCESS_DENIED, a client discards the message; both may disconnect. */
#define SMB3SEAL_NOT_SIGNED 24    /* the signed flag (0x00000008 of Flags, bytes 16..20) is missing */
#define SMB3SEAL_BAD_SIGNATURE 25 /* the signature (bytes 48..64) differs: the message or the key is not the sender's */

/* Opening, with GCM alone. The sender breaks a rule of MS-SMB2: as on 1 to 16, a server disconnects, and a client uses nothing of it. */
#define SMB3SEAL_DIRTY_NONCE 29 /* under GCM one of the last four bytes of the Nonce field (32..36) is not 0; tested after 5 and before 6 */

/* The session of the table under another cipher. A fault of the program: a session is used with the cipher of its connection. */
#define SMB3SEAL_OTHER_KEY_SIZE 35 /* the session was added for a cipher of the other key size; tested after 8 */

/* Lab traces. Reading: the trace is damaged or cut off from this place on. Writing: a fault of the program, or no room is left. A rescue: the head cannot be read, or no room is left. */
#define SMB3SEAL_UNREADABLE 36 /* no head or record of a lab trace that a reader reads, or the room does not hold it */

/* Lengths that are fixed. A fault of the program, on every dialect. */
#define SMB3SEAL_BAD_LENGTH 40 /* a cipher key is not 16 bytes long (32 on 3.1.1 with cipher 3 or 4), a signing key not 16, a chain value not 64, the place for the keys not 64 (96), or that for a signature not 16 */

/* ---- functions */

/*
 * Folds a negotiate request or response, or a session setup request, into a preauthentication hash value: the value becomes SHA-512
 * of the old value followed by the message. A fresh value is 64 zero bytes. Negotiate messages are folded into the connection's
 * value; a session's value starts as a copy of that, and takes the session's own setup messages. Where a login fails, its value is
 * dropped, and the next attempt starts from a new copy of the connection's.
 *
 * chain    reads and writes: the value, SMB3SEAL_CHAIN_BYTES long
 * message  reads: the whole message from its SMB 2 header on, without the transport's length field
 *
 * Answers 0, or 40, 23.
 */
uint32_t smb3seal_fold(uint8_t *chain, size_t chain_len, const uint8_t *message, size_t message_len);

/*
 * The same for a session setup response, which is folded only if its Status is STATUS_MORE_PROCESSING_REQUIRED (0xC0000016).
 *
 * chain    reads and writes: the value, SMB3SEAL_CHAIN_BYTES long; stays as it is where the response is not folded
 * message  reads: the whole response
 * folded   writes: 1 if it was folded, 0 if not; both are done
 *
 * Answers 0, or 40, 23.
 */
uint32_t smb3seal_fold_response(uint8_t *chain, size_t chain_len, const uint8_t *message, size_t message_len, uint32_t *folded);

/*
 * ---- folding a message as it arrives
 *
 * The pieces of a message may be cut anywhere, and may be empty. The program begins with the chain value, hands each piece over as it
 * comes, and finishes; the chain then holds what one smb3seal_fold of all the pieces would have left. To give a message up needs no
 * call: the chain is as it was.
 *
 *     struct smb3seal_fold_step step = smb3seal_fold_begin(chain, sizeof chain);
 *     while (step.number == 0 && (n = recv(.., bytes, ..)) > 0) step = smb3seal_fold_piece(step.state, bytes, n);
 *     if (step.number == 0) step = smb3seal_fold_finish(step.state, chain, sizeof chain);
 *     if (step.number != 0) ..
 *
 * A state goes in by value and the one to go on with comes back: hand in the latest, and each once. It is the library's: a program
 * stores it, copies it and wipes it, and never looks inside. One of zero bytes has no message under way, and so has one that a refused
 * begin or any finish handed back: a piece and a finish are then 23. Any other bytes are a state too and get an answer, which may be 0:
 * a finish then folds what they make, and that need not be any message.
 *
 * After a refused piece the message goes on without that piece, and a finish folds the rest. That is not the message that the peer
 * sent: give it up, and disconnect. And finish or give up one message before another goes into the same chain.
 */

struct smb3seal_fold_state {
    uint64_t hash[8];
    uint8_t buffer[128];
    uint64_t count;
    uint64_t joined;
    uint8_t head[12];
    uint8_t underway;
    uint8_t spare[3];
};

struct smb3seal_fold_step {
    struct smb3seal_fold_state state; /* to go on with */
    uint32_t number;                  /* SMB3SEAL_DONE, or why it was refused */
    uint32_t folded;                  /* of a finish: 1 if the message was folded, 0 if not; of the others 0 */
};

/*
 * Begins a message on a chain value.
 *
 * chain  reads: the value, SMB3SEAL_CHAIN_BYTES long
 *
 * Answers 0, or 40.
 */
struct smb3seal_fold_step smb3seal_fold_begin(const uint8_t *chain, size_t chain_len);

/*
 * Takes the next bytes of the message. A piece with which it would have more than SMB3SEAL_LONGEST_MESSAGE bytes is refused, and the
 * state handed back is the one handed in.
 *
 * state  the one that the call before handed back
 * piece  reads: the bytes, of any length
 *
 * Answers 0, or 23.
 */
struct smb3seal_fold_step smb3seal_fold_piece(struct smb3seal_fold_state state, const uint8_t *piece, size_t piece_len);

/*
 * Folds the message, a negotiate request or response or a session setup request: the chain becomes SHA-512 of the value that the
 * message began from, followed by the pieces. Ends the message, whatever the answer.
 *
 * state  the one that the call before handed back
 * chain  writes: the value, SMB3SEAL_CHAIN_BYTES long; lend the chain that the message began from
 *
 * Answers 0, or 40, 23.
 */
struct smb3seal_fold_step smb3seal_fold_finish(struct smb3seal_fold_state state, uint8_t *chain, size_t chain_len);

/*
 * The same for a session setup response, which is folded only if its Status, wherever it was cut, is STATUS_MORE_PROCESSING_REQUIRED
 * (0xC0000016). Else the chain stays as it is, and `folded` is 0; both are done.
 *
 * state  the one that the call before handed back
 * chain  writes: the value, SMB3SEAL_CHAIN_BYTES long; lend the chain that the message began from
 *
 * Answers 0, or 40, 23.
 */
struct smb3seal_fold_step smb3seal_fold_response_finish(struct smb3seal_fold_state state, uint8_t *chain, size_t chain_len);

/*
 * How long a cipher key is: SMB3SEAL_KEY_256_BYTES on 3.1.1 with cipher 3 or 4, else SMB3SEAL_KEY_BYTES. The cipher key of a client is at
 * SMB3SEAL_CLIENT_TO_SERVER_KEY, that of a server as many bytes behind it.
 */
static inline size_t smb3seal_cipher_key_bytes(uint16_t dialect, uint16_t cipher)
{
    return dialect == SMB3SEAL_DIALECT_311 && (cipher == SMB3SEAL_CIPHER_AES_256_CCM || cipher == SMB3SEAL_CIPHER_AES_256_GCM)
               ? SMB3SEAL_KEY_256_BYTES
               : SMB3SEAL_KEY_BYTES;
}

/* How long the place for the four keys is: SMB3SEAL_KEYS_256_BYTES or SMB3SEAL_KEYS_BYTES. */
static inline size_t smb3seal_keys_bytes(uint16_t dialect, uint16_t cipher)
{
    return 2 * SMB3SEAL_KEY_BYTES + 2 * smb3seal_cipher_key_bytes(dialect, cipher);
}

/*
 * Derives the four keys of a session (MS-SMB2 3.1.4.2, 3.2.5.3.1): a signing and an application key of 16 bytes, and two cipher keys of
 * the cipher's size.
 *
 * dialect   SMB3SEAL_DIALECT_..
 * cipher    SMB3SEAL_CIPHER_.., the one that the connection agreed on; its key size alone counts, and any number is taken
 * material  reads: the key of the authentication, of any length but 0. Signing and application keys, and cipher keys of 16 bytes, come
 *           from its first 16 bytes, padded with zeros at the right; cipher keys of 32 bytes from all of it, up to
 *           SMB3SEAL_LONGEST_MATERIAL
 * chain     reads: the session's preauthentication hash value; SMB3SEAL_CHAIN_BYTES on every dialect, though only 3.1.1 uses it
 * keys      writes: SMB3SEAL_KEYS_BYTES, each key at its SMB3SEAL_.._KEY; or SMB3SEAL_KEYS_256_BYTES, with cipher keys of 32 bytes
 *
 * Answers 0, or 40, 18, 19.
 */
uint32_t smb3seal_derive(uint16_t dialect, uint16_t cipher, const uint8_t *material, size_t material_len, const uint8_t *chain,
                         size_t chain_len, uint8_t *keys, size_t keys_len);

/*
 * Seals in place. Afterwards the message, of the same length, is ready to send.
 *
 * role        this end's: SMB3SEAL_CLIENT or SMB3SEAL_SERVER; any other number counts as encryption off: 1. It does not choose the key
 * dialect     SMB3SEAL_DIALECT_..
 * encryption  0 for off, anything else for on
 * cipher      SMB3SEAL_CIPHER_..; below 3.1.1 any number but 0 means AES-128-CCM
 * key         reads: SMB3SEAL_KEY_BYTES or SMB3SEAL_KEY_256_BYTES, as the cipher has it: the key of this direction
 * session_id  written to the transform header; the inner headers must carry it (a related one behind the first need not, nor a break
 *             notice that a server seals)
 * counter     reads, and writes one more: the send counter of this key, which becomes the nonce. Start it at 0 for a new key, keep
 *             what is handed back, and never seal twice under one key with one value: it loses secrecy, and under GCM the tag's worth
 * message     reads and writes: SMB3SEAL_HEADER_BYTES of room, of any content, and behind them the inner message: one SMB 2 message
 *             or a compound of them
 * headers     writes: the number of inner headers
 *
 * Answers 0, or 40, 1, 2, 3, 11 to 16, 17.
 */
uint32_t smb3seal_seal(uint32_t role, uint16_t dialect, uint32_t encryption, uint16_t cipher, const uint8_t *key, size_t key_len,
                       uint64_t session_id, uint64_t *counter, uint8_t *message, size_t message_len, uint64_t *headers);

/*
 * Opens in place. Afterwards the first 52 bytes are the transform header as received, and the rest is the plaintext. After a refusal
 * the message is as received: no byte of plaintext is left in it.
 *
 * role, dialect, encryption, cipher   as for smb3seal_seal; the role is that of the end that opens
 * key         reads: SMB3SEAL_KEY_BYTES or SMB3SEAL_KEY_256_BYTES, as the cipher has it: the key of the other direction
 * session_id  the session that the caller looked up by the header's SessionId (bytes 44..52, little-endian)
 * message     reads and writes: the whole received message, without the transport's length field
 * headers     writes: the number of inner headers
 *
 * A sealed message that arrives twice opens twice. Whether its MessageId was seen before is for the caller to check.
 *
 * Answers 0, or 40, 1 to 5, 29, 6, 9 to 16.
 */
uint32_t smb3seal_open(uint32_t role, uint16_t dialect, uint32_t encryption, uint16_t cipher, const uint8_t *key, size_t key_len,
                       uint64_t session_id, uint8_t *message, size_t message_len, uint64_t *headers);

/*
 * Signs a message in clear in place: sets SMB2_FLAGS_SIGNED (0x00000008) among the Flags at 16..20, whose other bits stay, and writes to
 * Signature, at 48..64, AES-128-CMAC (RFC 4493) of the whole message with these 16 bytes taken as zeros. Nothing else changes.
 *
 * key      reads: SMB3SEAL_KEY_BYTES, the session's signing key (SMB3SEAL_SIGNING_KEY)
 * message  reads and writes: one message from its SMB 2 header on, without the transport's length field. Each message of a compound is
 *          handed over by itself, with its padding: the NextCommand bytes from its header on, and the last one to the end
 *
 * Sign last: a change of any other byte afterwards, NextCommand and the padding included, makes the signature wrong. A message that is
 * sealed is not signed.
 *
 * Answers 0, or 40, 3, 11, 12.
 */
uint32_t smb3seal_sign(const uint8_t *key, size_t key_len, uint8_t *message, size_t message_len);

/*
 * Verifies a message in clear, and changes no byte of it: 0 exactly if the signed flag is there and the signature is the one that
 * smb3seal_sign would write. What is signed under a key verifies under that key.
 *
 * key      reads: SMB3SEAL_KEY_BYTES, the session's signing key
 * message  reads: one message as for smb3seal_sign, of a compound each by itself with its padding
 *
 * Which messages must be signed, the caller knows (MS-SMB2 3.2.5.1.3 and 3.3.5.2.4). A server does not sign interim responses (Status
 * STATUS_PENDING) and break notices (MessageId all ones), so a client that is answered 24 or 25 for these goes on; an error response may
 * carry the request's flag and signature, which is 25. A message that arrived sealed is not verified: its tag has been compared.
 * A signed message that arrives twice verifies twice: MessageId is for the caller to check.
 *
 * Answers 0, or 40, 3, 11, 12, 24, 25.
 */
uint32_t smb3seal_verify(const uint8_t *key, size_t key_len, const uint8_t *message, size_t message_len);

/*
 * ---- signing and verifying a message as it arrives
 *
 * The pieces of a message may be cut anywhere, and may be empty. The program begins with the key, hands each piece over as it comes, and
 * finishes: what one smb3seal_verify of all the pieces would answer is the answer, or what one smb3seal_sign would write to 48..64 is the
 * signature. To give a message up needs no call.
 *
 *     struct smb3seal_sign_step step = smb3seal_sign_begin(key, sizeof key);
 *     while (step.number == 0 && (n = recv(.., bytes, ..)) > 0) step = smb3seal_sign_piece(step.state, bytes, n);
 *     if (step.number == 0) step = smb3seal_verify_finish(step.state);
 *     if (step.number != 0) ..
 *
 * A state goes in by value and the one to go on with comes back: hand in the latest, and each once. It is the library's: a program stores
 * it and copies it, and never looks inside. It holds the key: wipe it, and every copy, where the message has ended or is given up, as you
 * would the key. One of zero bytes has no message, and a refused begin and any finish hand that one back, in which no key is left: a piece
 * is then 3, and a finish 11. Any other bytes are a state too and get an answer, which may be 0: bytes that no call handed back may verify.
 *
 * After a refused piece the message goes on without that piece, and a finish is about the rest. That is not the message that the peer sent:
 * give it up.
 */

struct smb3seal_sign_state {
    uint8_t key[16];
    uint8_t header[64];
    uint8_t chain[16];
    uint8_t buffer[16];
    uint64_t filled;
    uint64_t length;
    uint64_t begun;
};

struct smb3seal_sign_step {
    struct smb3seal_sign_state state; /* to go on with */
    uint32_t number;                  /* SMB3SEAL_DONE, or why it was refused */
    uint32_t spare;                   /* 0 */
};

/*
 * Begins a message, to sign or to verify.
 *
 * key  reads: SMB3SEAL_KEY_BYTES, the session's signing key
 *
 * Answers 0, or 40.
 */
struct smb3seal_sign_step smb3seal_sign_begin(const uint8_t *key, size_t key_len);

/*
 * Takes the next bytes of the message, which stay as they are. A piece with which it would have more than SMB3SEAL_LONGEST_MESSAGE bytes
 * is refused, and the state handed back is the one handed in.
 *
 * state  the one that the call before handed back
 * piece  reads: the bytes, of any length
 *
 * Answers 0, or 3.
 */
struct smb3seal_sign_step smb3seal_sign_piece(struct smb3seal_sign_state state, const uint8_t *piece, size_t piece_len);

/*
 * Gives the signature of the message, with the signed flag taken as set: the program sets 0x00000008 among the Flags at 16..20 and puts the
 * signature at 48..64 before it sends the message. What these bytes were in the pieces does not count. Ends the message, whatever the
 * answer.
 *
 * state      the one that the call before handed back
 * signature  writes: 16 bytes
 *
 * Answers 0, or 40, 11, 12.
 */
struct smb3seal_sign_step smb3seal_sign_finish(struct smb3seal_sign_state state, uint8_t *signature, size_t signature_len);

/*
 * Says whether the message verifies. Ends the message, whatever the answer. No byte of a message may be acted upon before it is 0.
 *
 * state  the one that the call before handed back
 *
 * Answers 0, or 11, 12, 24, 25.
 */
struct smb3seal_sign_step smb3seal_verify_finish(struct smb3seal_sign_state state);

/*
 * ---- the connection
 *
 * What a connection agreed on, named once and handed over by value. There is no padding, and every byte counts: fill it from {0}.
 */

struct smb3seal_connection {
    uint16_t dialect;    /* SMB3SEAL_DIALECT_.. */
    uint16_t cipher;     /* SMB3SEAL_CIPHER_..; below 3.1.1 any number but 0 means AES-128-CCM */
    uint8_t role;        /* this end's: SMB3SEAL_CLIENT or SMB3SEAL_SERVER; any other number counts as encryption off: 1 */
    uint8_t encryption;  /* 0 for off, anything else for on */
    uint8_t constrained; /* Connection.ConstrainedConnection; 0 for no, anything else for yes: 7, with a session table alone */
    uint8_t spare;       /* 0; any other number counts as encryption off: 1 */
};

/* The `encryption` of a call under one key: a stray spare byte turns it off, as it does with a session table. */
static inline uint32_t smb3seal_connection_encryption(struct smb3seal_connection connection)
{
    return connection.encryption != 0 && connection.spare == 0;
}

/*
 * smb3seal_derive with the dialect and the cipher of the connection.
 *
 * Answers 0, or 40, 18, 19.
 */
static inline uint32_t smb3seal_connection_derive(struct smb3seal_connection connection, const uint8_t *material, size_t material_len,
                                                  const uint8_t *chain, size_t chain_len, uint8_t *keys, size_t keys_len)
{
    return smb3seal_derive(connection.dialect, connection.cipher, material, material_len, chain, chain_len, keys, keys_len);
}

/*
 * smb3seal_seal with the role, dialect, encryption and cipher of the connection. The key is the caller's choice: on a client the one at
 * SMB3SEAL_CLIENT_TO_SERVER_KEY, on a server the one behind it. Whether the connection is constrained is not looked at.
 *
 * Answers 0, or 40, 1, 2, 3, 11 to 16, 17.
 */
static inline uint32_t smb3seal_connection_seal(struct smb3seal_connection connection, const uint8_t *key, size_t key_len,
                                                uint64_t session_id, uint64_t *counter, uint8_t *message, size_t message_len,
                                                uint64_t *headers)
{
    return smb3seal_seal(connection.role, connection.dialect, smb3seal_connection_encryption(connection), connection.cipher, key,
                         key_len, session_id, counter, message, message_len, headers);
}

/*
 * smb3seal_open with the role, dialect, encryption and cipher of the connection. The key is that of the other direction.
 *
 * Answers 0, or 40, 1 to 5, 29, 6, 9 to 16.
 */
static inline uint32_t smb3seal_connection_open(struct smb3seal_connection connection, const uint8_t *key, size_t key_len,
                                                uint64_t session_id, uint8_t *message, size_t message_len, uint64_t *headers)
{
    return smb3seal_open(connection.role, connection.dialect, smb3seal_connection_encryption(connection), connection.cipher, key,
                         key_len, session_id, message, message_len, headers);
}

/*
 * ---- the session table
 *
 * A table is an array of records that the caller owns. A table of zero bytes is an empty one:
 *
 *     struct smb3seal_session table[16] = {{0}};
 *
 * A record has no padding, and a flag is a byte of which 0 is no and anything else yes. So any bytes are a table: whatever is lent gets
 * an answer, and none is undefined. A session's record is the first used one with its id.
 *
 * Read a record as you like; what writes it is the library. A table is for one end: a program that is client and server has two. It
 * may serve one connection or several. smb3seal_table_find and smb3seal_table_open only read it, and may run in several threads at
 * once; the other calls need it to themselves, by a lock of the caller's. No copy of a table may go on beside it, and none may take its
 * place again: that seals twice with one counter value under one key.
 */

struct smb3seal_session {
    uint64_t id;                  /* the SessionId */
    uint64_t counter;             /* the next nonce of this end's sealing key */
    uint8_t signing[16];          /* the keys that smb3seal_derive writes, in its order */
    uint8_t application[16];      /* for the application above */
    uint8_t client_to_server[32]; /* a key of 16 bytes has 16 zeros behind it; all 0 where the session is guest or anonymous */
    uint8_t server_to_client[32]; /* the same */
    uint8_t used;                 /* 0 for a free record, anything else for a session's */
    uint8_t guest;                /* 0 for no, anything else for yes */
    uint8_t anonymous;            /* 0 for no, anything else for yes */
    uint8_t wide;                 /* 0 for cipher keys of 16 bytes, anything else for 32 */
    uint8_t spare[4];             /* the library writes 0, and does not look at them */
};

/*
 * Finds a session. Returns the place of its record in the table, from 0 on, or table_len where no used record has the id. What the
 * program keeps of a session itself can stand at the same place in an array beside the table.
 *
 * table       reads: table_len records
 * session_id  the session; of several used records with its id, the first counts
 */
size_t smb3seal_table_find(const struct smb3seal_session *table, size_t table_len, uint64_t session_id);

/*
 * Adds a session. The first free record gets its id, counter 0, the four keys that smb3seal_derive gives, used 1, both marks and the key
 * size as 0 or 1, and spare bytes of 0. If either mark is set, its cipher keys are zero bytes, and nothing can be sealed or opened for it.
 *
 * table       reads and writes: table_len records; all but the one that is filled stay as they are
 * connection  its dialect and its cipher count, and nothing else
 * session_id  the SessionId that the server chose, not 0
 * guest       0 for no, anything else for yes
 * anonymous   0 for no, anything else for yes
 * material    reads: the session key of the authentication, as for smb3seal_derive
 * chain       reads: the session's preauthentication hash value, as for smb3seal_derive
 *
 * Each login has key material of its own. A session that is removed and added again from the same material and chain begins again at
 * counter 0, under the same keys: that seals twice with one counter value under one key.
 *
 * Answers 0, or 40, 18 to 22.
 */
uint32_t smb3seal_table_add(struct smb3seal_session *table, size_t table_len, struct smb3seal_connection connection,
                            uint64_t session_id, uint32_t guest, uint32_t anonymous, const uint8_t *material, size_t material_len,
                            const uint8_t *chain, size_t chain_len);

/*
 * Removes a session. All bytes of its record become 0, the keys among them, and the record is free.
 *
 * table       reads and writes: table_len records; the others stay as they are
 * session_id  the session
 *
 * Answers 0, or 6.
 */
uint32_t smb3seal_table_remove(struct smb3seal_session *table, size_t table_len, uint64_t session_id);

/*
 * Seals in place, for a session of the table: with its counter, and the key with which the connection's role seals. Afterwards the
 * message, of the same length, is ready to send.
 *
 * table       reads, and writes one more to the counter of the session's record; every other byte stays as it is
 * connection  what the connection agreed on
 * session_id  the session, written to the transform header; the inner headers must carry it (a related one behind the first need not,
 *             nor a break notice that a server seals)
 * message     reads and writes: SMB3SEAL_HEADER_BYTES of room, of any content, and behind them the inner message: one SMB 2 message
 *             or a compound of them
 * headers     writes: the number of inner headers
 *
 * Answers 0, or 1, 2, 3, 6, 7, 8, 35, 11 to 16, 17.
 */
uint32_t smb3seal_table_seal(struct smb3seal_session *table, size_t table_len, struct smb3seal_connection connection,
                             uint64_t session_id, uint8_t *message, size_t message_len, uint64_t *headers);

/*
 * Opens in place, for the session of the table that the transform header names (bytes 44..52, little-endian), with the key with which
 * the connection's role opens. Afterwards the first 52 bytes are the transform header as received, and the rest is the plaintext. After
 * a refusal the message is as received: no byte of plaintext is left in it.
 *
 * table       reads: table_len records
 * connection  what the connection agreed on
 * message     reads and writes: the whole received message, without the transport's length field
 * headers     writes: the number of inner headers
 *
 * A sealed message that arrives twice opens twice. Whether its MessageId was seen before is for the caller to check, and where a table
 * serves several connections, whether its session belongs to the one by which it came.
 *
 * Answers 0, or 1 to 5, 29, 6, 7, 8, 35, 9 to 16.
 */
uint32_t smb3seal_table_open(const struct smb3seal_session *table, size_t table_len, struct smb3seal_connection connection,
                             uint8_t *message, size_t message_len, uint64_t *headers);

/*
 * ---- lab traces
 *
 * A lab trace is a file of what passed on one connection: a head with its dialect and cipher, then records. A replay has one session
 * chain: every setup message is folded into it, and behind each negotiate message and each lab session it begins again as a copy of the
 * connection's. So the trace is not always in the order of the wire. A program that owns the socket records
 *
 * - the negotiate messages, in their order;
 * - of each login, when it has succeeded, its setup messages in their order and right behind them one lab session with its id and its
 *   key, with no setup message of another login between them. Until then the program keeps them; those of a login that failed it leaves
 *   out. Where they are wanted in the trace, a lab session with id 0 behind them begins the chain again: it answers 20 and adds nothing;
 * - the sealed messages as they pass, each behind the lab session of its session.
 *
 * The trace then holds the session's key: whoever has it opens every recorded message, and can make new ones. Record in a lab alone, with
 * accounts made for it, make the file readable for its owner alone, and keep and delete it as you would the key.
 *
 * The calls work on a buffer that the program reads from a file or writes to one, of any length. A record's place is counted from the
 * start of the trace.
 */

#define SMB3SEAL_TRACE_EDITION 2               /* of the format that is written; editions 1 and 2 are read */
#define SMB3SEAL_TRACE_HEAD_BYTES 4            /* a trace's head, and the head before each payload */
#define SMB3SEAL_TRACE_LONGEST_PAYLOAD 8454196 /* bytes of a payload, in edition 1 1,048,628; the shortest has 1 */
#define SMB3SEAL_TRACE_SESSION_BYTES 24        /* the payload of a lab session */

#define SMB3SEAL_TRACE_NEGOTIATE 0 /* a negotiate request or response */
#define SMB3SEAL_TRACE_SETUP 1     /* a session setup request or response */
#define SMB3SEAL_TRACE_SEALED 2    /* a sealed message, as it passed */
#define SMB3SEAL_TRACE_SESSION 3   /* a session for the lab: its SessionId, 8 bytes with the high byte first, and its key of 16 bytes */

/*
 * Writes the head of a trace at its start.
 *
 * edition  SMB3SEAL_TRACE_EDITION; to edition 1, which is read and not written, it answers 36
 * dialect  SMB3SEAL_DIALECT_.., or any number
 * cipher   SMB3SEAL_CIPHER_.., or any number up to 255
 * trace    writes: SMB3SEAL_TRACE_HEAD_BYTES at its start; the rest stays as it is
 * at       writes: the place behind them, which is that of the first record
 *
 * Answers 0, or 36.
 */
uint32_t smb3seal_trace_head(uint8_t edition, uint16_t dialect, uint16_t cipher, uint8_t *trace, size_t trace_len, size_t *at);

/*
 * Writes a record, of SMB3SEAL_TRACE_EDITION. It does not look at the trace's head: behind a head of edition 1 the record is not
 * refused, and is then read with another length or not at all. A program that goes on with a trace that it did not begin asks
 * smb3seal_trace_read_head for the edition first.
 *
 * kind         SMB3SEAL_TRACE_..
 * from_server  0 for a message from the client, anything else for one from the server
 * payload      reads: 1 to SMB3SEAL_TRACE_LONGEST_PAYLOAD bytes, of a lab session SMB3SEAL_TRACE_SESSION_BYTES
 * trace        writes: a head and the payload from the place `at` on; the rest stays as it is
 * at           reads the record's place, and writes the place behind it, which is that of the next
 *
 * Answers 0, or 36.
 */
uint32_t smb3seal_trace_record(uint32_t kind, uint32_t from_server, const uint8_t *payload, size_t payload_len, uint8_t *trace,
                               size_t trace_len, size_t *at);

/*
 * Reads the head of a trace. The first record is behind it, at SMB3SEAL_TRACE_HEAD_BYTES.
 *
 * trace    reads: the whole trace, or its start
 * edition  writes: 1 or 2; records may be written behind a head of SMB3SEAL_TRACE_EDITION alone
 * dialect  writes: the connection's dialect
 * cipher   writes: the connection's cipher
 *
 * Answers 0, or 36.
 */
uint32_t smb3seal_trace_read_head(const uint8_t *trace, size_t trace_len, uint8_t *edition, uint16_t *dialect, uint16_t *cipher);

/*
 * Reads the record at a place. Where no byte is left it answers 0 and writes a payload_len of 0, which no record has, and nothing else.
 *
 * trace        reads: the whole trace, with its head
 * at           reads the record's place, and writes that of the next
 * kind         writes: SMB3SEAL_TRACE_..
 * from_server  writes: 1 for a message from the server, 0 for one from the client
 * payload      writes: the place of the payload
 * payload_len  writes: its length
 *
 * Answers 0, or 36.
 */
uint32_t smb3seal_trace_read(const uint8_t *trace, size_t trace_len, size_t *at, uint32_t *kind, uint32_t *from_server,
                             size_t *payload, size_t *payload_len);

/*
 * Copies what is good of a damaged trace, so that it reads whole, and lists what is dropped. After a record that cannot be read it takes
 * up again at the earliest place where there is one of a negotiate, setup or sealed message whose payload begins FE 53 4D 42 or
 * FD 53 4D 42; where there is none, the gap runs to the end. Kept and dropped bytes together are the trace behind its head, each byte
 * once. A trace with no gap comes out as it is. A lab session in a gap is lost, and with it the key of its messages.
 *
 * It answers 36 where the head cannot be read, and where rescued or gaps has too little room; room for trace_len bytes and for
 * 2 * (trace_len / 9 + 1) numbers is always enough. Whatever the trace holds, the time is in proportion to its length.
 *
 * trace    reads: the whole trace, with its head, of either edition
 * rescued  writes: the head and the good records; the rest stays as it is
 * gaps     writes: two numbers for each gap, the place of its first byte in the trace and its length; the rest stays as it is
 * written  writes: the number of bytes in rescued
 * count    writes: the number of gaps
 *
 * Answers 0, or 36.
 */
uint32_t smb3seal_trace_rescue(const uint8_t *trace, size_t trace_len, uint8_t *rescued, size_t rescued_len, uint64_t *gaps,
                               size_t gaps_len, size_t *written, size_t *count);

#ifdef __cplusplus
}
#endif

#endif
