//! The message protection of SMB 3: the preauthentication hash value, the four keys, sealing and opening in place, signing and
//! verifying in clear.
//!
//! A thin, safe layer over the functions of `libsmb3seal.a`, which are proved for all inputs. What the C header asks of a caller (no
//! overlap, lengths that are true, no null pointer) holds here by the types; lengths of keys and hash values are part of their types
//! too, so that number 40 says one thing alone: a [`CipherKey`] of the other size than the cipher's.
//!
//! With a session [`Table`] the library keeps keys and counters and picks the right ones. Under one key ([`seal`], [`open`]) that is
//! the caller's part; a [`Sealer`] keeps one counter.
//!
//! A message is folded, signed or verified whole, or as it arrives: [`FoldedPieces`], [`SignedPieces`].
//!
//! For support, a [`TraceWriter`] records what passes on a connection, and a [`TraceReader`] reads it.
//!
//! Each call answers, or refuses with the one number that says why. After a refusal every byte and every number that was lent is
//! as it was.
//!
//! ```
//! use smb3seal::{Chain, Cipher, Connection, Dialect, Login, Protection, Role, Table};
//!
//! # fn main() -> Result<(), smb3seal::Refusal> {
//! let mut chain = Chain::fresh();
//! chain.fold(&[0; 64])?; // each negotiate and session setup message in turn
//! let agreed = Protection::on(Dialect::SMB_3_1_1, Cipher::AES_128_GCM);
//! let login = Login::new(7, b"the session key!", &chain);
//!
//! // 52 bytes of room, then an ECHO request (command 13) of session 7
//! let mut message = [0; smb3seal::HEADER_BYTES + 68];
//! message[52..58].copy_from_slice(b"\xFESMB\x40\0");
//! message[64] = 13;
//! message[92] = 7;
//! message[116] = 4;
//!
//! let (mut client, connection) = (Table::<1>::new(), Connection::new(Role::Client, agreed));
//! client.add(&connection, &login)?;
//! assert_eq!(client.seal(&connection, 7, &mut message)?, 1); // one inner header
//! assert_eq!(&message[..4], b"\xFDSMB");
//!
//! let (mut server, connection) = (Table::<16>::new(), Connection::new(Role::Server, agreed));
//! server.add(&connection, &login)?;
//! assert_eq!(server.open(&connection, &mut message)?.session_id, 7);
//! assert_eq!(message[64], 13);
//! # Ok(())
//! # }
//! ```
#![warn(missing_docs)]

mod cipher_key;
mod connection;
mod ffi;
mod pieces;
mod refusal;
mod sealer;
mod signing;
mod table;
mod trace;

pub use cipher_key::CipherKey;
pub use connection::{Connection, Role};
pub use pieces::FoldedPieces;
pub use refusal::Refusal;
pub use sealer::Sealer;
pub use signing::{sign, verify, SignedPieces};
pub use table::{Login, Opened, Session, Sessions, Table};
pub use trace::{rescue_trace, Rescued, TraceKind, TraceReader, TraceRecord, TraceWriter};

use std::fmt;

/// Bytes of the transform header, before every sealed message.
pub const HEADER_BYTES: usize = 52;
/// The most bytes behind the transform header, and of a message that is folded, signed or verified.
pub const LONGEST_MESSAGE: usize = 8_454_144;

/// The most bytes of key material that cipher keys of 256 bits come from.
pub const LONGEST_MATERIAL: usize = 65_536;

/// A signing or application key.
pub type Key = [u8; 16];

/// A dialect, as MS-SMB2 numbers it. Any number may stand here; those that are no SMB 3 dialect are refused.
#[derive(Clone, Copy, Debug, PartialEq, Eq)]
pub struct Dialect(pub u16);

impl Dialect {
    /// SMB 3.0
    pub const SMB_3_0: Dialect = Dialect(0x0300);
    /// SMB 3.0.2
    pub const SMB_3_0_2: Dialect = Dialect(0x0302);
    /// SMB 3.1.1
    pub const SMB_3_1_1: Dialect = Dialect(0x0311);
}

/// A cipher, as MS-SMB2 numbers it. Below 3.1.1 any number but 0 means AES-128-CCM.
#[derive(Clone, Copy, Debug, PartialEq, Eq)]
pub struct Cipher(pub u16);

impl Cipher {
    /// AES-128-CCM
    pub const AES_128_CCM: Cipher = Cipher(1);
    /// AES-128-GCM
    pub const AES_128_GCM: Cipher = Cipher(2);
    /// AES-256-CCM, on 3.1.1 alone
    pub const AES_256_CCM: Cipher = Cipher(3);
    /// AES-256-GCM, on 3.1.1 alone
    pub const AES_256_GCM: Cipher = Cipher(4);

    /// Whether cipher keys have 32 bytes on this dialect; else they have 16.
    pub const fn is_wide(self, dialect: Dialect) -> bool {
        dialect.0 == Dialect::SMB_3_1_1.0
            && matches!(self, Cipher::AES_256_CCM | Cipher::AES_256_GCM)
    }
}

/// What a connection has agreed on.
#[derive(Clone, Copy, Debug, PartialEq, Eq)]
pub struct Protection {
    /// The dialect.
    pub dialect: Dialect,
    /// Whether messages are encrypted at all.
    pub encryption: bool,
    /// The cipher.
    pub cipher: Cipher,
}

impl Protection {
    /// A connection that encrypts.
    pub const fn on(dialect: Dialect, cipher: Cipher) -> Self {
        Protection {
            dialect,
            encryption: true,
            cipher,
        }
    }
}

/// A preauthentication integrity hash value. A session's starts as a copy of its connection's.
#[derive(Clone, Debug, PartialEq, Eq)]
pub struct Chain([u8; 64]);

impl Chain {
    /// 64 zero bytes: the value before the negotiate request.
    pub const fn fresh() -> Self {
        Chain([0; 64])
    }

    /// The value that was stored as these bytes.
    pub const fn from_bytes(bytes: [u8; 64]) -> Self {
        Chain(bytes)
    }

    /// The value's bytes.
    pub const fn as_bytes(&self) -> &[u8; 64] {
        &self.0
    }

    /// Folds a negotiate request or response, or a session setup request: the value becomes SHA-512 of the old value followed by
    /// the message. Refuses with [`Refusal::FOLD_LENGTH`].
    pub fn fold(&mut self, message: &[u8]) -> Result<(), Refusal> {
        // SAFETY: both pointers come from references that live through the call, with their own lengths; `self` is borrowed
        // mutably, so the two do not overlap.
        let number =
            unsafe { ffi::smb3seal_fold(self.0.as_mut_ptr(), 64, message.as_ptr(), message.len()) };
        Refusal::check(number)
    }

    /// Folds a session setup response, if its Status is STATUS_MORE_PROCESSING_REQUIRED; tells whether it was. Refuses with
    /// [`Refusal::FOLD_LENGTH`].
    pub fn fold_response(&mut self, message: &[u8]) -> Result<bool, Refusal> {
        let mut folded = 0;
        // SAFETY: as in `fold`; `folded` is a local of its own.
        let number = unsafe {
            ffi::smb3seal_fold_response(
                self.0.as_mut_ptr(),
                64,
                message.as_ptr(),
                message.len(),
                &mut folded,
            )
        };
        Refusal::check(number).map(|()| folded == 1)
    }
}

/// The four keys of a session. They are not printed, and not wiped when dropped.
#[derive(Clone, PartialEq, Eq)]
pub struct Keys {
    /// Both ends sign and verify with it.
    pub signing: Key,
    /// For the application above.
    pub application: Key,
    /// A client seals with it, a server opens with it.
    pub client_to_server: CipherKey,
    /// A server seals with it, a client opens with it.
    pub server_to_client: CipherKey,
}

impl Keys {
    /// Derives the keys from the key of the authentication, of any length but 0: its first 16 bytes count, padded with zeros at the
    /// right; but cipher keys of 256 bits come from all of it, up to [`LONGEST_MATERIAL`]. `chain` counts on 3.1.1 alone. Refuses
    /// with [`Refusal::UNKNOWN_DIALECT`] or [`Refusal::BAD_KEY_MATERIAL`].
    pub fn derive(
        dialect: Dialect,
        cipher: Cipher,
        material: &[u8],
        chain: &Chain,
    ) -> Result<Self, Refusal> {
        let mut keys = [0; 96];
        let wide = cipher.is_wide(dialect);
        let place = if wide { &mut keys[..] } else { &mut keys[..64] };
        // SAFETY: the pointers come from references that live through the call, with their own lengths; `keys` is a local of its
        // own.
        let number = unsafe {
            ffi::smb3seal_derive(
                dialect.0,
                cipher.0,
                material.as_ptr(),
                material.len(),
                chain.0.as_ptr(),
                64,
                place.as_mut_ptr(),
                place.len(),
            )
        };
        let (client_to_server, server_to_client) = if wide {
            (
                bytes_at::<32>(&keys, 32).into(),
                bytes_at::<32>(&keys, 64).into(),
            )
        } else {
            (
                bytes_at::<16>(&keys, 32).into(),
                bytes_at::<16>(&keys, 48).into(),
            )
        };
        Refusal::check(number).map(|()| Keys {
            signing: bytes_at(&keys, 0),
            application: bytes_at(&keys, 16),
            client_to_server,
            server_to_client,
        })
    }
}

/// The bytes from this place on.
fn bytes_at<const N: usize>(bytes: &[u8], at: usize) -> [u8; N] {
    let mut found = [0; N];
    found.copy_from_slice(&bytes[at..at + N]);
    found
}

impl fmt::Debug for Keys {
    fn fmt(&self, f: &mut fmt::Formatter<'_>) -> fmt::Result {
        f.debug_struct("Keys").finish_non_exhaustive()
    }
}

/// Seals in place: `message` is [`HEADER_BYTES`] of room and behind them the inner message, and becomes the sealed message.
/// Returns the number of inner headers.
///
/// `role` is this end's: a break notice, which has the SessionId 0, is sealed by a server alone. It does not pick the key.
///
/// `counter` is the send counter of this key: it becomes the nonce, and is then one more. Start it at 0 for a new key, and never
/// seal twice under one key with one value; a [`Sealer`] keeps it for you.
///
/// Refuses with the numbers 1, 2, 3 and 11 to 17, and with 40 a key of the other size than the cipher's.
pub fn seal(
    role: Role,
    protection: &Protection,
    key: &CipherKey,
    session_id: u64,
    counter: &mut u64,
    message: &mut [u8],
) -> Result<u64, Refusal> {
    let mut headers = 0;
    // SAFETY: the pointers come from references that live through the call, with their own lengths; what is written is borrowed
    // mutably, so nothing overlaps.
    let number = unsafe {
        ffi::smb3seal_seal(
            role.number().into(),
            protection.dialect.0,
            protection.encryption.into(),
            protection.cipher.0,
            key.as_bytes().as_ptr(),
            key.as_bytes().len(),
            session_id,
            counter,
            message.as_mut_ptr(),
            message.len(),
            &mut headers,
        )
    };
    Refusal::check(number).map(|()| headers)
}

/// Opens in place: `message` is a whole received message; its first [`HEADER_BYTES`] stay, and the rest becomes the plaintext.
/// Returns the number of inner headers. After a refusal no byte of plaintext is left.
///
/// `role` is that of the end that opens: a client opens break notices. `session_id` is the session that the caller looked up by the
/// header. A message that arrives twice opens twice: whether its MessageId was seen before is for the caller to check.
///
/// Refuses with the numbers 1 to 6, 9 to 16 and 29, and with 40 a key of the other size than the cipher's.
pub fn open(
    role: Role,
    protection: &Protection,
    key: &CipherKey,
    session_id: u64,
    message: &mut [u8],
) -> Result<u64, Refusal> {
    let mut headers = 0;
    // SAFETY: as in `seal`.
    let number = unsafe {
        ffi::smb3seal_open(
            role.number().into(),
            protection.dialect.0,
            protection.encryption.into(),
            protection.cipher.0,
            key.as_bytes().as_ptr(),
            key.as_bytes().len(),
            session_id,
            message.as_mut_ptr(),
            message.len(),
            &mut headers,
        )
    };
    Refusal::check(number).map(|()| headers)
}
