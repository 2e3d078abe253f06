//! Messages in clear, signed and verified under a session's signing key.
use crate::{ffi, Key, Refusal};

/// Signs a message in clear in place, under the session's signing key: sets SMB2_FLAGS_SIGNED, whose neighbours stay, and writes
/// the AES-128-CMAC of the whole message to bytes 48..64. Each message of a compound is signed by itself, with its padding. Sign
/// last: whatever is changed afterwards makes the signature wrong.
///
/// Refuses with the numbers 3, 11 and 12, and then leaves the message.
pub fn sign(key: &Key, message: &mut [u8]) -> Result<(), Refusal> {
    // SAFETY: both pointers come from references that live through the call, with their own lengths; `message` is borrowed
    // mutably, so the two do not overlap.
    let number =
        unsafe { ffi::smb3seal_sign(key.as_ptr(), key.len(), message.as_mut_ptr(), message.len()) };
    Refusal::check(number)
}

/// Verifies a message in clear, under the session's signing key: accepted exactly if the signed flag is there and the signature is
/// right. What [`sign`] signed under a key is accepted under it.
///
/// Which messages have to be signed is for the caller to know: a server does not sign interim responses and break notices. A
/// message that arrived sealed is not verified.
///
/// Refuses with the numbers 3, 11, 12, 24 and 25.
pub fn verify(key: &Key, message: &[u8]) -> Result<(), Refusal> {
    // SAFETY: both pointers come from references that live through the call, with their own lengths; neither is written.
    let number =
        unsafe { ffi::smb3seal_verify(key.as_ptr(), key.len(), message.as_ptr(), message.len()) };
    Refusal::check(number)
}

/// A message in clear that is signed or verified as it arrives, piece by piece, wherever the cuts fall: its end is answered as
/// [`sign`] or [`verify`] of the joined pieces is. To give a message up is to drop it.
///
/// ```
/// # fn main() -> Result<(), smb3seal::Refusal> {
/// let mut whole = [0; 70];
/// whole[..4].copy_from_slice(b"\xFESMB");
/// let key = [7; 16];
/// smb3seal::sign(&key, &mut whole)?;
///
/// let mut message = smb3seal::SignedPieces::begin(&key);
/// for piece in whole.chunks(17) {
///     message.piece(piece)?;
/// }
/// message.verify()?;
/// # Ok(())
/// # }
/// ```
pub struct SignedPieces(ffi::SignState);

impl SignedPieces {
    /// A message begins under the session's signing key.
    pub fn begin(key: &Key) -> Self {
        // SAFETY: the pointer comes from a reference that lives through the call, with its own length.
        let step = unsafe { ffi::smb3seal_sign_begin(key.as_ptr(), key.len()) };
        Self(step.state)
    }

    /// The next bytes, which follow those before. Refuses with [`Refusal::TOO_LONG`] a piece with which the message would pass
    /// [`LONGEST_MESSAGE`](crate::LONGEST_MESSAGE); what is joined then goes on without it, which is not the message that was sent.
    pub fn piece(&mut self, piece: &[u8]) -> Result<(), Refusal> {
        // SAFETY: the pointer comes from a reference that lives through the call, with its own length; it is not written.
        let step = unsafe { ffi::smb3seal_sign_piece(self.0, piece.as_ptr(), piece.len()) };
        self.0 = step.state;
        Refusal::check(step.number)
    }

    /// The signature of what is joined, with the signed flag taken as set, for bytes 48..64. Refuses with the numbers 11 and 12.
    pub fn sign(self) -> Result<[u8; 16], Refusal> {
        let mut signature = [0; 16];
        // SAFETY: the pointer comes from a local that lives through the call, with its own length.
        let step =
            unsafe { ffi::smb3seal_sign_finish(self.0, signature.as_mut_ptr(), signature.len()) };
        Refusal::check(step.number).map(|()| signature)
    }

    /// Whether what is joined verifies. Refuses with the numbers 11, 12, 24 and 25.
    pub fn verify(self) -> Result<(), Refusal> {
        // SAFETY: the state goes by value, and no pointer is lent.
        let step = unsafe { ffi::smb3seal_verify_finish(self.0) };
        Refusal::check(step.number)
    }
}
