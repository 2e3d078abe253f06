//! A message folded as it arrives.
use crate::{ffi, Chain, Refusal};

/// A message that is folded as it arrives, piece by piece, wherever the cuts fall: its end leaves the chain that one fold of the joined
/// pieces leaves. To give a message up is to drop it: the chain is as it was. No other message goes into the chain meanwhile, since it
/// is borrowed.
///
/// ```
/// # fn main() -> Result<(), smb3seal::Refusal> {
/// let whole = [3; 200];
/// let (mut chain, mut at_once) = (smb3seal::Chain::fresh(), smb3seal::Chain::fresh());
/// at_once.fold(&whole)?;
///
/// let mut message = smb3seal::FoldedPieces::begin(&mut chain);
/// for piece in whole.chunks(17) {
///     message.piece(piece)?;
/// }
/// message.finish()?;
/// assert_eq!(chain, at_once);
/// # Ok(())
/// # }
/// ```
pub struct FoldedPieces<'c> {
    chain: &'c mut Chain,
    state: ffi::FoldState,
}

impl<'c> FoldedPieces<'c> {
    /// A message begins from the chain's value.
    pub fn begin(chain: &'c mut Chain) -> Self {
        // SAFETY: the pointer comes from a reference that lives through the call, with its own length.
        let step = unsafe { ffi::smb3seal_fold_begin(chain.0.as_ptr(), 64) };
        FoldedPieces {
            chain,
            state: step.state,
        }
    }

    /// The next bytes, which follow those before. Refuses with [`Refusal::FOLD_LENGTH`] a piece with which the message would pass
    /// [`LONGEST_MESSAGE`](crate::LONGEST_MESSAGE); what is joined then goes on without it, which is not the message that was sent: drop
    /// it, and disconnect.
    pub fn piece(&mut self, piece: &[u8]) -> Result<(), Refusal> {
        // SAFETY: the pointer comes from a reference that lives through the call, with its own length; it is not written.
        let step = unsafe { ffi::smb3seal_fold_piece(self.state, piece.as_ptr(), piece.len()) };
        self.state = step.state;
        Refusal::check(step.number)
    }

    /// Folds what is joined, a negotiate request or response or a session setup request. Refuses with [`Refusal::FOLD_LENGTH`], and
    /// then leaves the chain.
    pub fn finish(self) -> Result<(), Refusal> {
        // SAFETY: the pointer comes from a reference that lives through the call, with its own length; the state goes by value.
        let step = unsafe { ffi::smb3seal_fold_finish(self.state, self.chain.0.as_mut_ptr(), 64) };
        Refusal::check(step.number)
    }

    /// Folds what is joined, a session setup response, if its Status is STATUS_MORE_PROCESSING_REQUIRED; tells whether it was. Refuses
    /// with [`Refusal::FOLD_LENGTH`], and then leaves the chain.
    pub fn finish_response(self) -> Result<bool, Refusal> {
        // SAFETY: as in `finish`.
        let step = unsafe {
            ffi::smb3seal_fold_response_finish(self.state, self.chain.0.as_mut_ptr(), 64)
        };
        Refusal::check(step.number).map(|()| step.folded == 1)
    }
}
