//! A sender that keeps its own counter.
use crate::{seal, CipherKey, Protection, Refusal, Role};

/// Seals the messages of one direction of one session, and keeps the send counter: it starts at 0 and is not handed out, and a
/// `Sealer` cannot be cloned. As long as one is made for a key, no nonce is used twice under it.
pub struct Sealer {
    role: Role,
    protection: Protection,
    key: CipherKey,
    session_id: u64,
    counter: u64,
}

impl Sealer {
    /// A sender of this role, under a key that has sealed nothing yet.
    pub const fn new(role: Role, protection: Protection, key: CipherKey, session_id: u64) -> Self {
        Sealer {
            role,
            protection,
            key,
            session_id,
            counter: 0,
        }
    }

    /// Seals in place, as [`seal`] does, with the next counter value.
    pub fn seal(&mut self, message: &mut [u8]) -> Result<u64, Refusal> {
        seal(
            self.role,
            &self.protection,
            &self.key,
            self.session_id,
            &mut self.counter,
            message,
        )
    }
}
