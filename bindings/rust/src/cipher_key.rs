//! A key to seal or open with, of either size.
use std::fmt;

/// A key to seal or open with. It is not printed, and not wiped when dropped.
#[derive(Clone, Copy, PartialEq, Eq)]
pub enum CipherKey {
    /// Of a cipher of 128 bits; below 3.1.1 of every cipher.
    Bits128([u8; 16]),
    /// Of a cipher of 256 bits.
    Bits256([u8; 32]),
}

impl CipherKey {
    /// The key's 16 or 32 bytes.
    pub const fn as_bytes(&self) -> &[u8] {
        match self {
            CipherKey::Bits128(key) => key,
            CipherKey::Bits256(key) => key,
        }
    }
}

impl From<[u8; 16]> for CipherKey {
    fn from(key: [u8; 16]) -> Self {
        CipherKey::Bits128(key)
    }
}

impl From<[u8; 32]> for CipherKey {
    fn from(key: [u8; 32]) -> Self {
        CipherKey::Bits256(key)
    }
}

impl fmt::Debug for CipherKey {
    fn fmt(&self, f: &mut fmt::Formatter<'_>) -> fmt::Result {
        f.debug_struct("CipherKey").finish_non_exhaustive()
    }
}
