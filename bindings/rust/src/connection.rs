//! Which end this is, and what a connection agreed on, for calls with a session table.
use crate::{ffi, Protection};

/// Which end of a connection this is. It says from where a message comes, and with a session table it picks the key.
#[derive(Clone, Copy, Debug, PartialEq, Eq)]
pub enum Role {
    /// Seals with the client-to-server key.
    Client,
    /// Seals with the server-to-client key.
    Server,
}

/// What a connection agreed on, and which end of it this is.
#[derive(Clone, Copy, Debug, PartialEq, Eq)]
pub struct Connection {
    /// This end's role.
    pub role: Role,
    /// Dialect, cipher, and whether messages are encrypted at all.
    pub protection: Protection,
    /// MS-SMB2's Connection.ConstrainedConnection: nothing is sealed or opened on it.
    pub constrained: bool,
}

impl Role {
    pub(crate) const fn number(self) -> u8 {
        match self {
            Role::Client => 0,
            Role::Server => 1,
        }
    }
}

impl Connection {
    /// A connection that is not constrained.
    pub const fn new(role: Role, protection: Protection) -> Self {
        Connection {
            role,
            protection,
            constrained: false,
        }
    }

    pub(crate) fn lent(&self) -> ffi::Connection {
        ffi::Connection {
            dialect: self.protection.dialect.0,
            cipher: self.protection.cipher.0,
            role: self.role.number(),
            encryption: self.protection.encryption.into(),
            constrained: self.constrained.into(),
            spare: 0,
        }
    }
}
