//! The numbers for which a call refuses, as include/smb3seal.h names them.
use std::{error::Error, fmt};

/// The number of the one reason for which a call refused. include/smb3seal.h says what a server and a client do on each.
#[derive(Clone, Copy, PartialEq, Eq, Hash)]
pub struct Refusal(u32);

macro_rules! refusals {
    ($($name:ident = $number:literal, $text:literal;)*) => {
        impl Refusal {
            $(
                #[doc = $text]
                pub const $name: Refusal = Refusal($number);
            )*

            /// Every number that has a name, with its name.
            pub const ALL: &'static [(&'static str, Refusal)] = &[$((stringify!($name), Refusal::$name),)*];

            /// A sentence for logs.
            pub const fn text(self) -> &'static str {
                match self {
                    $(Refusal::$name => $text,)*
                    _ => "unknown number",
                }
            }
        }
    };
}

refusals! {
    NOT_ENCRYPTING = 1, "this connection does not encrypt: dialect, role, setting or cipher";
    TOO_SHORT = 2, "the message is not longer than a transform header";
    TOO_LONG = 3, "the message is longer than 8,454,144 bytes, those behind its transform header if it has one";
    NOT_TRANSFORM = 4, "the message does not begin with a transform header";
    BAD_FLAGS = 5, "the transform header's Flags are not 0x0001";
    OTHER_SESSION = 6, "the transform header names another session, or the table has no session of this id";
    CONSTRAINED = 7, "the connection is constrained";
    GUEST = 8, "the session is guest or anonymous";
    BAD_TAG = 9, "the tag differs";
    BAD_SIZE = 10, "OriginalMessageSize differs from the message's size";
    INNER_TOO_SHORT = 11, "the inner message, or the one to sign or verify, is shorter than a header";
    NOT_HEADER = 12, "an inner header, or the message to sign or verify, does not begin FE 53 4D 42";
    FIRST_RELATED = 13, "the first inner header has the related flag";
    INNER_SESSION = 14, "an inner header names another session";
    NEXT_OUTSIDE = 15, "NextCommand points into its own header or past the end";
    NEXT_UNALIGNED = 16, "NextCommand is not a multiple of 8";
    COUNTER_USED_UP = 17, "the send counter is used up: end the session and set up a new one";
    UNKNOWN_DIALECT = 18, "the dialect is none of 3.0, 3.0.2 and 3.1.1";
    BAD_KEY_MATERIAL = 19, "the key material is empty, or too long for a cipher of 256 bits";
    ID_ZERO = 20, "the id of the session to add is 0";
    ID_TAKEN = 21, "a session with this id is in the table";
    TABLE_FULL = 22, "the session table is full";
    FOLD_LENGTH = 23, "a message to fold has under 64 or over 8,454,144 bytes";
    NOT_SIGNED = 24, "the message is not signed";
    BAD_SIGNATURE = 25, "the signature differs";
    DIRTY_NONCE = 29, "the nonce does not end in zeros";
    OTHER_KEY_SIZE = 35, "the session was added for a cipher of the other key size";
    UNREADABLE = 36, "the trace cannot be read here, or would not be, or its room is full";
    BAD_LENGTH = 40, "a lent key, chain value, place for keys or place for a signature has the wrong length";
}

impl Refusal {
    /// The number.
    pub const fn number(self) -> u32 {
        self.0
    }

    /// What an answer of the archive means.
    pub(crate) fn check(answer: u32) -> Result<(), Refusal> {
        match answer {
            0 => Ok(()),
            number => Err(Refusal(number)),
        }
    }
}

impl fmt::Display for Refusal {
    fn fmt(&self, f: &mut fmt::Formatter<'_>) -> fmt::Result {
        write!(f, "{}: {}", self.0, self.text())
    }
}

impl fmt::Debug for Refusal {
    fn fmt(&self, f: &mut fmt::Formatter<'_>) -> fmt::Result {
        write!(f, "Refusal({self})")
    }
}

impl Error for Refusal {}
