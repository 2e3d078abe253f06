//! The session table: keys, send counters and the choice of a key are the library's.
use crate::{ffi, Chain, Connection, Key, Refusal};
use std::{
    fmt,
    ops::{Deref, DerefMut},
};

/// A record of a session table: free, or a session's with its keys and its send counter. It cannot be cloned, and the counter
/// cannot be set, so that no nonce is used twice by a copy. Keys are not printed, and not wiped when dropped; removing wipes them.
#[repr(transparent)]
pub struct Session(ffi::Session);

impl Session {
    /// A free record: 120 zero bytes.
    pub const FREE: Session = Session(ffi::Session {
        id: 0,
        counter: 0,
        signing: [0; 16],
        application: [0; 16],
        client_to_server: [0; 32],
        server_to_client: [0; 32],
        used: 0,
        guest: 0,
        anonymous: 0,
        wide: 0,
        spare: [0; 4],
    });

    /// The session's id, or `None` for a free record.
    pub const fn id(&self) -> Option<u64> {
        match self.0.used {
            0 => None,
            _ => Some(self.0.id),
        }
    }

    /// How many messages this end has sealed for it.
    pub const fn sealed(&self) -> u64 {
        self.0.counter
    }

    /// Whether it is a guest's or anonymous: nothing is sealed or opened for it.
    pub const fn is_guest_or_anonymous(&self) -> bool {
        self.0.guest != 0 || self.0.anonymous != 0
    }

    /// Whether its cipher keys have 32 bytes: it was added for a cipher of 256 bits, and is used with such ciphers alone.
    pub const fn is_wide(&self) -> bool {
        self.0.wide != 0
    }

    /// The key that signs messages.
    pub const fn signing(&self) -> &Key {
        &self.0.signing
    }

    /// The key for the application above.
    pub const fn application(&self) -> &Key {
        &self.0.application
    }
}

impl Default for Session {
    fn default() -> Self {
        Session::FREE
    }
}

impl fmt::Debug for Session {
    fn fmt(&self, f: &mut fmt::Formatter<'_>) -> fmt::Result {
        f.debug_struct("Session")
            .field("id", &self.id())
            .field("sealed", &self.sealed())
            .finish_non_exhaustive()
    }
}

/// What a session is added with: the end of its setup.
#[derive(Clone, Copy)]
pub struct Login<'a> {
    /// The id that the server chose, not 0.
    pub session_id: u64,
    /// The session is a guest's.
    pub guest: bool,
    /// The session is anonymous.
    pub anonymous: bool,
    /// The key of the authentication, of any length but 0, and for a cipher of 256 bits at most [`crate::LONGEST_MATERIAL`]; then
    /// the cipher keys come from all of it, and else every key from its first 16 bytes. Each login has its own: a session that is added again from the
    /// same key and hash value begins again at the first nonce, under the same keys.
    pub material: &'a [u8],
    /// The session's preauthentication hash value; it counts on 3.1.1 alone.
    pub chain: &'a Chain,
}

impl<'a> Login<'a> {
    /// A login that is neither a guest's nor anonymous.
    pub const fn new(session_id: u64, material: &'a [u8], chain: &'a Chain) -> Self {
        Login {
            session_id,
            guest: false,
            anonymous: false,
            material,
            chain,
        }
    }
}

/// What opening found.
#[derive(Clone, Copy, Debug, PartialEq, Eq)]
pub struct Opened {
    /// The session that opened the message. Where a table serves several connections, whether it belongs to the one by which the
    /// message came is for the caller to check.
    pub session_id: u64,
    /// The number of inner headers.
    pub headers: u64,
}

/// A session table over records that somebody else holds. [`Table`] holds its own.
///
/// Opening takes `&self`: several threads may open at once, while none adds, removes or seals.
#[repr(transparent)]
pub struct Sessions([Session]);

impl Sessions {
    /// The table that these records are. The first used record with an id is its session's.
    pub fn over(records: &mut [Session]) -> &mut Sessions {
        // SAFETY: `Sessions` is transparent over `[Session]`, and the borrow is handed on.
        unsafe { &mut *(records as *mut [Session] as *mut Sessions) }
    }

    /// The records.
    pub const fn records(&self) -> &[Session] {
        &self.0
    }

    /// The place of a session's record.
    pub fn find(&self, session_id: u64) -> Option<usize> {
        // SAFETY: the pointer comes from a reference that lives through the call, with its own length.
        let place = unsafe { ffi::smb3seal_table_find(self.lent(), self.0.len(), session_id) };
        (place < self.0.len()).then_some(place)
    }

    /// Adds a session: the first free record gets its keys, and counter 0. Of the connection the dialect and the
    /// cipher count. Refuses with the numbers 18 to 22.
    pub fn add(&mut self, connection: &Connection, login: &Login<'_>) -> Result<(), Refusal> {
        let chain = login.chain.as_bytes();
        // SAFETY: the pointers come from references that live through the call, with their own lengths; the table is borrowed
        // mutably, so nothing overlaps it.
        let number = unsafe {
            ffi::smb3seal_table_add(
                self.lent_mut(),
                self.0.len(),
                connection.lent(),
                login.session_id,
                login.guest.into(),
                login.anonymous.into(),
                login.material.as_ptr(),
                login.material.len(),
                chain.as_ptr(),
                chain.len(),
            )
        };
        Refusal::check(number)
    }

    /// Removes a session: every byte of its record becomes 0. Refuses with [`Refusal::OTHER_SESSION`].
    pub fn remove(&mut self, session_id: u64) -> Result<(), Refusal> {
        // SAFETY: as in `add`.
        let number =
            unsafe { ffi::smb3seal_table_remove(self.lent_mut(), self.0.len(), session_id) };
        Refusal::check(number)
    }

    /// Seals in place for a session, as [`crate::seal`] does under a key, with the session's next counter value and the key of the
    /// connection's role. Returns the number of inner headers. Refuses with the numbers 1, 2, 3, 6, 7, 8, 35 and 11
    /// to 17.
    pub fn seal(
        &mut self,
        connection: &Connection,
        session_id: u64,
        message: &mut [u8],
    ) -> Result<u64, Refusal> {
        let mut headers = 0;
        // SAFETY: as in `add`; what is written is borrowed mutably, so nothing overlaps.
        let number = unsafe {
            ffi::smb3seal_table_seal(
                self.lent_mut(),
                self.0.len(),
                connection.lent(),
                session_id,
                message.as_mut_ptr(),
                message.len(),
                &mut headers,
            )
        };
        Refusal::check(number).map(|()| headers)
    }

    /// Opens in place, as [`crate::open`] does under a key, for the session that the transform header names. A message that arrives
    /// twice opens twice: whether its MessageId was seen before is for the caller to check. Refuses with the numbers 1 to 16, 29
    /// and 35.
    pub fn open(&self, connection: &Connection, message: &mut [u8]) -> Result<Opened, Refusal> {
        let mut headers = 0;
        // SAFETY: as in `seal`; the table is read alone.
        let number = unsafe {
            ffi::smb3seal_table_open(
                self.lent(),
                self.0.len(),
                connection.lent(),
                message.as_mut_ptr(),
                message.len(),
                &mut headers,
            )
        };
        Refusal::check(number)?;
        let mut id = [0; 8];
        id.copy_from_slice(&message[44..52]);
        let session_id = u64::from_le_bytes(id);
        Ok(Opened {
            session_id,
            headers,
        })
    }

    fn lent(&self) -> *const ffi::Session {
        self.0.as_ptr().cast()
    }

    fn lent_mut(&mut self) -> *mut ffi::Session {
        self.0.as_mut_ptr().cast()
    }
}

/// A session table of `N` records, all free at first. Its calls are those of [`Sessions`].
///
/// It cannot be cloned: two copies that go on would seal with the same nonces.
///
/// ```compile_fail
/// let table = smb3seal::Table::<4>::new();
/// let copy = table.clone();
/// ```
pub struct Table<const N: usize>([Session; N]);

impl<const N: usize> Table<N> {
    /// An empty table.
    pub const fn new() -> Self {
        Table([Session::FREE; N])
    }
}

impl<const N: usize> Default for Table<N> {
    fn default() -> Self {
        Table::new()
    }
}

impl<const N: usize> Deref for Table<N> {
    type Target = Sessions;

    fn deref(&self) -> &Sessions {
        // SAFETY: `Sessions` is transparent over `[Session]`, and the borrow is handed on.
        unsafe { &*(&self.0[..] as *const [Session] as *const Sessions) }
    }
}

impl<const N: usize> DerefMut for Table<N> {
    fn deref_mut(&mut self) -> &mut Sessions {
        Sessions::over(&mut self.0)
    }
}

impl fmt::Debug for Sessions {
    fn fmt(&self, f: &mut fmt::Formatter<'_>) -> fmt::Result {
        f.debug_list().entries(&self.0).finish()
    }
}

impl<const N: usize> fmt::Debug for Table<N> {
    fn fmt(&self, f: &mut fmt::Formatter<'_>) -> fmt::Result {
        self.deref().fmt(f)
    }
}
