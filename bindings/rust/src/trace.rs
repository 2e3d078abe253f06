//! Lab traces: what passed on a connection, recorded and read.
use crate::{ffi, Cipher, Dialect, Key, Refusal};

/// The edition of the format that is written; edition 1 is read too.
const EDITION: u8 = 2;
/// Bytes of a trace's head, behind which is the first record.
const HEAD_BYTES: usize = 4;

/// What a record of a trace is.
#[derive(Clone, Copy, Debug, PartialEq, Eq)]
pub enum TraceKind {
    /// A negotiate request or response.
    Negotiate,
    /// A session setup request or response.
    Setup,
    /// A sealed message, as it passed.
    Sealed,
    /// A session for the lab: its id, 8 bytes with the high byte first, and its key.
    Session,
}

impl TraceKind {
    const ALL: [TraceKind; 4] = [
        TraceKind::Negotiate,
        TraceKind::Setup,
        TraceKind::Sealed,
        TraceKind::Session,
    ];
}

/// A record of a trace.
#[derive(Clone, Copy, Debug, PartialEq, Eq)]
pub struct TraceRecord<'a> {
    /// What it is.
    pub kind: TraceKind,
    /// Whether it came from the server.
    pub from_server: bool,
    /// The message, or the id and key of a lab session.
    pub payload: &'a [u8],
}

/// Writes a lab trace into lent room. **A trace with lab sessions holds their keys**: whoever has it opens every message in it.
pub struct TraceWriter<'a> {
    room: &'a mut [u8],
    at: usize,
}

impl<'a> TraceWriter<'a> {
    /// Begins a trace. Refuses with [`Refusal::UNREADABLE`] where the room has less than four bytes or the cipher more than eight bits.
    pub fn new(room: &'a mut [u8], dialect: Dialect, cipher: Cipher) -> Result<Self, Refusal> {
        let mut at = 0;
        // SAFETY: the pointer comes from a reference that lives through the call, with its own length; `at` is a local of its own.
        let number = unsafe {
            ffi::smb3seal_trace_head(
                EDITION,
                dialect.0,
                cipher.0,
                room.as_mut_ptr(),
                room.len(),
                &mut at,
            )
        };
        Refusal::check(number).map(|()| TraceWriter { room, at })
    }

    /// Records a message. Refuses with [`Refusal::UNREADABLE`] an empty or too long payload, one of a lab session that has not 24 bytes,
    /// and one that the room does not hold; then nothing is written.
    pub fn record(&mut self, record: TraceRecord<'_>) -> Result<(), Refusal> {
        // SAFETY: the pointers come from references that live through the call, with their own lengths; a mutable one overlaps nothing.
        let number = unsafe {
            ffi::smb3seal_trace_record(
                record.kind as u32,
                u32::from(record.from_server),
                record.payload.as_ptr(),
                record.payload.len(),
                self.room.as_mut_ptr(),
                self.room.len(),
                &mut self.at,
            )
        };
        Refusal::check(number)
    }

    /// Records a session for the lab, with its key.
    pub fn session(&mut self, session_id: u64, key: &Key) -> Result<(), Refusal> {
        let mut payload = [0; 24];
        payload[..8].copy_from_slice(&session_id.to_be_bytes());
        payload[8..].copy_from_slice(key);
        self.record(TraceRecord {
            kind: TraceKind::Session,
            from_server: false,
            payload: &payload,
        })
    }

    /// The trace so far.
    pub fn bytes(&self) -> &[u8] {
        &self.room[..self.at]
    }
}

/// Reads a lab trace, record by record. The first record that cannot be read is [`Refusal::UNREADABLE`], and the last.
pub struct TraceReader<'a> {
    trace: &'a [u8],
    edition: u8,
    dialect: Dialect,
    cipher: Cipher,
    at: usize,
    stopped: bool,
}

impl<'a> TraceReader<'a> {
    /// Reads the head. Refuses with [`Refusal::UNREADABLE`] one that is short or of another edition.
    pub fn new(trace: &'a [u8]) -> Result<Self, Refusal> {
        let (mut edition, mut dialect, mut cipher) = (0, Dialect(0), Cipher(0));
        // SAFETY: the pointer comes from a reference that lives through the call, with its own length; the others are locals.
        let number = unsafe {
            ffi::smb3seal_trace_read_head(
                trace.as_ptr(),
                trace.len(),
                &mut edition,
                &mut dialect.0,
                &mut cipher.0,
            )
        };
        Refusal::check(number).map(|()| TraceReader {
            trace,
            edition,
            dialect,
            cipher,
            at: HEAD_BYTES,
            stopped: false,
        })
    }

    /// The edition of the format: 1 or 2. [`TraceWriter`] writes edition 2 alone.
    pub const fn edition(&self) -> u8 {
        self.edition
    }

    /// The connection's dialect.
    pub const fn dialect(&self) -> Dialect {
        self.dialect
    }

    /// The connection's cipher.
    pub const fn cipher(&self) -> Cipher {
        self.cipher
    }

    /// The place of the next record, or of the one that could not be read.
    pub const fn place(&self) -> usize {
        self.at
    }
}

impl<'a> Iterator for TraceReader<'a> {
    type Item = Result<TraceRecord<'a>, Refusal>;

    fn next(&mut self) -> Option<Self::Item> {
        let (mut kind, mut from_server, mut payload, mut payload_len) = (0, 0, 0, 0);
        if self.stopped {
            return None;
        }
        // SAFETY: the pointer comes from a reference that lives through the call, with its own length; the others are numbers apart.
        let number = unsafe {
            ffi::smb3seal_trace_read(
                self.trace.as_ptr(),
                self.trace.len(),
                &mut self.at,
                &mut kind,
                &mut from_server,
                &mut payload,
                &mut payload_len,
            )
        };
        if let Err(refusal) = Refusal::check(number) {
            self.stopped = true;
            return Some(Err(refusal));
        }
        (payload_len > 0).then(|| {
            Ok(TraceRecord {
                kind: TraceKind::ALL[kind as usize],
                from_server: from_server != 0,
                payload: &self.trace[payload..payload + payload_len],
            })
        })
    }
}

/// What a rescue made of a damaged trace.
#[derive(Clone, Debug, PartialEq, Eq)]
pub struct Rescued {
    /// The head and the good records, which read whole.
    pub trace: Vec<u8>,
    /// What was dropped, in order: the place of each gap in the damaged trace, and its length.
    pub gaps: Vec<(u64, u64)>,
}

/// Copies what is good of a damaged trace, of any length. Refuses with [`Refusal::UNREADABLE`] one whose head cannot be read.
pub fn rescue_trace(trace: &[u8]) -> Result<Rescued, Refusal> {
    let mut rescued = vec![0; trace.len()];
    // always enough, by the header
    let mut numbers = vec![0; 2 * (trace.len() / 9 + 1)];
    let (mut written, mut count) = (0, 0);
    // SAFETY: the pointers come from references that live through the call, with their own lengths; the mutable ones are apart.
    let number = unsafe {
        ffi::smb3seal_trace_rescue(
            trace.as_ptr(),
            trace.len(),
            rescued.as_mut_ptr(),
            rescued.len(),
            numbers.as_mut_ptr(),
            numbers.len(),
            &mut written,
            &mut count,
        )
    };
    Refusal::check(number)?;
    rescued.truncate(written);
    let gaps = numbers
        .chunks(2)
        .take(count)
        .map(|gap| (gap[0], gap[1]))
        .collect();
    Ok(Rescued {
        trace: rescued,
        gaps,
    })
}
