//! Lab traces: what is written is read, and what cannot be read or held is refused.
use smb3seal::{
    rescue_trace, Cipher, Dialect, Refusal, TraceKind, TraceReader, TraceRecord, TraceWriter,
};

fn request(payload: &[u8]) -> TraceRecord<'_> {
    TraceRecord {
        kind: TraceKind::Setup,
        from_server: false,
        payload,
    }
}

fn begin(room: &mut [u8]) -> Result<TraceWriter<'_>, Refusal> {
    TraceWriter::new(room, Dialect::SMB_3_1_1, Cipher::AES_128_GCM)
}

#[test]
fn what_is_written_is_read() {
    let mut room = [0; 100];
    let mut writer = begin(&mut room).unwrap();
    writer.record(request(b"a request")).unwrap();
    writer.session(7, b"the session key!").unwrap();
    let trace = writer.bytes().to_vec();
    assert_eq!(trace.len(), 4 + 4 + 9 + 4 + 24);

    let reader = TraceReader::new(&trace).unwrap();
    assert_eq!(reader.edition(), 2);
    assert_eq!(reader.dialect(), Dialect::SMB_3_1_1);
    assert_eq!(reader.cipher(), Cipher::AES_128_GCM);
    let records: Vec<_> = reader.map(Result::unwrap).collect();
    assert_eq!(records[0], request(b"a request"));
    assert_eq!(records[1].kind, TraceKind::Session);
    assert_eq!(records[1].payload, b"\0\0\0\0\0\0\0\x07the session key!");
    assert_eq!(records.len(), 2);
}

#[test]
fn a_cut_trace_stops() {
    let mut room = [0; 100];
    let mut writer = begin(&mut room).unwrap();
    writer.record(request(b"first")).unwrap();
    writer.record(request(b"second")).unwrap();
    let trace = writer.bytes().to_vec();
    let mut reader = TraceReader::new(&trace[..trace.len() - 1]).unwrap();
    assert!(reader.next().unwrap().is_ok());
    assert_eq!(reader.next(), Some(Err(Refusal::UNREADABLE)));
    assert_eq!(reader.place(), 13);
    assert_eq!(reader.next(), None);
}

#[test]
fn refused_writes_change_nothing() {
    let mut room = [9; 20];
    let mut writer = begin(&mut room).unwrap();
    let wrong = TraceRecord {
        kind: TraceKind::Session,
        ..request(b"not 24 bytes")
    };
    for record in [request(b""), request(&[1; 13]), wrong] {
        assert_eq!(writer.record(record), Err(Refusal::UNREADABLE));
    }
    assert_eq!(writer.bytes(), [2, 3, 17, 2]);
    writer.record(request(&[1; 12])).unwrap();
    assert_eq!(room[4..8], [0x20, 0, 0, 0xC0]);
}

#[test]
fn edition_1_is_read() {
    let trace = [1, 3, 17, 2, 0x20, 0, 1, 0, b'a', b'b'];
    let mut reader = TraceReader::new(&trace).unwrap();
    assert_eq!(reader.edition(), 1);
    assert_eq!(reader.next(), Some(Ok(request(b"ab"))));
    assert_eq!(reader.next(), None);
}

#[test]
fn a_damaged_trace_is_rescued() {
    let mut room = [0; 100];
    let mut writer = begin(&mut room).unwrap();
    writer.record(request(b"\xFESMB, first")).unwrap();
    writer.record(request(b"\xFESMB, second")).unwrap();
    let clean = writer.bytes().to_vec();
    assert_eq!(rescue_trace(&clean).unwrap().trace, clean);
    assert!(rescue_trace(&clean).unwrap().gaps.is_empty());

    let mut damaged = clean.clone();
    damaged.splice(4..4, [1, 2, 3]);
    damaged.push(9);
    let rescued = rescue_trace(&damaged).unwrap();
    assert_eq!(rescued.trace, clean);
    assert_eq!(rescued.gaps, [(4, 3), (damaged.len() as u64 - 1, 1)]);
    assert_eq!(rescue_trace(&damaged[1..]), Err(Refusal::UNREADABLE));
    assert_eq!(rescue_trace(&[]), Err(Refusal::UNREADABLE));
}

#[test]
fn bad_heads() {
    assert!(begin(&mut [0; 3]).is_err());
    assert!(TraceWriter::new(&mut [0; 4], Dialect::SMB_3_1_1, Cipher(256)).is_err());
    assert!(TraceReader::new(&[1, 3, 17]).is_err());
    assert!(TraceReader::new(&[3, 3, 17, 2]).is_err());
}
