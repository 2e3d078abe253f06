//! Session tables: two ends, refusals that change nothing, and the structs as the header has them.
use smb3seal::{
    open, seal, Chain, Cipher, Connection, Dialect, Keys, Login, Opened, Protection, Refusal, Role,
    Session, Sessions, Table, HEADER_BYTES, LONGEST_MATERIAL,
};

const KEY: [u8; 16] = [7; 16];
const MATERIAL: [u8; 40] = [9; 40];
const GCM: Protection = Protection::on(Dialect::SMB_3_1_1, Cipher::AES_128_GCM);
const CCM: Protection = Protection::on(Dialect::SMB_3_0, Cipher(3));
const CLIENT: Connection = Connection::new(Role::Client, GCM);
const SERVER: Connection = Connection::new(Role::Server, GCM);

/// Room for the transform header, and one plain header of this session.
fn plain(id: u64) -> Vec<u8> {
    let mut message = vec![0; HEADER_BYTES + 68];
    message[52..56].copy_from_slice(b"\xFESMB");
    message[92..100].copy_from_slice(&id.to_le_bytes());
    message
}

/// All of a record that can be seen.
type Seen = (Option<u64>, u64, bool, [u8; 16], [u8; 16]);

fn seen(table: &Sessions) -> Vec<Seen> {
    let of = |s: &Session| {
        let (signing, application) = (*s.signing(), *s.application());
        let guest = s.is_guest_or_anonymous();
        (s.id(), s.sealed(), guest, signing, application)
    };
    table.records().iter().map(of).collect()
}

/// What one end seals the other opens, and it is what the calls under one key do.
fn both_ways(agreed: Protection) {
    let chain = Chain::from_bytes([3; 64]);
    let keys = Keys::derive(agreed.dialect, agreed.cipher, &MATERIAL, &chain).expect("keys");
    let login = Login::new(0xFEDC_BA98_7654_3210, &MATERIAL, &chain);
    let ends = [Role::Client, Role::Server].map(|role| Connection::new(role, agreed));
    let mut tables = [Table::<2>::new(), Table::<2>::new()];
    for (table, end) in tables.iter_mut().zip(&ends) {
        assert_eq!(table.add(end, &login), Ok(()));
    }
    for (i, key) in [&keys.client_to_server, &keys.server_to_client]
        .into_iter()
        .enumerate()
    {
        for nonce in 0..3 {
            let mut message = plain(login.session_id);
            let (mut expected, mut counter) = (message.clone(), nonce);
            let headers = tables[i].seal(&ends[i], login.session_id, &mut message);
            assert_eq!(headers, Ok(1));
            let headers = seal(
                ends[i].role,
                &agreed,
                key,
                login.session_id,
                &mut counter,
                &mut expected,
            );
            assert_eq!(headers, Ok(1));
            assert_eq!(message, expected);
            assert_eq!(tables[i].records()[0].sealed(), nonce + 1);
            let mut at_sender = message.clone();
            assert_eq!(
                tables[i].open(&ends[i], &mut at_sender),
                Err(Refusal::BAD_TAG)
            );
            assert_eq!(at_sender, message);
            for _ in 0..2 {
                let mut arrived = message.clone();
                let opened = tables[1 - i].open(&ends[1 - i], &mut arrived);
                let (session_id, headers) = (login.session_id, 1);
                assert_eq!(
                    opened,
                    Ok(Opened {
                        session_id,
                        headers
                    })
                );
                assert_eq!(arrived[52..], plain(login.session_id)[52..]);
            }
            let at_receiver = open(
                ends[1 - i].role,
                &agreed,
                key,
                login.session_id,
                &mut message,
            );
            assert_eq!(at_receiver, Ok(1));
        }
    }
}

#[test]
fn both_ways_with_gcm() {
    both_ways(GCM);
}

#[test]
fn both_ways_below_311() {
    both_ways(CCM);
}

#[test]
fn both_ways_with_256_bits() {
    both_ways(Protection::on(Dialect::SMB_3_1_1, Cipher::AES_256_CCM));
    both_ways(Protection::on(Dialect::SMB_3_1_1, Cipher::AES_256_GCM));
}

/// A wide and a narrow session in one table: each with ciphers of its own size, and 35 with the others, which changes nothing.
#[test]
fn both_key_sizes() {
    let chain = Chain::fresh();
    let on = |cipher| Connection::new(Role::Client, Protection::on(Dialect::SMB_3_1_1, cipher));
    let (narrow, wide) = (on(Cipher::AES_128_GCM), on(Cipher::AES_256_GCM));
    let mut table = Table::<2>::new();
    assert_eq!(
        table.add(&narrow, &Login::new(5, &MATERIAL, &chain)),
        Ok(())
    );
    assert_eq!(table.add(&wide, &Login::new(6, &MATERIAL, &chain)), Ok(()));
    let sizes: Vec<bool> = table.records().iter().map(Session::is_wide).collect();
    assert_eq!(sizes, [false, true]);
    for (id, right, other) in [(5, narrow, wide), (6, wide, narrow)] {
        let mut message = plain(id);
        assert_eq!(
            table.seal(&other, id, &mut message),
            Err(Refusal::OTHER_KEY_SIZE)
        );
        assert_eq!(message, plain(id));
        assert_eq!(table.seal(&right, id, &mut message), Ok(1));
        let (before, sealed) = (seen(&table), message.clone());
        assert_eq!(
            table.open(&other, &mut message),
            Err(Refusal::OTHER_KEY_SIZE)
        );
        assert_eq!((message, seen(&table)), (sealed, before));
    }
    let long = vec![1; LONGEST_MATERIAL + 1];
    let login = Login::new(7, &long, &chain);
    assert_eq!(table.add(&wide, &login), Err(Refusal::BAD_KEY_MATERIAL));
    assert_eq!(table.add(&narrow, &login), Err(Refusal::TABLE_FULL));
}

/// Adds, finds, fills and removes over records that a vector holds; each refusal leaves what can be seen.
#[test]
fn over_a_lent_slice() {
    let chain = Chain::fresh();
    let mut records: Vec<Session> = (0..2).map(|_| Session::FREE).collect();
    let table = Sessions::over(&mut records);
    let guest = Login {
        guest: true,
        ..Login::new(6, &KEY, &chain)
    };
    assert_eq!(table.add(&SERVER, &Login::new(5, &KEY, &chain)), Ok(()));
    assert_eq!(table.add(&SERVER, &guest), Ok(()));
    assert_eq!((table.find(5), table.find(6)), (Some(0), Some(1)));
    assert_eq!((table.find(7), table.find(0)), (None, None));

    let before = seen(table);
    let other = Connection::new(Role::Server, Protection::on(Dialect(0x0210), Cipher(1)));
    for (connection, login, expected) in [
        (&SERVER, Login::new(7, &KEY, &chain), Refusal::TABLE_FULL),
        (&SERVER, Login::new(6, &KEY, &chain), Refusal::ID_TAKEN),
        (&SERVER, Login::new(0, &KEY, &chain), Refusal::ID_ZERO),
        (
            &SERVER,
            Login::new(0, &[], &chain),
            Refusal::BAD_KEY_MATERIAL,
        ),
        (&other, Login::new(0, &[], &chain), Refusal::UNKNOWN_DIALECT),
    ] {
        assert_eq!(table.add(connection, &login), Err(expected));
    }
    assert_eq!(table.remove(7), Err(Refusal::OTHER_SESSION));
    assert_eq!(seen(table), before);

    assert_eq!(table.remove(5), Ok(()));
    assert_eq!(seen(table)[0], (None, 0, false, [0; 16], [0; 16]));
    assert_eq!(seen(table)[1], before[1]);
    assert_eq!(table.add(&SERVER, &Login::new(7, &KEY, &chain)), Ok(()));
    assert_eq!(table.find(7), Some(0));
    assert_eq!(
        Sessions::over(&mut []).add(&SERVER, &guest),
        Err(Refusal::TABLE_FULL)
    );
}

/// The numbers that the table adds to sealing and opening: 6, 7 and 8. Message and table stay.
#[test]
fn refusals() {
    let chain = Chain::fresh();
    let (mut client, mut server) = (Table::<1>::new(), Table::<3>::new());
    let anonymous = Login {
        anonymous: true,
        ..Login::new(6, &KEY, &chain)
    };
    assert_eq!(client.add(&CLIENT, &Login::new(5, &KEY, &chain)), Ok(()));
    assert_eq!(server.add(&SERVER, &Login::new(5, &KEY, &chain)), Ok(()));
    assert_eq!(server.add(&SERVER, &anonymous), Ok(()));
    let constrained = Connection {
        constrained: true,
        ..SERVER
    };
    let off = Connection::new(
        Role::Server,
        Protection {
            encryption: false,
            ..GCM
        },
    );
    let before = seen(&server);
    for (connection, id, expected) in [
        (&SERVER, 9, Refusal::OTHER_SESSION),
        (&SERVER, 6, Refusal::GUEST),
        (&constrained, 6, Refusal::CONSTRAINED),
        (&constrained, 9, Refusal::OTHER_SESSION),
        (&off, 5, Refusal::NOT_ENCRYPTING),
    ] {
        let mut message = plain(id);
        assert_eq!(server.seal(connection, id, &mut message), Err(expected));
        assert_eq!(message, plain(id));
        let mut sealed = plain(5);
        client.seal(&CLIENT, 5, &mut sealed).expect("sealed");
        sealed[44] = u8::try_from(id).expect("small");
        let mut arrived = sealed.clone();
        assert_eq!(server.open(connection, &mut arrived), Err(expected));
        assert_eq!(arrived, sealed);
    }
    assert_eq!(seen(&server), before);
    assert_eq!(client.records()[0].sealed(), 5);
}

#[test]
fn keys_are_not_printed() {
    let mut table = Table::<2>::new();
    let chain = Chain::fresh();
    table
        .add(&CLIENT, &Login::new(5, &KEY, &chain))
        .expect("added");
    assert_eq!(
        format!("{table:?}"),
        "[Session { id: Some(5), sealed: 0, .. }, Session { id: None, sealed: 0, .. }]"
    );
}

/// The fields of a struct, in their order: `type name` in the header, `name: type` in Rust, both said as in Rust.
fn fields(text: &str, begin: &str, parts: fn(&str) -> Option<(String, String)>) -> Vec<String> {
    let body = &text[text.find(begin).expect(begin) + begin.len()..];
    let lines = body[..body.find("\n}").expect("an end")].lines();
    let field = |line| parts(line).map(|(name, kind)| format!("{name}: {kind}"));
    lines.filter_map(field).collect()
}

fn in_c(line: &str) -> Option<(String, String)> {
    let (kind, name) = line.split(';').next()?.trim().split_once(' ')?;
    let kind = kind.trim_end_matches("_t").replace("uint", "u");
    Some(match name.trim_end_matches(']').split_once('[') {
        Some((name, length)) => (name.into(), format!("[{kind}; {length}]")),
        None => (name.into(), kind),
    })
}

fn in_rust(line: &str) -> Option<(String, String)> {
    let (name, kind) = line.trim().strip_prefix("pub ")?.split_once(": ")?;
    Some((name.into(), kind.trim_end_matches(',').into()))
}

#[test]
fn structs_are_those_of_the_header() {
    let header = include_str!("../../../include/smb3seal.h");
    let ffi = include_str!("../src/ffi.rs");
    for (c, rust, count) in [("connection", "Connection", 6), ("session", "Session", 11)] {
        let said = fields(header, &format!("\nstruct smb3seal_{c} {{\n"), in_c);
        assert_eq!(said.len(), count);
        assert_eq!(
            said,
            fields(ffi, &format!("\npub struct {rust} {{\n"), in_rust)
        );
    }
    assert_eq!(std::mem::size_of::<Session>(), 120);
    assert_eq!(std::mem::align_of::<Session>(), 8);
}
