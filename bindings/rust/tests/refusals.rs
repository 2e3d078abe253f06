//! What is refused, with which number, and that a refusal changes nothing.
use smb3seal::{
    open, seal, sign, verify, Chain, Cipher, CipherKey, Dialect, FoldedPieces, Keys, Protection,
    Refusal, Role, Sealer, SignedPieces, HEADER_BYTES, LONGEST_MATERIAL, LONGEST_MESSAGE,
};

const KEY: [u8; 16] = [7; 16];
const CIPHER_KEY: CipherKey = CipherKey::Bits128(KEY);
const GCM: Protection = Protection::on(Dialect::SMB_3_1_1, Cipher::AES_128_GCM);

/// Room for the transform header, and one plain header of session 5.
fn plain(inner: usize) -> Vec<u8> {
    let mut message = vec![0; HEADER_BYTES + inner];
    message[52..56].copy_from_slice(b"\xFESMB");
    message[92] = 5;
    message
}

fn sealed(inner: usize) -> Vec<u8> {
    let mut message = plain(inner);
    assert_eq!(
        seal(Role::Client, &GCM, &CIPHER_KEY, 5, &mut 3, &mut message),
        Ok(1)
    );
    message
}

/// Opening refuses with this number and leaves the message.
fn opening(protection: &Protection, mut message: Vec<u8>, expected: Refusal) {
    let lent = message.clone();
    assert_eq!(
        open(Role::Server, protection, &CIPHER_KEY, 5, &mut message),
        Err(expected)
    );
    assert_eq!(message, lent);
}

/// Sealing refuses with this number and leaves message and counter.
fn sealing(protection: &Protection, from: u64, mut message: Vec<u8>, expected: Refusal) {
    let (lent, mut counter) = (message.clone(), from);
    assert_eq!(
        seal(
            Role::Client,
            protection,
            &CIPHER_KEY,
            5,
            &mut counter,
            &mut message
        ),
        Err(expected)
    );
    assert_eq!((message, counter), (lent, from));
}

#[test]
fn openings() {
    let off = Protection {
        encryption: false,
        ..GCM
    };
    opening(&off, sealed(64), Refusal::NOT_ENCRYPTING);
    opening(
        &Protection::on(Dialect(0x0210), Cipher(1)),
        sealed(64),
        Refusal::NOT_ENCRYPTING,
    );
    opening(&GCM, Vec::new(), Refusal::TOO_SHORT);
    opening(&GCM, sealed(64)[..52].to_vec(), Refusal::TOO_SHORT);
    opening(&GCM, vec![0xFD; 53 + LONGEST_MESSAGE], Refusal::TOO_LONG);
    for (place, expected) in [
        (0, Refusal::NOT_TRANSFORM),
        (4, Refusal::BAD_TAG),
        (42, Refusal::BAD_FLAGS),
        (44, Refusal::OTHER_SESSION),
        (115, Refusal::BAD_TAG),
    ] {
        let mut message = sealed(64);
        message[place] ^= 1;
        opening(&GCM, message, expected);
    }
    opening(
        &Protection::on(Dialect::SMB_3_0, Cipher(2)),
        sealed(64),
        Refusal::BAD_TAG,
    );
}

#[test]
fn sealings() {
    sealing(&GCM, 0, plain(64)[..115].to_vec(), Refusal::INNER_TOO_SHORT);
    sealing(&GCM, u64::MAX, plain(64), Refusal::COUNTER_USED_UP);
    for (place, value, expected) in [
        (52, 0, Refusal::NOT_HEADER),
        (68, 4, Refusal::FIRST_RELATED),
        (92, 6, Refusal::INNER_SESSION),
        (72, 65, Refusal::NEXT_OUTSIDE),
    ] {
        let mut message = plain(128);
        message[place] = value;
        sealing(&GCM, 9, message, expected);
    }
    let mut message = plain(136);
    message[72] = 68;
    sealing(&GCM, 9, message, Refusal::NEXT_UNALIGNED);
}

/// Signing refuses with this number and leaves the message; verifying refuses with it too.
fn in_clear(mut message: Vec<u8>, expected: Refusal) {
    let lent = message.clone();
    assert_eq!(verify(&KEY, &message), Err(expected));
    assert_eq!(sign(&KEY, &mut message), Err(expected));
    assert_eq!(message, lent);
}

#[test]
fn signatures() {
    let plain = plain(64)[HEADER_BYTES..].to_vec();
    let mut signed = plain.clone();
    assert_eq!(sign(&KEY, &mut signed), Ok(()));
    assert_eq!(verify(&KEY, &signed), Ok(()));
    assert_eq!(verify(&[8; 16], &signed), Err(Refusal::BAD_SIGNATURE));
    assert_eq!(verify(&KEY, &plain), Err(Refusal::NOT_SIGNED));
    in_clear(signed[..63].to_vec(), Refusal::INNER_TOO_SHORT);
    in_clear(vec![0xFE; LONGEST_MESSAGE + 1], Refusal::TOO_LONG);
    signed[0] = 0xFD;
    in_clear(signed, Refusal::NOT_HEADER);
}

/// The pieces of a message, taken in one after the other.
fn pieces(message: &[u8], size: usize) -> SignedPieces {
    let mut joined = SignedPieces::begin(&KEY);
    for piece in message.chunks(size) {
        assert_eq!(joined.piece(piece), Ok(()));
    }
    joined
}

#[test]
fn signatures_in_pieces() {
    let plain = plain(64)[HEADER_BYTES..].to_vec();
    let mut signed = plain.clone();
    assert_eq!(sign(&KEY, &mut signed), Ok(()));
    for size in 1..=signed.len() {
        assert_eq!(pieces(&signed, size).verify(), Ok(()));
        assert_eq!(pieces(&plain, size).sign().unwrap(), signed[48..64]);
        assert_eq!(pieces(&plain, size).verify(), Err(Refusal::NOT_SIGNED));
    }
    let short = &signed[..63];
    assert_eq!(pieces(short, 9).verify(), Err(Refusal::INNER_TOO_SHORT));
    assert_eq!(pieces(short, 9).sign(), Err(Refusal::INNER_TOO_SHORT));
    let mut long = pieces(&signed, 50);
    let rest = vec![0; LONGEST_MESSAGE];
    assert_eq!(long.piece(&rest), Err(Refusal::TOO_LONG));
    assert_eq!(long.verify(), Ok(()));
    signed[63] ^= 1;
    let changed = pieces(&signed, 20).verify();
    assert_eq!(changed, Err(Refusal::BAD_SIGNATURE));
    signed[0] = 0xFD;
    assert_eq!(pieces(&signed, 3).sign(), Err(Refusal::NOT_HEADER));
}

#[test]
fn folds_and_keys() {
    let mut chain = Chain::from_bytes([3; 64]);
    assert_eq!(chain.fold(&[0; 63]), Err(Refusal::FOLD_LENGTH));
    assert_eq!(
        chain.fold_response(&vec![0; LONGEST_MESSAGE + 1]),
        Err(Refusal::FOLD_LENGTH)
    );
    assert_eq!(chain.fold_response(&[0; 64]), Ok(false));
    assert_eq!(chain, Chain::from_bytes([3; 64]));
    let refused =
        |dialect, cipher, material: &[u8]| Keys::derive(dialect, cipher, material, &chain).err();
    assert_eq!(
        refused(Dialect(0x0210), Cipher(1), &KEY),
        Some(Refusal::UNKNOWN_DIALECT)
    );
    assert_eq!(
        refused(Dialect::SMB_3_0_2, Cipher(1), &[]),
        Some(Refusal::BAD_KEY_MATERIAL)
    );
    let long = vec![7; LONGEST_MATERIAL + 1];
    for (dialect, cipher, expected) in [
        (
            Dialect::SMB_3_1_1,
            Cipher::AES_256_GCM,
            Some(Refusal::BAD_KEY_MATERIAL),
        ),
        (Dialect::SMB_3_1_1, Cipher::AES_128_GCM, None),
        (Dialect::SMB_3_0_2, Cipher::AES_256_GCM, None),
    ] {
        assert_eq!(refused(dialect, cipher, &long), expected);
        assert_eq!(refused(dialect, cipher, &long[1..]), None);
    }
}

/// A key of the other size than the cipher's, both ways: 40, and nothing changes.
#[test]
fn keys_of_the_other_size() {
    let wide = Protection::on(Dialect::SMB_3_1_1, Cipher::AES_256_CCM);
    let below = Protection::on(Dialect::SMB_3_0_2, Cipher::AES_256_CCM);
    let long = CipherKey::from([7; 32]);
    for (protection, key) in [(&wide, &CIPHER_KEY), (&GCM, &long), (&below, &long)] {
        let (mut message, mut counter) = (plain(64), 3);
        let sealed = seal(Role::Client, protection, key, 5, &mut counter, &mut message);
        assert_eq!(sealed, Err(Refusal::BAD_LENGTH));
        let opened = open(Role::Server, protection, key, 5, &mut message);
        assert_eq!(opened, Err(Refusal::BAD_LENGTH));
        assert_eq!((message, counter), (plain(64), 3));
    }
}

/// A refused message takes no counter value; the next two take 0 and 1.
#[test]
fn sealer_keeps_the_counter() {
    let mut sealer = Sealer::new(Role::Client, GCM, CIPHER_KEY, 5);
    assert_eq!(sealer.seal(&mut plain(63)), Err(Refusal::INNER_TOO_SHORT));
    for nonce in 0..2 {
        let (mut message, mut counter) = (plain(64), nonce);
        let mut expected = message.clone();
        assert_eq!(sealer.seal(&mut message), Ok(1));
        assert_eq!(
            seal(
                Role::Client,
                &GCM,
                &CIPHER_KEY,
                5,
                &mut counter,
                &mut expected
            ),
            Ok(1)
        );
        assert_eq!(message, expected);
        assert_eq!(message[20..28], nonce.to_le_bytes());
    }
}

/// Three marks, of which each missing alone gives 14; and only what comes from a server may be one.
#[test]
fn break_notices() {
    let mut notice = plain(64);
    notice[64] = 0x12;
    notice[76..84].fill(0xFF);
    notice[92] = 0;
    sealing(&GCM, 9, notice.clone(), Refusal::INNER_SESSION);
    let mut server = Sealer::new(Role::Server, GCM, CIPHER_KEY, 5);
    for place in [64, 83, 92] {
        let mut near = notice.clone();
        near[place] ^= 1;
        assert_eq!(server.seal(&mut near), Err(Refusal::INNER_SESSION));
    }
    let mut sealed = notice.clone();
    assert_eq!(server.seal(&mut sealed), Ok(1));
    opening(&GCM, sealed.clone(), Refusal::INNER_SESSION);
    assert_eq!(open(Role::Client, &GCM, &CIPHER_KEY, 5, &mut sealed), Ok(1));
    assert_eq!(sealed[52..], notice[52..]);
}

#[test]
fn keys_are_not_printed() {
    let keys = Keys::derive(Dialect::SMB_3_0, Cipher(1), &KEY, &Chain::fresh()).expect("keys");
    assert_eq!(format!("{keys:?}"), "Keys { .. }");
    assert_eq!(format!("{CIPHER_KEY:?}"), "CipherKey { .. }");
}

/// Names, numbers and texts are those of the C headers, no more and no fewer.
#[test]
fn as_in_the_headers() {
    let header = include_str!("../../../include/smb3seal.h");
    let texts = include_str!("../../../include/smb3seal_text.h");
    for (name, refusal) in Refusal::ALL {
        assert!(
            header.contains(&format!("#define SMB3SEAL_{name} {} ", refusal.number())),
            "{name}"
        );
        let line = format!("case SMB3SEAL_{name}: return \"{}\";", refusal.text());
        assert!(texts.contains(&line), "{name}");
    }
    let version = concat!(
        "#define SMB3SEAL_VERSION \"",
        env!("CARGO_PKG_VERSION"),
        "\"\n"
    );
    assert!(header.contains(version));
    let cases = texts.matches("case SMB3SEAL_").count();
    assert_eq!(cases, Refusal::ALL.len() + 1, "all but SMB3SEAL_DONE");
    assert_eq!(Refusal::BAD_TAG.to_string(), "9: the tag differs");
}

#[test]
fn messages_folded_in_pieces() {
    let whole = vec![0xFE; LONGEST_MESSAGE];
    let mut chain = Chain::from_bytes([9; 64]);
    let before = chain.clone();
    for n in [0, 63] {
        for response in [false, true] {
            let mut message = FoldedPieces::begin(&mut chain);
            assert_eq!(message.piece(&whole[..n]), Ok(()));
            let refused = if response {
                message.finish_response().map(|_| ())
            } else {
                message.finish()
            };
            assert_eq!(refused, Err(Refusal::FOLD_LENGTH));
            assert_eq!(chain, before);
        }
    }
    let mut expected = chain.clone();
    assert_eq!(expected.fold(&whole), Ok(()));
    let mut message = FoldedPieces::begin(&mut chain);
    assert_eq!(message.piece(&whole[1..]), Ok(()));
    assert_eq!(message.piece(&whole[..2]), Err(Refusal::FOLD_LENGTH));
    assert_eq!(message.piece(&whole[..1]), Ok(()));
    assert_eq!(message.finish(), Ok(()));
    assert_eq!(chain, expected);
}
