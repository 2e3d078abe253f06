//! The sessions published with sealed messages (vectors/smb3.json), through the wrapper.
use smb3seal::{
    open, seal, sign, verify, Chain, Cipher, Dialect, FoldedPieces, Keys, Protection, Role,
};

const FILE: &str = include_str!("../../../vectors/smb3.json");

/// The value of the first field of this name: `"name": value`.
fn field<'a>(text: &'a str, name: &str) -> &'a str {
    let start = text.find(&format!("\"{name}\": ")).expect(name) + name.len() + 4;
    let value = &text[start..];
    value[..value.find([',', '\n']).expect(name)].trim_matches('"')
}

fn bytes(hexadecimal: &str) -> Vec<u8> {
    assert!(!hexadecimal.is_empty() && hexadecimal.len() % 2 == 0);
    let digits = |i| u8::from_str_radix(&hexadecimal[i..i + 2], 16).expect("hexadecimal");
    (0..hexadecimal.len()).step_by(2).map(digits).collect()
}

/// The parts of `text` that begin with a field of this name.
fn parts<'a>(text: &'a str, name: &str) -> Vec<&'a str> {
    let places: Vec<usize> = text
        .match_indices(&format!("\"{name}\": "))
        .map(|(i, _)| i)
        .collect();
    let ends = places.iter().skip(1).copied().chain([text.len()]);
    places
        .iter()
        .zip(ends)
        .map(|(&start, end)| &text[start..end])
        .collect()
}

/// The message as it arrives, seven bytes at a time, so that the Status is cut; one that is given up first leaves the chain.
fn in_pieces(chain: &mut Chain, message: &[u8], response: bool) {
    let before = chain.clone();
    assert_eq!(FoldedPieces::begin(chain).piece(message), Ok(()));
    assert_eq!(*chain, before);
    let mut pieces = FoldedPieces::begin(chain);
    for piece in message.chunks(7) {
        assert_eq!(pieces.piece(piece), Ok(()));
    }
    if response {
        assert_eq!(pieces.finish_response(), Ok(true));
    } else {
        assert_eq!(pieces.finish(), Ok(()));
    }
}

fn session(name: &str, cipher: Cipher) {
    let begin = FILE.find(name).expect(name);
    let text = &FILE[begin..begin + FILE[begin..].find("\"signed_messages\"").expect(name)];
    let (setup, sealed) = text.split_at(text.find("\"transforms\"").expect("transforms"));

    let mut chain = Chain::fresh();
    let steps = parts(setup, "index");
    assert_eq!(steps.len(), 5);
    for step in steps {
        let message = bytes(field(step, "message"));
        let response = field(step, "kind") == "session_setup_response";
        let mut arriving = chain.clone();
        in_pieces(&mut arriving, &message, response);
        if response {
            assert_eq!(chain.fold_response(&message), Ok(true));
        } else {
            assert_eq!(chain.fold(&message), Ok(()));
        }
        assert_eq!(chain.as_bytes()[..], bytes(field(step, "after")));
        assert_eq!(arriving, chain);
    }
    assert_eq!(
        chain.fold_response(&bytes(field(text, "final_response"))),
        Ok(false)
    );
    assert_eq!(chain.as_bytes()[..], bytes(field(text, "final_chain")));

    let material = bytes(field(text, "key_material"));
    let keys = Keys::derive(Dialect::SMB_3_1_1, cipher, &material, &chain).expect("keys");
    assert_eq!(keys.signing[..], bytes(field(text, "SigningKey")));
    assert_eq!(keys.application[..], bytes(field(text, "ApplicationKey")));
    assert_eq!(
        keys.client_to_server.as_bytes(),
        bytes(field(text, "EncryptionKey"))
    );
    assert_eq!(
        keys.server_to_client.as_bytes(),
        bytes(field(text, "DecryptionKey"))
    );

    let id = field(text, "session_id").parse().expect("a number");
    let connection = Protection::on(Dialect::SMB_3_1_1, cipher);
    let transforms = parts(sealed, "command");
    assert_eq!(transforms.len(), 4);
    for transform in transforms {
        let published = bytes(field(transform, "message"));
        let from_client = field(transform, "direction") == "c2s";
        let (key, sender, receiver) = if from_client {
            (&keys.client_to_server, Role::Client, Role::Server)
        } else {
            (&keys.server_to_client, Role::Server, Role::Client)
        };
        let mut message = published.clone();
        assert_eq!(open(receiver, &connection, key, id, &mut message), Ok(1));
        assert_eq!(message[52..], bytes(field(transform, "plaintext")));
        if field(transform, "sealed_by_our_rule") == "true" {
            let nonce = bytes(field(transform, "Nonce"));
            let before = u64::from_le_bytes(nonce[..8].try_into().expect("8 bytes"));
            let mut counter = before;
            message[..52].fill(0x55);
            assert_eq!(
                seal(sender, &connection, key, id, &mut counter, &mut message),
                Ok(1)
            );
            assert_eq!((message, counter), (published, before + 1));
        }
    }
}

#[test]
fn session_with_gcm() {
    session("\"000/A.1 GCM\"", Cipher::AES_128_GCM);
}

#[test]
fn session_with_ccm() {
    session("\"000/A.2 CCM\"", Cipher::AES_128_CCM);
}

/// Each published signed message is accepted, and signed again to the same bytes.
#[test]
fn signed_messages() {
    let signed = parts(FILE, "what");
    assert_eq!(signed.len(), 7);
    for text in signed {
        let key = bytes(field(text, "key")).try_into().expect("16 bytes");
        let published = bytes(field(text, "message"));
        let mut message = published.clone();
        assert_eq!(verify(&key, &message), Ok(()));
        message[16] &= !8;
        message[48..64].fill(0x55);
        assert_eq!(sign(&key, &mut message), Ok(()));
        assert_eq!(message, published);
    }
}
