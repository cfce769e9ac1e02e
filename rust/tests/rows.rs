//! The crate's answers beside outside values.
mod table;

use std::error::Error as _;
use std::{fs, iter, thread};
use table::{form, rows};
use tinkey::{Aead, Daead, Error, Form, Mac, Prf};

fn example() -> Aead {
    Aead::from_json(&fs::read(concat!(env!("CARGO_MANIFEST_DIR"), "/../examples/aes128-gcm.json")).unwrap()).unwrap()
}

#[test]
fn answers_are_those_of_tink() {
    for row in rows(&["open", "dopen", "dseal", "tag", "derive"], false) {
        let (keyset, input, ad) = (&row.keyset, row.bytes("input"), row.bytes("ad"));
        let got = match row.words[0].as_str() {
            "open" => Aead::from_binary(keyset).unwrap().decrypt(&input, &ad),
            "dopen" => Daead::from_binary(keyset).unwrap().decrypt_deterministically(&input, &ad),
            "dseal" => Daead::from_binary(keyset).unwrap().encrypt_deterministically(&input, &ad),
            "tag" => Mac::from_binary(keyset).unwrap().compute_mac(&input),
            _ => Prf::from_binary(keyset).unwrap().compute_prf(&input, row.fields["length"].parse().unwrap()),
        };
        let refusal = if row.words[0] == "derive" { Error::TooLong } else { Error::Refused };
        let want = if row.fails() { Err(refusal) } else { Ok(row.bytes("output")) };
        assert_eq!(got, want, "{:?}", row.words);
    }
}

#[test]
fn tags_of_tink_verify_whole_and_alone() {
    for row in rows(&["tag"], false) {
        let (keys, tag, body) = (Mac::from_binary(&row.keyset).unwrap(), row.bytes("output"), row.bytes("input"));
        assert_eq!(keys.verify_mac(&tag, &body), Ok(()));
        let longer: Vec<u8> = tag.iter().copied().chain(iter::once(0)).collect();
        for wrong in [&[], &tag[1..], &tag[..tag.len() - 1], &longer] {
            assert_eq!(keys.verify_mac(wrong, &body), Err(Error::Refused), "{:?}", row.words);
        }
    }
}

#[test]
fn encrypted_keysets_of_tink_have_the_keys_of_those_in_clear() {
    for row in rows(&["unwrap"], false) {
        let (master, encrypted, keyset) = (&row.keyset, row.bytes("input"), row.bytes("output"));
        let (form, has) = (form(&row.words[1]), |name: &str| String::from_utf8_lossy(&keyset).contains(name));
        if row.fails() {
            assert_eq!(Mac::from_encrypted(&encrypted, form, master, Form::Binary).err(), Some(Error::Refused));
        } else if has("tink.HmacKey") {
            let keys = Mac::from_encrypted(&encrypted, form, master, Form::Binary).unwrap();
            let tag = Mac::from_binary(&keyset).unwrap().compute_mac(b"body").unwrap();
            assert_eq!(keys.verify_mac(&tag, b"body"), Ok(()));
        } else if has("AesCtrHmacAeadKey") {
            let keys = Aead::from_encrypted(&encrypted, form, master, Form::Binary).unwrap();
            let sealed = Aead::from_binary(&keyset).unwrap().encrypt(b"text", b"ad").unwrap();
            assert_eq!(keys.decrypt(&sealed, b"ad").unwrap(), b"text");
        } else {
            for refused in [
                Aead::from_encrypted(&encrypted, form, master, Form::Binary).err(),
                Daead::from_encrypted(&encrypted, form, master, Form::Binary).err(),
                Mac::from_encrypted(&encrypted, form, master, Form::Binary).err(),
                Prf::from_encrypted(&encrypted, form, master, Form::Binary).err(),
            ] {
                assert_eq!(refused, Some(Error::UnfitKey), "{:?}", row.words);
            }
        }
    }
}

#[test]
fn encrypted_keysets_give_the_status_of_their_row() {
    for row in rows(&["tag", "seal", "derive"], true) {
        let (one, other) = row.words[2].split_once('+').unwrap();
        let (form, master_form) = (form(one), form(other));
        let (encrypted, input) = (row.bytes("encrypted"), row.bytes("input"));
        let got = match row.words[0].as_str() {
            "tag" => Mac::from_encrypted(&encrypted, form, &row.keyset, master_form)
                .and_then(|keys| keys.compute_mac(&input)),
            "seal" => Aead::from_encrypted(&encrypted, form, &row.keyset, master_form)
                .and_then(|keys| keys.encrypt(&input, b"")),
            _ => Prf::from_encrypted(&encrypted, form, &row.keyset, master_form)
                .and_then(|keys| keys.compute_prf(&input, 16)),
        };
        match row.words[3].parse().unwrap() {
            0 => assert_eq!(got, Ok(row.bytes("output")), "{}", row.fields["shows"]),
            status => assert_eq!(got.map_err(|it| it as i32), Err(status), "{}", row.fields["shows"]),
        }
    }
}

#[test]
fn what_is_sealed_opens_with_its_data_alone() {
    let keys = example();
    for size in [0, 1, 15, 16, 17, 4096, 1 << 20] {
        let text = vec![7; size];
        let sealed = keys.encrypt(&text, b"ad").unwrap();
        assert_ne!(sealed, keys.encrypt(&text, b"ad").unwrap());
        assert_eq!(keys.decrypt(&sealed, b"ad").unwrap(), text);
        for (wrong, ad) in
            [(&sealed[1..], &b"ad"[..]), (&sealed[..sealed.len() - 1], b"ad"), (&sealed, b""), (b"", b"ad")]
        {
            assert_eq!(keys.decrypt(wrong, ad), Err(Error::Refused), "{size} bytes");
        }
    }
}

#[test]
fn threads_share_a_handle_and_may_drop_it() {
    fn is_shared<T: Send + Sync>(_: &T) {}
    let keys = example();
    is_shared(&keys);
    thread::scope(|scope| {
        for _ in 0..8 {
            scope.spawn(|| {
                for _ in 0..50 {
                    let sealed = keys.encrypt(b"text", b"").unwrap();
                    assert_eq!(keys.decrypt(&sealed, b"").unwrap(), b"text");
                }
            });
        }
    });
    thread::spawn(move || drop(keys)).join().unwrap();
}

#[test]
fn each_error_has_a_text_of_its_own() {
    let all = [
        Error::Refused,
        Error::NoKeyset,
        Error::UnfitKey,
        Error::OtherPrimitive,
        Error::NoRoom,
        Error::TooLong,
        Error::NoRandom,
        Error::NoMemory,
        Error::BadCall,
        Error::OldProcessor,
        Error::NoMaster,
        Error::UnfitMaster,
        Error::NoWrapped,
        Error::Unknown,
    ];
    let texts: std::collections::HashSet<String> = all.iter().map(Error::to_string).collect();
    assert_eq!(texts.len(), all.len());
    assert!(all.iter().all(|it| it.source().is_none()));
    assert_eq!(Aead::from_json(b"{}").err(), Some(Error::NoKeyset));
    assert_eq!(Mac::from_binary(&rows(&["open"], false)[0].keyset).err(), Some(Error::UnfitKey));
    assert_eq!(Aead::from_encrypted(b"", Form::Binary, b"", Form::Binary).err(), Some(Error::NoMaster));
    assert_eq!(format!("{:?}", example()), "Aead { .. }");
}
