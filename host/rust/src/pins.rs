//! The original's files are told from others by their hashes.

use crate::source::{sha256, Pinned, PINNED};
use std::fs;
use std::path::Path;

#[test]
fn hashes() {
    let long = "abcdbcdecdefdefgefghfghighijhijkijkljklmklmnlmnomnopnopq";
    for (text, hash) in [
        (
            "",
            "e3b0c44298fc1c149afbf4c8996fb92427ae41e4649b934ca495991b7852b855",
        ),
        (
            "abc",
            "ba7816bf8f01cfea414140de5dae2223b00361a396177a9cb410ff61f20015ad",
        ),
        (
            long,
            "248d6a61d20638b8e5c026930c3e6039a33ce45964ff2167f6ecedd419db06c1",
        ),
    ] {
        assert_eq!(sha256::hex(text.as_bytes()), hash, "{text}");
    }
    let million = vec![b'a'; 1_000_000];
    let hash = "cdc76e5c9914fb9281a1c7e284d73e67f1809a48a497200e046d39ccc7112cd0";
    assert_eq!(sha256::hex(&million), hash);
}

#[test]
fn three_files_are_pinned() {
    let names = [
        "continuous/builder.rs",
        "ast/mod.rs",
        "execution/functions.rs",
    ];
    let pinned = Pinned::all(PINNED, Path::new("folder"));
    let files: Vec<_> = pinned.iter().map(|pinned| &pinned.file).collect();
    let due = names.map(|name| Path::new("folder/diffsl/src").join(name));
    assert_eq!(files, due.each_ref());
    assert!(pinned.iter().all(|pinned| pinned.hash.len() == 64));
}

#[test]
fn one_changed_byte_is_a_difference() {
    let folder = std::env::temp_dir().join(format!("pins-{}", std::process::id()));
    fs::create_dir_all(&folder).unwrap();
    let text = b"fn build() { }".to_vec();
    let list = format!("{}  file.rs\n", sha256::hex(&text));
    let pinned = Pinned::all(&list, &folder);
    let written = |bytes: &[u8]| {
        fs::write(folder.join("file.rs"), bytes).unwrap();
        pinned[0].difference()
    };
    assert_eq!(written(&text), None);
    for at in 0..text.len() {
        let mut changed = text.clone();
        changed[at] ^= 1;
        let difference = written(&changed).expect("another file");
        assert!(difference.contains("is not the original"), "{difference}");
    }
    fs::remove_dir_all(&folder).unwrap();
    assert!(pinned[0].difference().is_some());
}
