//! What the build checks before it builds sctp-proto's files.
#[path = "../sha256.rs"]
mod sha256;
#[path = "../sources.rs"]
mod sources;

use std::collections::BTreeSet;
use std::fs;
use std::path::PathBuf;

/// FIPS 180-4's examples and the empty message.
#[test]
fn published_sums() {
    assert_eq!(sha256::sum(b""), "e3b0c44298fc1c149afbf4c8996fb92427ae41e4649b934ca495991b7852b855");
    assert_eq!(sha256::sum(b"abc"), "ba7816bf8f01cfea414140de5dae2223b00361a396177a9cb410ff61f20015ad");
    let two_blocks = b"abcdbcdecdefdefgefghfghighijhijkijkljklmklmnlmnomnopnopq";
    assert_eq!(sha256::sum(two_blocks), "248d6a61d20638b8e5c026930c3e6039a33ce45964ff2167f6ecedd419db06c1");
    assert_eq!(sha256::sum(&vec![b'a'; 1_000_000]), "cdc76e5c9914fb9281a1c7e284d73e67f1809a48a497200e046d39ccc7112cd0");
}

fn folder(name: &str) -> PathBuf {
    let folder = PathBuf::from(env!("CARGO_TARGET_TMPDIR")).join(name);
    let _ = fs::remove_dir_all(&folder);
    fs::create_dir_all(folder.join("src/queue")).unwrap();
    folder
}

#[test]
fn a_file_with_the_right_sum_is_taken() {
    let folder = folder("right");
    fs::write(folder.join("src/queue/some.rs"), "abc").unwrap();
    assert_eq!(sources::file(&folder, "queue/some.rs", &sha256::sum(b"abc")).unwrap().1, b"abc");
}

#[test]
fn a_changed_file_is_named() {
    let folder = folder("changed");
    fs::write(folder.join("src/queue/some.rs"), "abd").unwrap();
    let wrong = sources::file(&folder, "queue/some.rs", &sha256::sum(b"abc")).unwrap_err();
    assert!(wrong.starts_with("queue/some.rs is not sctp-proto 0.10.8's"), "{wrong}");
}

#[test]
fn a_missing_file_is_named() {
    let wrong = sources::file(&folder("missing"), "queue/some.rs", &sha256::sum(b"abc")).unwrap_err();
    assert!(wrong.starts_with("queue/some.rs is not under ") && wrong.contains("SCTP_PROTO_SRC"), "{wrong}");
}

/// Every file of the list once, each with a sum.
#[test]
fn the_list_names_37_files() {
    let list = sources::list(include_str!("../SOURCES.sha256"));
    let paths: BTreeSet<_> = list.iter().map(|(_, path)| path).collect();
    assert_eq!((list.len(), paths.len()), (37, 37));
    assert!(list.iter().all(|(sum, path)| sum.len() == 64 && path.ends_with(".rs")));
}
