//! Document 02's packets: published sums, and each sentence of M-103.
use super::Model;
use calls::{Answers, Call};

fn line(call: Call) -> String {
    let mut line = Vec::new();
    Model::new().answer(&call, &mut line);
    String::from_utf8(line).unwrap()
}

fn hex(text: &str) -> Vec<u8> {
    text.split(' ').map(|byte| u8::from_str_radix(byte, 16).unwrap()).collect()
}

/// Ports 5000 and 5001, tag 1, COOKIE ECHO with one byte.
const PACKET: &str = "13 88 13 89 00 00 00 01 14 D9 FB 6D 0A 00 00 05 61 00 00 00";

/// The chunk, and the walk, of these bytes behind a common header.
fn at(body: &[u8], place: u64) -> String {
    line(Call::PacketChunk { raw: [&[0; 12], body].concat(), place })
}

fn walk(body: &[u8]) -> String {
    line(Call::PacketWalk { raw: [&[0; 12], body].concat() })
}

fn written(room: u32, chunks: &[u8]) -> String {
    line(Call::PacketMarshal { room, fill: 0xEE, source: 5_000, destination: 5_001, tag: 1, chunks: chunks.to_vec() })
}

#[test]
fn published_sums() {
    let sum = |raw: Vec<u8>| line(Call::Crc32c { raw });
    assert_eq!(sum(b"123456789".to_vec()), format!("number {}", 0xE306_9283u32));
    assert_eq!([sum(vec![0; 32]), sum(vec![255; 32])], [0x8A91_36AAu32, 0x62A8_AB43].map(|n| format!("number {n}")));
    assert_eq!([sum((0..32).collect()), sum((0..32).rev().collect())], [0x46DD_794Eu32, 0x113F_DB5C].map(|n| format!("number {n}")));
    assert_eq!(sum(vec![]), "number 0");
}

#[test]
fn the_common_header() {
    let read = |raw: Vec<u8>| line(Call::Packet { raw });
    assert_eq!(read(hex(PACKET)), "packet 5000 5001 1");
    assert_eq!([read(vec![]), read(hex(PACKET)[..11].to_vec()), read(vec![0; 12])], ["refused 13", "refused 13", "refused 14"]);
    for at in 0..20 {
        let mut raw = hex(PACKET);
        raw[at] ^= 1;
        assert_eq!(read(raw), "refused 14", "byte {at}");
    }
}

#[test]
fn chunks_at_places() {
    let four = [1, 2, 0, 4];
    assert_eq!([at(&four, 0), at(&four, 11), at(&four, 17), at(&four, u64::MAX), at(&[0], 11)], ["refused 11"; 5]);
    assert_eq!([at(&four, 12), at(&four, 16), at(&[], 12)], ["chunk 16 16", "none", "none"]);
    assert_eq!([at(&[0], 12), at(&[0; 3], 12), at(&four, 13)], ["refused 1"; 3]);
    assert_eq!([0, 1, 2, 3, 5].map(|length| at(&[1, 2, 0, length], 12)), ["refused 2"; 5]);
    assert_eq!([5, 6, 7, 8].map(|length| at(&[1, 2, 0, length, 9, 9, 9, 9, 9], 12)), ["chunk 17 20", "chunk 18 20", "chunk 19 20", "chunk 20 20"]);
    assert_eq!([at(&[1, 2, 0, 5, 9], 12), at(&[1, 2, 0, 5, 9, 9], 12)], ["chunk 17 17", "chunk 17 18"]);
    let bytes = |place| line(Call::PacketBytes { raw: hex(PACKET), place });
    assert_eq!([bytes(12), bytes(11), bytes(20), bytes(17)], ["part 0a00000561", "part -", "part -", "part -"]);
}

#[test]
fn walks() {
    assert_eq!([walk(&[]), walk(&[0]), walk(&[1, 2, 0, 3])], ["walk | 12 none", "walk | 12 refused 1", "walk | 12 refused 2"]);
    assert_eq!(walk(&[1, 2, 0, 5, 9, 9, 9, 9, 1, 2, 0, 6, 9, 9]), "walk | 12 5 | 20 6 | 26 none");
    assert_eq!(walk(&[1, 2, 0, 4, 9]), "walk | 12 4 | 16 refused 1");
    assert_eq!(line(Call::PacketWalk { raw: vec![0; 11] }), "walk | 12 refused 11");
}

#[test]
fn packets_that_are_written() {
    assert_eq!(written(21, &[10, 0, 0, 5, 97]), "wrote 20 138813890000000114d9fb6d0a00000561000000ee");
    assert_eq!(written(12, &[]), "wrote 12 1388138900000001e2102f2d");
    assert_eq!([written(19, &[10, 0, 0, 5, 97]), written(0, &[])], [format!("refused 10 {}", "ee".repeat(19)), "refused 10 -".into()]);
    assert_eq!([written(0, &[0]), written(2, &[10, 0, 0, 4, 0]), written(0, &[10, 0, 0, 3]), written(2, &[10, 0, 0, 3, 0])], ["refused 1 -", "refused 1 eeee", "refused 2 -", "refused 2 eeee"]);
    let two = written(28, &[10, 0, 0, 5, 97, 11, 0, 0, 4]);
    assert!(two.starts_with("wrote 24 ") && two.ends_with("0a000005610000000b000004eeeeeeee"), "{two}");
}
