//! Document 02's packets: what the Rust has of them, and the ways in which it parts from the document, each as the fewest bytes that show it.
mod common;
use calls::Call;
use common::*;

/// Ports 5000 and 5001, tag 1, no chunk.
const EMPTY: &str = "13 88 13 89 00 00 00 01 e2 10 2f 2d";
const PADDED: &str = "13 88 13 89 00 00 00 01 14 d9 fb 6d 0a 00 00 05 61 00 00 00";

fn header(raw: &str) -> Call {
    Call::Packet { raw: hex(raw) }
}

fn walk(raw: &str) -> Call {
    Call::PacketWalk { raw: hex(raw) }
}

fn written(room: u32, chunks: &[u8]) -> Call {
    Call::PacketMarshal { room, fill: 0xee, source: 5_000, destination: 5_001, tag: 1, chunks: chunks.to_vec() }
}

#[test]
fn sums() {
    let sum = |raw: Vec<u8>| Call::Crc32c { raw };
    answered(&[
        (sum(b"123456789".to_vec()), "number 3808858755"),
        (sum(vec![0; 32]), "number 2324772522"),
        (sum(vec![255; 32]), "number 1655221059"),
        (sum((0..32).collect()), "number 1188919630"),
        (sum((0..32).rev().collect()), "number 289397596"),
        (sum(vec![]), "number 0"),
    ]);
}

#[test]
fn common_headers() {
    let mut reversed = hex(EMPTY);
    reversed[8..].reverse();
    answered(&[
        (header(EMPTY), "packet 5000 5001 1"),
        (header(PADDED), "packet 5000 5001 1"),
        (Call::Packet { raw: hex(EMPTY)[..11].to_vec() }, "refused 13"),
        (Call::Packet { raw: vec![0; 12] }, "refused 14"),
        (Call::Packet { raw: reversed }, "refused 14"),
    ]);
}

#[test]
fn walked_and_written() {
    answered(&[
        (walk(EMPTY), "walk | 12 none"),
        (walk(PADDED), "walk | 12 5 | 20 none"),
        (Call::PacketWalk { raw: vec![0; 12] }, "refused 14"),
        (written(13, &[]), "wrote 12 1388138900000001e2102f2dee"),
        (written(20, &[10, 0, 0, 5, 97]), "wrote 20 138813890000000114d9fb6d0a00000561000000"),
        (written(19, &[10, 0, 0, 5, 97]), "no such answer"),
        (written(20, &[10, 0, 0, 5]), "no such call"),
        (written(20, &[5, 0, 0, 4]), "no such call"),
        (Call::PacketChunk { raw: hex(EMPTY), place: 12 }, "no such call"),
        (Call::PacketBytes { raw: hex(EMPTY), place: 12 }, "no such call"),
    ]);
}

#[test]
fn the_common_header_comes_with_the_first_chunk() {
    answered(&[
        (header("13 88 13 89 00 00 00 01 ac a4 5b 50 00"), "error ErrParseSctpChunkNotEnoughData"),
        (header("13 88 13 89 00 00 00 01 fe 0f 95 f4 0a 00 00 03"), "refused 2"),
    ]);
}

#[test]
fn a_last_chunk_without_its_padding_is_not_taken() {
    let unpadded = "13 88 13 89 00 00 00 01 5f 57 fd f7 0a 00 00 05 61";
    answered(&[(header(unpadded), "packet 5000 5001 1"), (walk(unpadded), "error ErrParseSctpChunkNotEnoughData")]);
}

#[test]
fn the_walk_goes_by_the_length_that_is_written() {
    let sack = "03 00 00 14 00 00 00 01 00 00 00 02 00 00 00 00";
    answered(&[
        (walk("13 88 13 89 00 00 00 01 aa e2 ce cb 0b 00 00 08 0b 00 00 04"), "walk | 12 4 | 16 4 | 20 none"),
        (walk(&format!("13 88 13 89 00 00 00 01 3f 45 38 55 {sack} 0b 00 00 04")), "walk | 12 16 | 28 4 | 32 none"),
        (walk(&format!("13 88 13 89 00 00 00 01 ff 38 c4 06 {sack} 00 00 00 00")), "refused 2"),
    ]);
}

#[test]
fn a_chunk_of_another_kind_ends_the_packet() {
    answered(&[
        (walk("13 88 13 89 00 00 00 01 30 c3 7f 41 ff 00 00 04"), "error ErrUnmarshalUnknownChunkType"),
        (walk("13 88 13 89 00 00 00 01 39 b0 1b cf 05 00 00 04"), "error ErrUnmarshalUnknownChunkType"),
    ]);
}
