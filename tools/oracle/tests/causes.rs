//! ERROR and ABORT: how the Rust reads causes, and the ways in which it parts from document 02, each as the fewest bytes that show it.
mod common;
use calls::Call;
use common::*;

fn error(raw: &str) -> Call {
    Call::ErrorUnmarshal { raw: hex(raw), codes: 3, depths: 3, starts: 3, sizes: 3, fill: 7 }
}

fn abort(raw: &str) -> Call {
    Call::AbortUnmarshal { raw: hex(raw), codes: 3, depths: 3, starts: 3, sizes: 3, fill: 7 }
}

#[test]
fn causes_of_whole_words() {
    answered(&[
        (error("09 00 00 04"), "causes 0 codes 7 7 7 depths 7 7 7 starts 7 7 7 sizes 7 7 7"),
        (error("09 00 00 10 00 0c 00 08 61 62 63 64 00 01 00 04"), "causes 2 codes 12 1 7 depths 0 0 7 starts 8 16 7 sizes 4 0 7"),
        (abort("06 01 00 09 00 0c 00 05 61"), "causes 1 codes 12 7 7 depths 0 7 7 starts 8 7 7 sizes 1 7 7"),
        (error("06 00 00 04"), "refused 3 codes 7 7 7 depths 7 7 7 starts 7 7 7 sizes 7 7 7"),
        (abort("09 00 00 04"), "refused 3 codes 7 7 7 depths 7 7 7 starts 7 7 7 sizes 7 7 7"),
        (error("09 00 00 08 00 01 00 03"), "refused 16 codes 7 7 7 depths 7 7 7 starts 7 7 7 sizes 7 7 7"),
        (error("09 00 00 08 00 01 00 05"), "refused 16 codes 7 7 7 depths 7 7 7 starts 7 7 7 sizes 7 7 7"),
    ]);
}

/// Ours: causes 2, the second one at byte 12.
#[test]
fn the_next_cause_is_not_rounded() {
    answered(&[(error("09 00 00 10 00 0c 00 05 61 00 00 00 00 01 00 04"), "refused 16 codes 7 7 7 depths 7 7 7 starts 7 7 7 sizes 7 7 7")]);
}

/// Ours: causes 2, the second one at depth 1.
#[test]
fn an_enclosed_chunk_is_not_followed() {
    answered(&[
        (error("09 00 00 10 00 06 00 0c 06 00 00 08 00 0c 00 04"), "causes 1 codes 6 7 7 depths 0 7 7 starts 8 7 7 sizes 8 7 7"),
        (error("09 00 00 0c 00 06 00 08 09 00 00 03"), "causes 1 codes 6 7 7 depths 0 7 7 starts 8 7 7 sizes 4 7 7"),
    ]);
}

/// Ours: 16.
#[test]
fn bytes_where_a_cause_should_start_are_ignored() {
    answered(&[(error("09 00 00 05 00"), "causes 0 codes 7 7 7 depths 7 7 7 starts 7 7 7 sizes 7 7 7"), (abort("06 00 00 07 00 01 00"), "causes 0 codes 7 7 7 depths 7 7 7 starts 7 7 7 sizes 7 7 7")]);
}
