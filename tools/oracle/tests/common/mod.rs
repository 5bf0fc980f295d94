//! Short forms of calls, and a list of calls held against the answers that are due.
#![allow(dead_code)]
use calls::{Answers, Call, Data, Fields};
use oracle::Oracle;

/// One answer.
pub fn answer(oracle: &mut Oracle, call: &Call) -> String {
    let mut line = Vec::new();
    oracle.answer(call, &mut line);
    String::from_utf8(line).unwrap()
}

/// From the state at the beginning, every call is answered with the line beside it.
pub fn answered(list: &[(Call, &str)]) {
    let mut oracle = Oracle::new();
    for (i, (call, due)) in list.iter().enumerate() {
        assert_eq!(answer(&mut oracle, call), *due, "call {} of {}: {call:?}", i + 1, list.len());
    }
}

/// Fields of a chunk of stream 0, with identifier 53.
pub fn fields(flags: u8, tsn: u32, ssn: u16) -> Fields {
    Fields { flags, tsn, stream: 0, ssn, identifier: 53 }
}

/// A push of that many bytes 61, 62, 63 and so on.
pub fn push(flags: u8, tsn: u32, ssn: u16, size: u32) -> Call {
    Call::RqPush { fields: fields(flags, tsn, ssn), data: Data { size, seed: 0x61 } }
}

pub fn read(room: u32) -> Call {
    Call::RqRead { room, fill: 0 }
}

/// A push of an empty chunk onto the TSN queue.
pub fn queued(tsn: u32, cumulative: u32) -> Call {
    Call::PqPush { fields: fields(calls::B | calls::E, tsn, 0), size: 0, cumulative }
}

/// The bytes of digits such as "00 03".
pub fn hex(digits: &str) -> Vec<u8> {
    digits.split(' ').map(|two| u8::from_str_radix(two, 16).unwrap()).collect()
}
