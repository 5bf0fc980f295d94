//! The words of answers, put onto a line.
use crate::{B, E, Fields, I, U};
use std::io::Write;

/// Words with a space between them: `words!(line, "block", start, end)`.
#[macro_export]
macro_rules! words {
    ($line:expr, $first:expr $(, $word:expr)*) => {{
        use std::io::Write;
        let line: &mut Vec<u8> = $line;
        write!(line, "{}", $first).unwrap();
        $(write!(line, " {}", $word).unwrap();)*
    }};
}

pub fn flag(yes: bool, line: &mut Vec<u8>) {
    line.extend(if yes { &b"yes"[..] } else { b"no" });
}

pub fn refused(k: u8, line: &mut Vec<u8>) {
    write!(line, "refused {k}").unwrap();
}

/// A space, and the bytes in hexadecimal digits.
pub fn bytes(bytes: &[u8], line: &mut Vec<u8>) {
    const DIGITS: &[u8; 16] = b"0123456789abcdef";
    line.push(b' ');
    if bytes.is_empty() {
        line.push(b'-');
    }
    for b in bytes {
        line.extend([DIGITS[(b >> 4) as usize], DIGITS[(b & 15) as usize]]);
    }
}

pub fn letters(flags: u8) -> String {
    let set: String = [(U, 'U'), (B, 'B'), (E, 'E'), (I, 'I')].iter().filter(|(bit, _)| flags & bit != 0).map(|(_, letter)| letter).collect();
    if set.is_empty() { "-".into() } else { set }
}

/// The letters of the marks of a chunk in flight: acknowledged, abandoned, to be sent again.
pub fn marks(acked: bool, abandoned: bool, retransmit: bool) -> String {
    let set: String = [(acked, 'A'), (abandoned, 'X'), (retransmit, 'R')].iter().filter(|(set, _)| *set).map(|(_, letter)| letter).collect();
    if set.is_empty() { "-".into() } else { set }
}

/// A space, and flags, TSN, stream, SSN and identifier.
pub fn fields(f: &Fields, line: &mut Vec<u8>) {
    write!(line, " {} {} {} {} {}", letters(f.flags), f.tsn, f.stream, f.ssn, f.identifier).unwrap();
}

/// A space and a number, for each.
pub fn list<T: std::fmt::Display>(numbers: impl IntoIterator<Item = T>, line: &mut Vec<u8>) {
    for n in numbers {
        write!(line, " {n}").unwrap();
    }
}

pub fn digest(numbers: impl IntoIterator<Item = u32>) -> u64 {
    numbers.into_iter().fold(0, |d, n| d % 4_294_967_291 * 31 + n as u64)
}
