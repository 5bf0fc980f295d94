//! Document 02's causes of ERROR and ABORT, through the archive: what is wanted comes from a reader of its own, which takes the bytes apart one cause at a time
//! with a list of what is still to be read, and not by calling itself.
use sctp_receive::*;

type Cause = (u16, u16, u16, u16);

const FILL: u16 = 0xABCD;

/// The causes of a chunk, or the first fault.
fn wanted(kind: u8, raw: &[u8]) -> Result<Vec<Cause>, i32> {
    let header = |at: usize, end: usize| match end - at {
        0..=3 => Err(1),
        room => match usize::from(u16::from_be_bytes([raw[at + 2], raw[at + 3]])) {
            size if size < 4 || room < size => Err(2),
            size => Ok((raw[at], at + size)),
        },
    };
    let (typ, end) = header(0, raw.len())?;
    if typ != kind {
        return Err(3);
    }
    let (mut causes, mut open) = (Vec::new(), vec![(4, end)]);
    while let Some((at, end)) = open.pop() {
        if at >= end {
            continue;
        }
        if end - at < 4 {
            return Err(16);
        }
        let (code, size) = (u16::from_be_bytes([raw[at], raw[at + 1]]), usize::from(u16::from_be_bytes([raw[at + 2], raw[at + 3]])));
        if size < 4 || end - at < size {
            return Err(16);
        }
        causes.push((code, open.len() as u16, at as u16 + 4, size as u16 - 4));
        open.push((at + size.next_multiple_of(4), end));
        if code == 6 && size > 4 {
            let (typ, inner) = header(at + 4, at + size)?;
            if typ == 6 || typ == 9 {
                open.push((at + 8, inner));
            }
        }
    }
    Ok(causes)
}

/// What the library says, with lists of `room` places; what it left in them must be the causes in front and the filling behind, or all filling.
fn answered(kind: u8, raw: &[u8], room: [usize; 4]) -> Result<Vec<Cause>, i32> {
    let mut kept = room.map(|n| vec![FILL; n]);
    let [codes, depths, starts, sizes] = &mut kept;
    let mut lists = CauseLists { codes, depths, starts, sizes };
    let read = if kind == 9 { ChunkError::unmarshal(raw, &mut lists) } else { ChunkAbort::unmarshal(raw, &mut lists) };
    let n = read.unwrap_or(0);
    assert!(kept.iter().all(|list| list[n..].iter().all(|&x| x == FILL)), "what is behind the causes stays");
    read.map_err(|e| e as i32).map(|n| (0..n).map(|i| (kept[0][i], kept[1][i], kept[2][i], kept[3][i])).collect())
}

fn check(kind: u8, raw: &[u8]) {
    let want = wanted(kind, raw);
    let room = want.as_ref().map_or(0, Vec::len) + 3;
    assert_eq!(answered(kind, raw, [room; 4]), want, "{kind} {raw:02x?}");
    if let Ok(causes) = &want {
        let n = causes.len();
        assert_eq!(answered(kind, raw, [n; 4]), want, "lists that just fit");
        for short in 0..if n == 0 { 0 } else { 4 } {
            let mut room = [n; 4];
            room[short] -= 1;
            assert_eq!(answered(kind, raw, room), Err(10), "list {short} too short");
        }
    } else {
        assert_eq!(answered(kind, raw, [0; 4]), want, "a fault comes ahead of 10");
    }
}

fn cause(code: u16, value: &[u8]) -> Vec<u8> {
    let size = (4 + value.len() as u16).to_be_bytes();
    let code = code.to_be_bytes();
    [&[code[0], code[1], size[0], size[1]], value].concat()
}

fn chunk(typ: u8, value: &[u8]) -> Vec<u8> {
    let size = (4 + value.len() as u16).to_be_bytes();
    [&[typ, 0, size[0], size[1]], value].concat()
}

fn padded(cause: Vec<u8>) -> Vec<u8> {
    let size = cause.len().next_multiple_of(4);
    let mut cause = cause;
    cause.resize(size, 0);
    cause
}

#[test]
fn flat_causes() {
    for kind in [9, 6] {
        check(kind, &chunk(kind, &[]));
        check(kind, &chunk(kind, &cause(4, &[])));
        check(kind, &chunk(kind, &[padded(cause(12, b"gone!")), cause(13, b"x")].concat()));
        check(kind, &chunk(15 - kind, &cause(4, &[])));
        check(kind, &[kind, 0, 0]);
        check(kind, &[kind, 0, 0, 3]);
        check(kind, &[kind, 0, 0, 5]);
    }
    let two = chunk(9, &[padded(cause(12, b"gone!")), cause(13, b"x")].concat());
    assert_eq!(wanted(9, &two), Ok(vec![(12, 0, 8, 5), (13, 0, 20, 1)]));
}

#[test]
fn enclosed_chunks() {
    let inner = chunk(6, &[padded(cause(2, b"abcde")), cause(6, &[])].concat());
    let whole = chunk(9, &[padded(cause(6, &[&inner[..], b"past it"].concat())), cause(1, b"7")].concat());
    assert_eq!(wanted(9, &whole), Ok(vec![(6, 0, 8, 27), (2, 1, 16, 5), (6, 1, 28, 0), (1, 0, 40, 1)]));
    check(9, &whole);
    for value in [&[][..], &[9], &[9, 0, 0], &[9, 0, 0, 3], &[9, 0, 0, 5], &[9, 0, 0, 5, 0], &[9, 0, 0, 8, 0, 1, 0, 3], &[0, 0, 0, 5, 1]] {
        check(9, &chunk(9, &cause(6, value)));
        check(6, &chunk(6, &cause(6, value)));
        check(9, &chunk(9, &cause(7, value)));
    }
}

/// The deepest nesting that fits one chunk, on a thread with a stack of 1.5 MiB.
#[test]
fn the_deepest_nesting() {
    std::thread::Builder::new().stack_size(3 << 19).spawn(deepest).unwrap().join().unwrap();
}

/// Each level takes 8 bytes.
fn deepest() {
    let mut raw = Vec::new();
    let mut left = 65_535u16;
    while left >= 8 {
        raw.extend([[9, 0], left.to_be_bytes(), [0, 6], (left - 4).to_be_bytes()].concat());
        left -= 8;
    }
    raw.extend([9, 0, 0, 7, 0, 0, 0]);
    assert_eq!(raw.len(), 65_535);
    check(9, &raw);
    let end = raw.len() - 7;
    raw[end + 3] = 4;
    check(9, &raw);
    assert_eq!(wanted(9, &raw).map(|causes| causes.len()), Ok(8191));
}

/// A chunk full of empty causes.
#[test]
fn the_most_causes() {
    let raw = chunk(6, &cause(1, &[]).repeat(16_382));
    check(6, &raw);
    assert_eq!(wanted(6, &raw).map(|causes| causes.len()), Ok(16_382));
}

/// Every byte of a nesting altered, and every chunk cut short.
#[test]
fn damaged_chunks() {
    let inner = chunk(9, &[padded(cause(6, &chunk(6, &cause(3, b"abc")))), cause(8, b"d")].concat());
    let whole = chunk(6, &[padded(cause(6, &inner)), padded(cause(6, &chunk(0, b"data"))), cause(5, &[])].concat());
    for at in 0..whole.len() {
        for byte in 0..=255 {
            let mut raw = whole.clone();
            raw[at] = byte;
            check(6, &raw);
        }
    }
    for size in 4..=whole.len() {
        let mut raw = whole[..size].to_vec();
        raw[3] = size as u8;
        check(6, &raw);
    }
}
