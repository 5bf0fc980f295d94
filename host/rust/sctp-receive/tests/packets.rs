//! Document 02's packets, through the archive: the checksum, the common header, the walk over chunks and the writer, each refusal beside the case that is let in.
//! What is wanted comes from a model of its own: a sum bit by bit, and packets put together from their parts.
use sctp_receive::*;

const HEADER: CommonHeader = CommonHeader { source_port: 0x0102, destination_port: 0xFFFE, verification_tag: 0x0304_05FF };

/// RFC 4960, Appendix B: one bit at a time.
fn sum(bytes: &[u8]) -> u32 {
    let mut register = u32::MAX;
    for bit in bytes.iter().flat_map(|byte| (0..8).map(move |i| u32::from(byte >> i & 1))) {
        let out = register & 1 ^ bit;
        register >>= 1;
        if out == 1 {
            register ^= 0x82F6_3B78;
        }
    }
    !register
}

/// The packet of these bytes behind the common header.
fn packet(h: &CommonHeader, body: &[u8]) -> Vec<u8> {
    let mut whole = [h.source_port.to_be_bytes(), h.destination_port.to_be_bytes()].concat();
    whole.extend(h.verification_tag.to_be_bytes());
    whole.extend([0; 4]);
    whole.extend(body);
    let sum = sum(&whole);
    whole[8..12].copy_from_slice(&sum.to_le_bytes());
    whole
}

fn chunk(typ: u8, data: &[u8]) -> Vec<u8> {
    let length = (4 + data.len() as u16).to_be_bytes();
    [&[typ, 0, length[0], length[1]], data].concat()
}

fn padded(chunk: &[u8]) -> Vec<u8> {
    [chunk, &vec![0; chunk.len().next_multiple_of(4) - chunk.len()]].concat()
}

/// The chunk at the front of what is left: its length.
fn length(left: &[u8]) -> Result<usize, Error> {
    let [_, _, high, low, ..] = *left else { return Err(Error::NoHeader) };
    let length = usize::from(u16::from_be_bytes([high, low]));
    if length < 4 || left.len() < length { Err(Error::BadLength) } else { Ok(length) }
}

/// What a walk over bytes behind a common header hands out.
fn walked(mut left: &[u8]) -> Vec<Result<&[u8], Error>> {
    let mut all = Vec::new();
    while !left.is_empty() {
        match length(left) {
            Ok(n) => {
                all.push(Ok(&left[..n]));
                left = left.get(n.next_multiple_of(4)..).unwrap_or(&[]);
            }
            Err(refusal) => {
                all.push(Err(refusal));
                break;
            }
        }
    }
    all
}

/// Chunks that are lent back to back, each with its padding.
fn body(mut lent: &[u8]) -> Result<Vec<u8>, Error> {
    let mut all = Vec::new();
    while !lent.is_empty() {
        let (first, rest) = lent.split_at(length(lent)?);
        all.extend(padded(first));
        lent = rest;
    }
    Ok(all)
}

#[test]
fn sums() {
    assert_eq!(crc32c(b"123456789"), 0xE306_9283);
    assert_eq!((crc32c(&[]), crc32c(&[0; 32]), crc32c(&[255; 32])), (0, 0x8A91_36AA, 0x62A8_AB43)); // RFC 3720, B.4
    let bytes: Vec<u8> = (0..1500u32).map(|i| (i * i % 251) as u8).collect();
    for n in (0..300).chain([1023, 1024, 1025, 1499, 1500]) {
        assert_eq!(crc32c(&bytes[..n]), sum(&bytes[..n]), "{n} bytes");
    }
}

#[test]
fn read_and_written() {
    let (data, one) = (chunk(0, b"abcdefghijklm"), chunk(11, &[]));
    let mut out = [9; 40];
    assert_eq!(HEADER.marshal_to(&mut out, &[&data[..], &one].concat()), Ok(36));
    let wanted = [&data[..], &[0, 0, 0], &one].concat(); // 17 bytes and 3 of padding, then 4
    assert_eq!(&out[..8], [1, 2, 0xFF, 0xFE, 3, 4, 5, 0xFF]);
    assert_eq!((&out[..36], &out[36..]), (&packet(&HEADER, &wanted)[..], &[9; 4][..]));
    assert_eq!(CommonHeader::unmarshal(&out[..36]), Ok(HEADER));
    let mut walk = PacketChunks::new(&out[..36]);
    let first = walk.next().unwrap().unwrap();
    assert_eq!((first.as_ptr(), first, walk.place()), (out[12..].as_ptr(), &data[..], Some(32)));
    assert_eq!((walk.next(), walk.place()), (Some(Ok(&one[..])), Some(36)));
    assert_eq!((walk.next(), walk.next(), walk.place()), (None, None, Some(36)));
}

#[test]
fn what_the_header_refuses() {
    let whole = packet(&HEADER, &[]);
    assert_eq!((whole.len(), CommonHeader::unmarshal(&whole)), (12, Ok(HEADER)));
    for n in 0..12 {
        assert_eq!(CommonHeader::unmarshal(&whole[..n]), Err(Error::PacketRawTooSmall), "{n} bytes");
    }
    let mut whole = packet(&HEADER, &chunk(0, &[7; 80]));
    assert_eq!(CommonHeader::unmarshal(&whole), Ok(HEADER));
    assert_eq!(CommonHeader::unmarshal(&whole[..95]), Err(Error::ChecksumMismatch));
    for bit in 0..8 * whole.len() {
        whole[bit / 8] ^= 1 << (bit % 8);
        assert_eq!(CommonHeader::unmarshal(&whole), Err(Error::ChecksumMismatch), "bit {bit}");
        whole[bit / 8] ^= 1 << (bit % 8);
    }
    let mut swapped = whole.clone();
    swapped[8..12].reverse(); // the lowest byte stands first
    assert_eq!((CommonHeader::unmarshal(&swapped), CommonHeader::unmarshal(&whole)), (Err(Error::ChecksumMismatch), Ok(HEADER)));
}

#[test]
fn places() {
    let whole = packet(&HEADER, &chunk(0, &[7; 4]));
    let step = |at| PacketChunks::from_place(&whole, at).next();
    for at in [0, 11, 21, usize::MAX] {
        assert_eq!(step(at), Some(Err(Error::PastTheList)), "place {at}");
    }
    assert_eq!((step(12), step(20)), (Some(Ok(&whole[12..])), None));
    assert_eq!(PacketChunks::new(&whole[..11]).next(), Some(Err(Error::PastTheList))); // before all else
    assert_eq!(PacketChunks::new(&whole[..12]).next(), None);
    let mut walk = PacketChunks::from_place(&whole, 11);
    assert_eq!((walk.next(), walk.next(), walk.place()), (Some(Err(Error::PastTheList)), None, None)); // a refusal ends the walk
}

#[test]
fn what_a_step_refuses() {
    for (length, left, wanted) in [
        (4, 1, Err(Error::NoHeader)),
        (4, 3, Err(Error::NoHeader)),
        (4, 4, Ok((4, 16))),
        (3, 8, Err(Error::BadLength)),
        (0, 8, Err(Error::BadLength)),
        (9, 8, Err(Error::BadLength)),
        (8, 8, Ok((8, 20))),
        (5, 8, Ok((5, 20))),
        (5, 7, Ok((5, 19))), // rounding past the end finishes the walk
        (5, 9, Ok((5, 20))),
    ] {
        let mut raw = [7; 21];
        raw[14..16].copy_from_slice(&u16::to_be_bytes(length));
        let mut walk = PacketChunks::new(&raw[..12 + left]);
        let step = walk.next().unwrap();
        assert_eq!(step.map(|c| (c.len(), walk.place().unwrap())), wanted, "length {length} of {left}");
    }
}

#[test]
fn what_the_writer_refuses() {
    let (good, more) = (chunk(0, &[7; 5]), chunk(3, &[8; 65_531]));
    let mut out = vec![9; 65_560];
    let mut refused = |chunks: &[u8], room: usize| {
        let refusal = HEADER.marshal_to(&mut out[..room], chunks).unwrap_err();
        assert!(out.iter().all(|b| *b == 9));
        refusal
    };
    assert_eq!((refused(&[], 11), refused(&good, 23)), (Error::NoRoom, Error::NoRoom));
    for cut in 1..4 {
        assert_eq!(refused(&[&good[..], &good[..cut]].concat(), 65_560), Error::NoHeader);
        assert_eq!(refused(&[&good[..], &good[..cut]].concat(), 0), Error::NoHeader); // before 10
    }
    assert_eq!((refused(&good[..8], 65_560), refused(&good[..8], 0)), (Error::BadLength, Error::BadLength));
    assert_eq!(refused(&[0, 0, 0, 3, 0], 65_560), Error::BadLength);
    assert_eq!(refused(&[&[0, 0, 0, 3][..], &good[..3]].concat(), 65_560), Error::BadLength); // the first bad one decides
    assert_eq!(refused(&padded(&good), 65_560), Error::NoHeader); // padding is no chunk
    assert_eq!((HEADER.marshal_to(&mut out[..12], &[]), HEADER.marshal_to(&mut out[..24], &good)), (Ok(12), Ok(24)));
    assert_eq!(HEADER.marshal_to(&mut out, &more), Ok(65_548));
    assert_eq!(PacketChunks::new(&out[..65_548]).map(|c| c.unwrap().len()).collect::<Vec<_>>(), [65_535]);
}

/// A small generator (xorshift), so that the runs are the same everywhere.
struct Random(u64);

impl Random {
    fn below(&mut self, n: usize) -> usize {
        self.0 ^= self.0 << 13;
        self.0 ^= self.0 >> 7;
        self.0 ^= self.0 << 17;
        (self.0 >> 8) as usize % n
    }

    fn bytes(&mut self, n: usize) -> Vec<u8> {
        (0..n).map(|_| self.below(256) as u8).collect()
    }

    /// Up to four chunks; often a length is altered, or the end cut off.
    fn lent(&mut self) -> Vec<u8> {
        let mut lent = Vec::new();
        for _ in 0..self.below(5) {
            let size = [self.below(6), self.below(40), self.below(400)][self.below(3)];
            let at = lent.len();
            let (typ, data) = (self.below(256) as u8, self.bytes(size));
            lent.extend(chunk(typ, &data));
            if self.below(8) == 0 {
                lent[at + 3] = self.below(8) as u8;
            }
        }
        let cut = if self.below(4) == 0 { self.below(8).min(lent.len()) } else { 0 };
        lent.truncate(lent.len() - cut);
        lent
    }
}

#[test]
fn random_packets() {
    let (mut random, mut seen) = (Random(0x5EED_CAFE), [0; 4]);
    for _ in 0..4000 {
        let h = CommonHeader {
            source_port: random.below(65_536) as u16,
            destination_port: random.below(65_536) as u16,
            verification_tag: random.below(1 << 32) as u32,
        };
        let lent = random.lent();
        let room = random.below(1200);
        let old = random.bytes(room);
        let (mut out, answer) = (old.clone(), body(&lent).map(|body| packet(&h, &body)));
        let wanted = answer.and_then(|p| if out.len() < p.len() { Err(Error::NoRoom) } else { Ok(p) });
        assert_eq!(h.marshal_to(&mut out, &lent), wanted.as_ref().map(Vec::len).map_err(|e| *e));
        let written = wanted.as_deref().unwrap_or(&[]);
        assert_eq!((&out[..written.len()], &out[written.len()..]), (written, &old[written.len()..]));
        // What is read: the packet that was written, or lent bytes behind a header as they are.
        let raw = wanted.clone().unwrap_or_else(|_| packet(&h, &lent));
        assert_eq!((CommonHeader::unmarshal(&raw), crc32c(&raw)), (Ok(h), sum(&raw)));
        assert_eq!(PacketChunks::new(&raw).take(raw.len()).collect::<Vec<_>>(), walked(&raw[12..]));
        let mut other = raw.clone();
        other[random.below(raw.len())] ^= 1 << random.below(8);
        assert_eq!(CommonHeader::unmarshal(&other), Err(Error::ChecksumMismatch));
        seen[wanted.map_or_else(|e| [Error::NoHeader, Error::BadLength, Error::NoRoom].iter().position(|k| *k == e).unwrap(), |_| 3)] += 1;
    }
    assert!(seen.iter().all(|n| *n > 100), "{seen:?}");
}
