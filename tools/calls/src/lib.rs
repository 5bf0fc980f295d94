//! Calls and answers in the form of docs/CALLS.md: what `replies`, the oracle and the model read and write.

pub mod line;

/// Most bytes of a `raw`, a `data` or a lent buffer.
pub const BYTES_MOST: usize = 65_600;
/// Most numbers of a list, or of a lent list.
pub const LIST_MOST: usize = 16_400;
/// Most places of a lent list of causes.
pub const CAUSES_MOST: usize = 10_000;
/// The bytes of the pool, of which a part is lent.
pub const POOL: usize = 72_000;

/// The fields of a DATA chunk before its data.
#[derive(Clone, Copy, Debug, Default, PartialEq, Eq)]
pub struct Fields {
    pub flags: u8,
    pub tsn: u32,
    pub stream: u16,
    pub ssn: u16,
    pub identifier: u32,
}

pub const E: u8 = 1;
pub const B: u8 = 2;
pub const U: u8 = 4;
pub const I: u8 = 8;

/// Bytes that are told by their number and the first one.
#[derive(Clone, Copy, Debug, Default, PartialEq, Eq)]
pub struct Data {
    pub size: u32,
    pub seed: u8,
}

impl Data {
    pub fn bytes(self) -> Vec<u8> {
        (0..self.size).map(|i| (self.seed as u32).wrapping_add(i).wrapping_add(i / 256) as u8).collect()
    }
}

macro_rules! calls {
    ($($number:literal $name:ident { $($field:ident : $kind:ty),* })*) => {
        #[derive(Clone, Debug, PartialEq, Eq)]
        pub enum Call { $($name { $($field: $kind),* }),* }

        impl Call {
            pub const NAMES: &'static [(u8, &'static str)] = &[$(($number, stringify!($name))),*];

            pub fn number(&self) -> u8 {
                match self { $(Call::$name { .. } => $number),* }
            }

            pub fn name(&self) -> &'static str {
                match self { $(Call::$name { .. } => stringify!($name)),* }
            }

            /// The call's bytes, behind those that are there.
            pub fn encode(&self, out: &mut Vec<u8>) {
                out.push(self.number());
                match self { $(Call::$name { $($field),* } => { $(Operand::put($field, out);)* }),* }
            }

            /// The call that a stream begins with, which moves on behind it; None where it is malformed.
            pub fn decode(stream: &mut &[u8]) -> Option<Call> {
                let number = u8::get(stream)?;
                let call = match number {
                    $($number => Call::$name { $($field: Operand::get(stream)?),* },)*
                    _ => return None,
                };
                call.allowed().then_some(call)
            }
        }
    };
}

calls! {
    1 Sna32 { a: u32, b: u32 }
    2 Sna16 { a: u16, b: u16 }
    3 TsnDistance { a: u32, b: u32 }
    4 SsnDistance { a: u16, b: u16 }
    5 Header { raw: Vec<u8> }
    6 DataUnmarshal { raw: Vec<u8> }
    7 DataUserData { raw: Vec<u8> }
    8 DataMarshal { room: u32, fill: u8, fields: Fields, data: Data }
    9 SackUnmarshal { raw: Vec<u8> }
    10 SackBlocks { raw: Vec<u8> }
    11 SackDuplicates { raw: Vec<u8> }
    12 SackBlockAt { part: Vec<u8>, index: u64 }
    13 SackDuplicateAt { part: Vec<u8>, index: u64 }
    14 SackMarshal { room: u32, fill: u8, cumulative: u32, window: u32, starts: Vec<u16>, ends: Vec<u16>, duplicates: Vec<u32> }
    16 PqNew { }
    17 PqCanPush { tsn: u32, cumulative: u32 }
    18 PqPush { fields: Fields, size: u16, cumulative: u32 }
    19 PqPop { tsn: u32 }
    20 PqPopUpTo { tsn: u32 }
    21 PqGet { tsn: u32 }
    22 PqPopDuplicates { }
    23 PqGapAckBlocks { cumulative: u32, starts: u16, ends: u16, fill: u16 }
    24 PqLastTsn { }
    25 PqNumBytes { }
    26 PqLen { }
    27 PqIsEmpty { }
    28 PqContainsStream { stream: u16 }
    29 PqState { }
    30 PqForge { field: u8, index: u16, value: u64 }
    31 PqWhole { }
    32 RqNew { stream: u16, maximum: u32 }
    33 RqPush { fields: Fields, data: Data }
    34 RqIsReadable { }
    35 RqRead { room: u32, fill: u8 }
    36 RqForwardOrdered { ssn: u16 }
    37 RqForwardUnordered { tsn: u32 }
    38 RqNumBytes { }
    39 RqState { }
    40 RqForge { field: u8, index: u16, value: u64 }
    41 RqWhole { }
    42 RqForwardOrderedBounded { ssn: u16, tsn: u32 }
    43 RqApplicableForward { ssn: u16, tsn: u32, peer: u32 }
    48 MLen { }
    49 MIsEmpty { }
    50 MRead { room: u32, fill: u8 }
    51 MNext { most: u64 }
    52 MForge { field: u8, value: u64 }
    53 FwdUnmarshal { raw: Vec<u8> }
    54 FwdStreams { raw: Vec<u8> }
    55 FwdStreamAt { part: Vec<u8>, index: u64 }
    56 FwdMarshal { room: u32, fill: u8, point: u32, streams: Vec<u16>, ssns: Vec<u16> }
    57 PqApplyForward { cumulative: u32, point: u32 }
    58 RqApplyForward { part: Vec<u8>, cumulative: u32, point: u32 }
    59 Crc32c { raw: Vec<u8> }
    60 Packet { raw: Vec<u8> }
    61 PacketChunk { raw: Vec<u8>, place: u64 }
    62 PacketBytes { raw: Vec<u8>, place: u64 }
    63 PacketWalk { raw: Vec<u8> }
    64 PacketMarshal { room: u32, fill: u8, source: u16, destination: u16, tag: u32, chunks: Vec<u8> }
    65 ErrorUnmarshal { raw: Vec<u8>, codes: u16, depths: u16, starts: u16, sizes: u16, fill: u16 }
    66 AbortUnmarshal { raw: Vec<u8>, codes: u16, depths: u16, starts: u16, sizes: u16, fill: u16 }
    67 TsnCompare { a: u32, b: u32 }
    68 SsnCompare { a: u16, b: u16 }
    69 IqNew { }
    70 IqPush { fields: Fields, size: u16, message: u64 }
    71 IqAcked { tsn: u32 }
    72 IqRetransmit { }
    73 IqAbandon { message: u64 }
    74 IqPop { tsn: u32 }
    75 IqPopUpTo { tsn: u32 }
    76 IqGet { tsn: u32 }
    77 IqNumBytes { }
    78 IqLen { }
    79 IqIsEmpty { }
    80 IqState { }
    81 IqForge { field: u8, index: u16, value: u64 }
    82 IqWhole { }
}

impl Call {
    /// Whether every operand is one that the form lets in.
    fn allowed(&self) -> bool {
        match self {
            Call::DataMarshal { room, .. }
            | Call::SackMarshal { room, .. }
            | Call::FwdMarshal { room, .. }
            | Call::PacketMarshal { room, .. }
            | Call::RqRead { room, .. }
            | Call::MRead { room, .. } => *room as usize <= BYTES_MOST,
            Call::PqGapAckBlocks { starts, ends, .. } => (*starts).max(*ends) as usize <= LIST_MOST,
            Call::ErrorUnmarshal { codes, depths, starts, sizes, .. } | Call::AbortUnmarshal { codes, depths, starts, sizes, .. } => {
                *codes.max(depths).max(starts).max(sizes) as usize <= CAUSES_MOST
            }
            Call::PqForge { field, .. } => *field <= 4,
            Call::RqForge { field, .. } => *field <= 9,
            Call::MForge { field, .. } | Call::IqForge { field, .. } => *field <= 3,
            _ => true,
        }
    }
}

/// What stands in a stream.
trait Operand: Sized {
    fn put(&self, out: &mut Vec<u8>);
    fn get(stream: &mut &[u8]) -> Option<Self>;
}

macro_rules! numbers {
    ($($kind:ty)*) => { $(
        impl Operand for $kind {
            fn put(&self, out: &mut Vec<u8>) {
                out.extend(self.to_be_bytes());
            }
            fn get(stream: &mut &[u8]) -> Option<Self> {
                let (head, rest) = stream.split_first_chunk()?;
                *stream = rest;
                Some(Self::from_be_bytes(*head))
            }
        }
    )* };
}
numbers! { u8 u16 u32 u64 }

impl Operand for Vec<u8> {
    fn put(&self, out: &mut Vec<u8>) {
        (self.len() as u32).put(out);
        out.extend(self);
    }
    fn get(stream: &mut &[u8]) -> Option<Self> {
        let n = u32::get(stream)? as usize;
        if n > BYTES_MOST || n > stream.len() {
            return None;
        }
        let (head, rest) = stream.split_at(n);
        *stream = rest;
        Some(head.to_vec())
    }
}

macro_rules! lists {
    ($($kind:ty)*) => { $(
        impl Operand for Vec<$kind> {
            fn put(&self, out: &mut Vec<u8>) {
                (self.len() as u16).put(out);
                self.iter().for_each(|n| n.put(out));
            }
            fn get(stream: &mut &[u8]) -> Option<Self> {
                let n = u16::get(stream)? as usize;
                if n > LIST_MOST { None } else { (0..n).map(|_| Operand::get(stream)).collect() }
            }
        }
    )* };
}
lists! { u16 u32 }

impl Operand for Data {
    fn put(&self, out: &mut Vec<u8>) {
        self.size.put(out);
        self.seed.put(out);
    }
    fn get(stream: &mut &[u8]) -> Option<Self> {
        let data = Data { size: u32::get(stream)?, seed: u8::get(stream)? };
        (data.size as usize <= BYTES_MOST).then_some(data)
    }
}

impl Operand for Fields {
    fn put(&self, out: &mut Vec<u8>) {
        self.flags.put(out);
        self.tsn.put(out);
        self.stream.put(out);
        self.ssn.put(out);
        self.identifier.put(out);
    }
    fn get(stream: &mut &[u8]) -> Option<Self> {
        Some(Fields {
            flags: u8::get(stream)? & 15,
            tsn: u32::get(stream)?,
            stream: u16::get(stream)?,
            ssn: u16::get(stream)?,
            identifier: u32::get(stream)?,
        })
    }
}

/// What answers calls: the oracle, the model.
pub trait Answers {
    /// One line, without its end, onto those bytes.
    fn answer(&mut self, call: &Call, line: &mut Vec<u8>);
}

/// Answers a whole stream, one line to a call.
pub fn reply(who: &mut impl Answers, mut stream: &[u8], out: &mut Vec<u8>) {
    let mut n = 0;
    while !stream.is_empty() {
        n += 1;
        match Call::decode(&mut stream) {
            Some(call) => who.answer(&call, out),
            None => {
                out.extend(format!("malformed call {n}\n").bytes());
                return;
            }
        }
        out.push(b'\n');
    }
}

#[cfg(test)]
mod tests {
    use super::*;

    #[test]
    fn what_was_encoded_is_decoded() {
        let calls = [
            Call::SackMarshal { room: 9, fill: 7, cumulative: 1, window: 2, starts: vec![1, 2], ends: vec![3], duplicates: vec![4, 5, 6] },
            Call::RqPush { fields: Fields { flags: 3, tsn: 1 << 31, stream: 2, ssn: 65535, identifier: 51 }, data: Data { size: 300, seed: 250 } },
            Call::DataUnmarshal { raw: vec![0, 3, 0, 16] },
            Call::MNext { most: u64::MAX },
            Call::PqNew {},
            Call::FwdMarshal { room: 12, fill: 7, point: 1, streams: vec![2, 3], ssns: vec![4] },
            Call::FwdStreamAt { part: vec![0, 1, 0, 2], index: 1 << 40 },
            Call::RqApplyForward { part: vec![0, 1, 0, 2, 9], cumulative: 1, point: 1 << 31 },
            Call::PqApplyForward { cumulative: 3, point: 4 },
            Call::PacketChunk { raw: vec![7; 13], place: 1 << 40 },
            Call::PacketMarshal { room: 16, fill: 7, source: 1, destination: 2, tag: 3, chunks: vec![1, 0, 0, 4] },
            Call::IqPush { fields: Fields { flags: 5, tsn: 9, stream: 1, ssn: 2, identifier: 53 }, size: 7, message: u64::MAX },
            Call::IqForge { field: 3, index: 1_023, value: 1 << 63 },
        ];
        let mut stream = Vec::new();
        calls.iter().for_each(|c| c.encode(&mut stream));
        let mut left = &stream[..];
        for call in &calls {
            assert_eq!(Call::decode(&mut left).as_ref(), Some(call));
        }
        assert!(left.is_empty());
    }

    #[test]
    fn malformed_streams_are_none() {
        for bytes in [&[0u8][..], &[15], &[67], &[255], &[1, 0, 0], &[5, 0, 1, 0, 65], &[30, 5, 0, 0, 0, 0, 0, 0, 0, 0, 0, 0]] {
            assert_eq!(Call::decode(&mut &bytes[..]), None, "{bytes:?}");
        }
    }

    #[test]
    fn operands_of_forward_tsn_stand_in_the_order_of_the_table() {
        let encoded = |call: Call| {
            let mut stream = Vec::new();
            call.encode(&mut stream);
            stream
        };
        assert_eq!(encoded(Call::PqApplyForward { cumulative: 1, point: 2 }), [57, 0, 0, 0, 1, 0, 0, 0, 2]);
        let applied = Call::RqApplyForward { part: vec![7], cumulative: 1, point: 2 };
        assert_eq!(encoded(applied), [58, 0, 0, 0, 1, 7, 0, 0, 0, 1, 0, 0, 0, 2]);
        let written = Call::FwdMarshal { room: 1, fill: 2, point: 3, streams: vec![4], ssns: vec![5] };
        assert_eq!(encoded(written), [56, 0, 0, 0, 1, 2, 0, 0, 0, 3, 0, 1, 0, 4, 0, 1, 0, 5]);
    }

    #[test]
    fn operands_of_packets_stand_in_the_order_of_the_table() {
        let mut stream = Vec::new();
        Call::PacketMarshal { room: 1, fill: 2, source: 3, destination: 4, tag: 5, chunks: vec![6] }.encode(&mut stream);
        assert_eq!(stream, [64, 0, 0, 0, 1, 2, 0, 3, 0, 4, 0, 0, 0, 5, 0, 0, 0, 1, 6]);
        stream.clear();
        Call::PacketChunk { raw: vec![7], place: 8 }.encode(&mut stream);
        assert_eq!(stream, [61, 0, 0, 0, 1, 7, 0, 0, 0, 0, 0, 0, 0, 8]);
    }

    #[test]
    fn operands_of_the_in_flight_queue_stand_in_the_order_of_the_table() {
        let mut stream = Vec::new();
        Call::IqPush { fields: Fields { flags: 1, tsn: 2, stream: 3, ssn: 4, identifier: 5 }, size: 6, message: 7 }.encode(&mut stream);
        assert_eq!(stream, [70, 1, 0, 0, 0, 2, 0, 3, 0, 4, 0, 0, 0, 5, 0, 6, 0, 0, 0, 0, 0, 0, 0, 7]);
        assert_eq!(Call::decode(&mut &[81, 4, 0, 0, 0, 0, 0, 0, 0, 0, 0, 0][..]), None);
    }

    #[test]
    fn room_and_lists_have_a_limit() {
        for (room, pairs, whether) in [(65_600, 16_400, true), (65_601, 0, false), (0, 16_401, false)] {
            let mut stream = Vec::new();
            Call::FwdMarshal { room, fill: 0, point: 0, streams: vec![0; pairs], ssns: vec![] }.encode(&mut stream);
            assert_eq!(Call::decode(&mut &stream[..]).is_some(), whether, "{room} {pairs}");
        }
    }

    #[test]
    fn data_counts_up_and_on_every_256th() {
        let bytes = Data { size: 600, seed: 255 }.bytes();
        assert_eq!((bytes[0], bytes[1], bytes[256], bytes[512]), (255, 0, 0, 1));
    }
}
