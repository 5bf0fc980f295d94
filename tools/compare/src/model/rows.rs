//! Records in a table of words, which has one column after the other: heads, TSNs, streams with SSNs, payload identifiers.
use calls::{B, E, Fields};

/// A record as it is held: its head is the flags, 2^24 times, and the data length.
#[derive(Clone, Copy, Default, Debug, PartialEq, Eq)]
pub struct Row {
    pub head: u32,
    pub tsn: u32,
    pub id: u32,
    pub identifier: u32,
}

impl Row {
    pub fn new(fields: &Fields, size: u32) -> Row {
        Row {
            head: ((fields.flags & 15) as u32) << 24 | size,
            tsn: fields.tsn,
            id: (fields.stream as u32) << 16 | fields.ssn as u32,
            identifier: fields.identifier,
        }
    }

    pub fn fields(&self) -> Fields {
        Fields { flags: (self.head >> 24) as u8, tsn: self.tsn, stream: self.stream(), ssn: self.ssn(), identifier: self.identifier }
    }

    pub fn stream(&self) -> u16 {
        (self.id >> 16) as u16
    }

    pub fn ssn(&self) -> u16 {
        self.id as u16
    }

    /// The 16-bit data length of the TSN queue.
    pub fn short_length(&self) -> u64 {
        (self.head & 0xFFFF) as u64
    }

    /// The 24-bit data length of reassembly.
    pub fn long_length(&self) -> u64 {
        (self.head & 0xFF_FFFF) as u64
    }

    pub fn begins(&self) -> bool {
        (self.head >> 24) as u8 & B != 0
    }

    pub fn ends(&self) -> bool {
        (self.head >> 24) as u8 & E != 0
    }
}

/// The words of the whole table.
pub fn words(rows: &[Row]) -> impl Iterator<Item = u32> + '_ {
    let columns: [fn(&Row) -> u32; 4] = [|r| r.head, |r| r.tsn, |r| r.id, |r| r.identifier];
    columns.into_iter().flat_map(move |column| rows.iter().map(column))
}

/// One word of it is altered.
pub fn set_word(rows: &mut [Row], index: usize, value: u32) {
    let n = rows.len();
    let row = &mut rows[index % n];
    *[&mut row.head, &mut row.tsn, &mut row.id, &mut row.identifier][index / n % 4] = value;
}

/// "Goes right after the last held one that is before it, or first if there is none": the index of its place.
pub fn place<T>(held: &[T], is_before: impl Fn(&T) -> bool) -> usize {
    held.iter().rposition(is_before).map_or(0, |last| last + 1)
}
