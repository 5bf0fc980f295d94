//! The TSN queue: document 01, 'The TSN queue'. A refusal is `Err` with its number.
use super::fault::Fault;
use super::rows::{Row, place};
use super::serial::{Order, Serial};
use calls::Fields;

/// At most 1,024 TSNs and 64 logged duplicates.
pub const TSNS: usize = 1_024;
pub const LOG: usize = 64;

#[derive(Clone)]
pub struct Tsns {
    pub count: u64,
    pub bytes: u64,
    pub dups: u64,
    pub log: [u32; LOG],
    pub rows: Vec<Row>,
    pub serial: Serial,
}

impl Tsns {
    pub fn new(serial: Serial) -> Tsns {
        Tsns { count: 0, bytes: 0, dups: 0, log: [0; LOG], rows: vec![Row::default(); TSNS], serial }
    }

    /// A fresh queue; the table stays as it is.
    pub fn renew(&mut self) {
        (self.count, self.bytes, self.dups, self.log) = (0, 0, 0, [0; LOG]);
    }

    /// The held records, in stored order.
    pub fn held(&self) -> &[Row] {
        &self.rows[..self.count.min(TSNS as u64) as usize]
    }

    /// "Byte count: the sum of held data lengths."
    pub fn sum(&self) -> u64 {
        self.held().iter().map(Row::short_length).sum()
    }

    /// Refusal 0: a count above its table, or a byte count that is not the sum.
    pub fn sound(&self) -> Result<(), u8> {
        let log = self.dups > LOG as u64 && !self.serial.wrong.is(Fault::LogCountTrusted);
        if self.count > TSNS as u64 || log || self.bytes != self.sum() { Err(0) } else { Ok(()) }
    }

    /// What is held afterwards goes to the front of the table, and the rest stays.
    fn lay(&mut self, held: Vec<Row>) {
        if self.serial.wrong.is(Fault::RestCleared) {
            self.rows.fill(Row::default());
        }
        self.rows[..held.len()].copy_from_slice(&held);
        self.count = held.len() as u64;
        self.bytes = self.sum();
    }

    /// Held, or at or before the cumulative TSN.
    pub fn turned_away(&self, tsn: u32, cumulative: u32) -> bool {
        self.held().iter().any(|r| r.tsn == tsn) || self.serial.tsn_at_or_before(tsn, cumulative)
    }

    /// "Distance exactly 2^31" (document 02, M-107).
    pub fn opposite(&self, tsn: u32, cumulative: u32) -> bool {
        self.serial.compared(32, tsn, cumulative) == Order::Opposite
    }

    fn logged(&mut self, tsn: u32) {
        if let Some(free) = self.log.get_mut(self.dups as usize) {
            *free = tsn;
            self.dups += 1;
        }
    }

    /// 17: the TSN is opposite to the cumulative one. Before the duplicate test, and with no logging.
    fn refused(&mut self, tsn: u32, cumulative: u32) -> Result<(), u8> {
        let wrong = self.serial.wrong;
        let held = wrong.is(Fault::HeldBeforeOpposite) && self.turned_away(tsn, cumulative);
        if !self.opposite(tsn, cumulative) || held {
            return Ok(());
        }
        if wrong.is(Fault::RoomBeforeOpposite) && self.count == TSNS as u64 {
            return Err(8);
        }
        if wrong.is(Fault::OppositeLogged) {
            self.logged(tsn);
        }
        Err(17)
    }

    pub fn can_push(&self, tsn: u32, cumulative: u32) -> Result<bool, u8> {
        self.sound()?;
        let refused = self.serial.wrong.is(Fault::CanPushNotOpposite) && self.opposite(tsn, cumulative);
        Ok(!refused && !self.turned_away(tsn, cumulative))
    }

    pub fn push(&mut self, fields: &Fields, size: u16, cumulative: u32) -> Result<bool, u8> {
        self.sound()?;
        self.refused(fields.tsn, cumulative)?;
        if self.turned_away(fields.tsn, cumulative) {
            self.logged(fields.tsn);
            return Ok(false);
        }
        if self.count == TSNS as u64 {
            return Err(8);
        }
        let mut held = self.held().to_vec();
        let mut row = Row::new(fields, size as u32);
        row.identifier = self.serial.wrong.told(Fault::QueueFolded, row.identifier);
        held.insert(place(&held, |r| self.serial.tsn_before(r.tsn, fields.tsn)), row);
        self.lay(held);
        Ok(true)
    }

    /// Only if its TSN is first.
    pub fn pop(&mut self, tsn: u32) -> Result<Option<Row>, u8> {
        self.sound()?;
        let mut held = self.held().to_vec();
        let found = held.iter().position(|r| r.tsn == tsn);
        let Some(at) = found.filter(|at| *at == 0 || self.serial.wrong.is(Fault::PopAnywhere)) else { return Ok(None) };
        let row = held.remove(at);
        self.lay(held);
        Ok(Some(row))
    }

    /// Drops every TSN at or before the given one.
    pub fn pop_up_to(&mut self, tsn: u32) -> Result<(), u8> {
        self.sound()?;
        let opposite = |r: &Row| self.serial.wrong.is(Fault::OppositePopped) && self.opposite(r.tsn, tsn);
        let kept = self.held().iter().filter(|r| !self.serial.tsn_at_or_before(r.tsn, tsn) && !opposite(r)).copied().collect();
        self.lay(kept);
        Ok(())
    }

    pub fn get(&self, tsn: u32) -> Result<Option<Row>, u8> {
        self.sound()?;
        Ok(self.held().iter().find(|r| r.tsn == tsn).copied())
    }

    /// All 64 places, unused ones 0, with the count; the log is emptied.
    pub fn pop_duplicates(&mut self) -> Result<(u64, [u32; LOG]), u8> {
        self.sound()?;
        let mut out = [0; LOG];
        let count = self.dups;
        out[..count.min(LOG as u64) as usize].copy_from_slice(&self.log[..count.min(LOG as u64) as usize]);
        self.dups = 0;
        if !self.serial.wrong.is(Fault::LogKept) {
            self.log = [0; LOG];
        }
        Ok((count, out))
    }

    /// The blocks of the gap report, each with its start and its end.
    pub fn blocks(&self, cumulative: u32) -> Vec<(u32, u32)> {
        let most = if self.serial.wrong.is(Fault::GapTooShort) { 65_534 } else { 65_535 };
        let mut blocks: Vec<(u32, u32)> = Vec::new();
        for row in self.held() {
            let offset = row.tsn.wrapping_sub(cumulative);
            if offset == 0 || offset > most {
                continue;
            }
            match blocks.last_mut() {
                Some(last) if offset == last.1 + 1 || self.serial.wrong.is(Fault::GapOfTwo) && offset == last.1 + 2 => last.1 = offset,
                _ => blocks.push((offset, offset)),
            }
        }
        blocks
    }

    /// Starts and ends go to the front of two lists, whose rest stays. 10: a list is too short.
    pub fn gap_ack_blocks(&self, cumulative: u32, starts: &mut [u16], ends: &mut [u16]) -> Result<usize, u8> {
        self.sound()?;
        let blocks = self.blocks(cumulative);
        if blocks.len() > starts.len() || blocks.len() > ends.len() {
            return Err(10);
        }
        for (i, (start, end)) in blocks.iter().enumerate() {
            (starts[i], ends[i]) = (*start as u16, *end as u16);
        }
        Ok(blocks.len())
    }

    /// The one that stands last.
    pub fn last_tsn(&self) -> Result<Option<u32>, u8> {
        self.sound()?;
        Ok(self.held().last().map(|r| r.tsn))
    }

    pub fn contains_stream(&self, stream: u16) -> Result<bool, u8> {
        self.sound()?;
        Ok(self.held().iter().any(|r| r.stream() == stream))
    }
}
