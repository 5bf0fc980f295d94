//! The sender's in-flight queue: document 02, M-111. A refusal is `Err` with its number.
use super::fault::Fault;
use super::rows::{self, Row, place};
use super::serial::Serial;
use super::tsns::TSNS;
use super::{done, flag, number, told};
use calls::{Call, Fields, line, words};

/// The marks, in a record's head, above its length.
pub const ACKED: u32 = 1 << 16;
pub const ABANDONED: u32 = 1 << 17;
pub const RETRANSMIT: u32 = 1 << 18;

/// "Over records with acknowledged, abandoned and retransmit marks and a 64-bit message number, in a second table of 1,024."
#[derive(Clone)]
pub struct InFlight {
    pub count: u64,
    pub bytes: u64,
    pub rows: Vec<Row>,
    pub messages: Vec<u64>,
    pub serial: Serial,
}

impl InFlight {
    pub fn new(serial: Serial) -> InFlight {
        InFlight { count: 0, bytes: 0, rows: vec![Row::default(); TSNS], messages: vec![0; TSNS], serial }
    }

    /// A fresh queue; the table and the numbers stay as they are.
    pub fn renew(&mut self) {
        (self.count, self.bytes) = (0, 0);
    }

    /// The held records, in stored order.
    pub fn held(&self) -> &[Row] {
        &self.rows[..self.count.min(TSNS as u64) as usize]
    }

    /// "The byte count is the sum of unreleased lengths": a released length is 0.
    pub fn sum(&self) -> u64 {
        self.held().iter().map(Row::short_length).sum()
    }

    /// "For this table refusal 0 tests that sum"; a count above its table.
    pub fn sound(&self) -> Result<(), u8> {
        let bytes = self.bytes != self.sum() && !self.serial.wrong.is(Fault::FlightSumTrusted);
        if self.count > TSNS as u64 || bytes { Err(0) } else { Ok(()) }
    }

    /// The held records with the numbers of their messages.
    fn sent(&self) -> Vec<(Row, u64)> {
        self.held().iter().copied().zip(self.messages.iter().copied()).collect()
    }

    /// What is held afterwards goes to the front of both lists, and the rest stays.
    fn lay(&mut self, held: Vec<(Row, u64)>) {
        let numbers = !self.serial.wrong.is(Fault::MessagesLeft);
        for (i, (row, message)) in held.iter().enumerate() {
            self.rows[i] = *row;
            if numbers {
                self.messages[i] = *message;
            }
        }
        self.count = held.len() as u64;
        self.bytes = self.sum();
    }

    /// "The Rust's `push_no_check` accepts a TSN already held and miscounts; ours gives refusal 18, unchanged, before 8."
    pub fn push(&mut self, fields: &Fields, size: u16, message: u64) -> Result<(), u8> {
        self.sound()?;
        let wrong = self.serial.wrong;
        if wrong.is(Fault::RoomBeforeHeld) && self.count == TSNS as u64 {
            return Err(8);
        }
        if self.held().iter().any(|r| r.tsn == fields.tsn) && !wrong.is(Fault::HeldSentAgain) {
            return Err(18);
        }
        if self.count == TSNS as u64 {
            return Err(8);
        }
        let mut sent = self.sent();
        let at = place(&sent, |(r, _)| self.serial.tsn_before(r.tsn, fields.tsn));
        sent.insert(at, (Row::new(fields, size as u32), message));
        self.lay(sent);
        Ok(())
    }

    /// Sets a mark of a record, which takes the retransmit mark away and releases the length. How many bytes were released.
    fn mark(&mut self, i: usize, mark: u32) -> u64 {
        let released = self.rows[i].short_length();
        let gone = if self.serial.wrong.is(Fault::StillSentAgain) { 0xFFFF } else { RETRANSMIT | 0xFFFF };
        self.rows[i].head = self.rows[i].head & !gone | mark;
        self.bytes -= released;
        released
    }

    /// "Acknowledging twice releases bytes once and answers 0 the second time."
    pub fn acked(&mut self, tsn: u32) -> Result<u64, u8> {
        self.sound()?;
        let found = self.held().iter().position(|r| r.tsn == tsn);
        let done = |i: &usize| self.serial.wrong.is(Fault::AbandonedNotAcked) && self.rows[*i].head & ABANDONED != 0;
        Ok(found.filter(|i| !done(i)).map_or(0, |i| self.mark(i, ACKED)))
    }

    /// Every chunk that is neither acknowledged nor abandoned.
    pub fn retransmit(&mut self) -> Result<(), u8> {
        self.sound()?;
        let wrong = self.serial.wrong;
        let done = if wrong.is(Fault::AbandonedSentAgain) { ACKED } else { ACKED | ABANDONED };
        let n = self.held().len();
        for row in self.rows[..n].iter_mut().filter(|r| r.head & done == 0) {
            row.head |= RETRANSMIT;
        }
        Ok(())
    }

    /// Every chunk of the message.
    pub fn abandon(&mut self, message: u64) -> Result<u64, u8> {
        self.sound()?;
        let most = if self.serial.wrong.is(Fault::MessageCut) { u32::MAX as u64 } else { u64::MAX };
        let which: Vec<usize> = (0..self.held().len()).filter(|i| self.messages[*i] & most == message & most).collect();
        Ok(which.into_iter().map(|i| self.mark(i, ABANDONED)).sum())
    }

    /// Only if its TSN is first.
    pub fn pop(&mut self, tsn: u32) -> Result<Option<(Row, u64)>, u8> {
        self.sound()?;
        let mut sent = self.sent();
        if sent.first().is_none_or(|(r, _)| r.tsn != tsn) {
            return Ok(None);
        }
        let first = sent.remove(0);
        self.lay(sent);
        Ok(Some(first))
    }

    /// Drops every TSN at or before the given one.
    pub fn pop_up_to(&mut self, tsn: u32) -> Result<(), u8> {
        self.sound()?;
        let kept = self.sent().into_iter().filter(|(r, _)| !self.serial.tsn_at_or_before(r.tsn, tsn)).collect();
        self.lay(kept);
        Ok(())
    }

    pub fn get(&self, tsn: u32) -> Result<Option<(Row, u64)>, u8> {
        self.sound()?;
        Ok(self.sent().into_iter().find(|(r, _)| r.tsn == tsn))
    }
}

fn record(row: &Row, message: u64, line: &mut Vec<u8>) {
    let set = |mark| row.head & mark != 0;
    line::fields(&row.fields(), line);
    line::list([row.short_length()], line);
    words!(line, "", line::marks(set(ACKED), set(ABANDONED), set(RETRANSMIT)), message);
}

fn sent(answer: Result<Option<(Row, u64)>, u8>, line: &mut Vec<u8>) {
    told(answer, line, |found, line| match found {
        Some((row, message)) => {
            words!(line, "sent");
            record(&row, message, line)
        }
        None => words!(line, "none"),
    });
}

pub fn answer(queue: &mut InFlight, call: &Call, line: &mut Vec<u8>) {
    match call {
        Call::IqNew {} => {
            queue.renew();
            words!(line, "done")
        }
        Call::IqPush { fields, size, message } => done(queue.push(fields, *size, *message), line),
        Call::IqAcked { tsn } => number(queue.acked(*tsn), line),
        Call::IqRetransmit {} => done(queue.retransmit(), line),
        Call::IqAbandon { message } => number(queue.abandon(*message), line),
        Call::IqPop { tsn } => sent(queue.pop(*tsn), line),
        Call::IqPopUpTo { tsn } => done(queue.pop_up_to(*tsn), line),
        Call::IqGet { tsn } => sent(queue.get(*tsn), line),
        Call::IqNumBytes {} => number(queue.sound().map(|()| queue.sum()), line),
        Call::IqLen {} => number(queue.sound().map(|()| queue.count), line),
        Call::IqIsEmpty {} => flag(queue.sound().map(|()| queue.count == 0), line),
        _ => show(queue, call, line),
    }
}

/// State, forging, and the digests of all words and of all numbers, the high half of each ahead of the low one.
fn show(queue: &mut InFlight, call: &Call, line: &mut Vec<u8>) {
    match call {
        Call::IqState {} => {
            words!(line, "held", queue.count, queue.bytes);
            for (row, message) in queue.sent() {
                words!(line, " |");
                record(&row, message, line);
            }
        }
        Call::IqForge { field, index, value } => {
            match field {
                0 => queue.count = *value,
                1 => queue.bytes = *value,
                2 => rows::set_word(&mut queue.rows, *index as usize, *value as u32),
                _ => queue.messages[*index as usize % TSNS] = *value,
            }
            words!(line, "done")
        }
        Call::IqWhole {} => {
            let halves = queue.messages.iter().flat_map(|n| [(n >> 32) as u32, *n as u32]);
            words!(line, "whole", queue.count, queue.bytes, line::digest(rows::words(&queue.rows)), line::digest(halves))
        }
        _ => unreachable!("{call:?} is no call of the in-flight queue"),
    }
}
