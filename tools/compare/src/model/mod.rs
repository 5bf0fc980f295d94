//! Document 01's rules and document 02's as a plain program: what each call of docs/CALLS.md answers, and what it leaves. Written from the documents, to be held
//! against the proved program and against the Rust.
pub mod bounded;
pub mod causes;
pub mod codec;
pub mod fault;
pub mod forward;
pub mod fragments;
pub mod hand;
pub mod in_flight;
pub mod packets;
pub mod rows;
pub mod serial;
pub mod tsns;
#[cfg(test)]
mod packet_tests;
#[cfg(test)]
mod tests;

use calls::{Answers, Call, POOL, line, words};
use fault::{Fault, Wrong};
use fragments::Reassembly;
use hand::Hand;
use in_flight::InFlight;
use rows::Row;
use serial::Serial;
use tsns::{LOG, Tsns};

#[derive(Clone)]
pub struct Model {
    pub tsns: Tsns,
    pub in_flight: InFlight,
    pub reassembly: Reassembly,
    pub hand: Option<Hand>,
    serial: Serial,
}

impl Model {
    pub fn new() -> Model {
        Model::wrong(None)
    }

    /// A model that makes this mistake.
    pub fn wrong(fault: Option<Fault>) -> Model {
        let serial = Serial { wrong: Wrong(fault) };
        Model { tsns: Tsns::new(serial), in_flight: InFlight::new(serial), reassembly: Reassembly::new(serial), hand: None, serial }
    }
}

impl Answers for Model {
    fn answer(&mut self, call: &Call, line: &mut Vec<u8>) {
        match call.number() {
            1..=14 | 67 | 68 => self.answer_codec(call, line),
            16..=31 => self.answer_tsns(call, line),
            32..=43 => self.answer_reassembly(call, line),
            53..=58 => self.answer_forward(call, line),
            59..=64 => self.answer_packets(call, line),
            65 | 66 => self.answer_causes(call, line),
            69.. => in_flight::answer(&mut self.in_flight, call, line),
            _ => match self.hand.take() {
                Some(mut hand) => {
                    answer_hand(&mut hand, call, line);
                    self.hand = Some(hand);
                }
                None => words!(line, "nothing in hand"),
            },
        }
    }
}

/// The refusal, or what is shown otherwise.
fn told<T>(answer: Result<T, u8>, line: &mut Vec<u8>, show: impl FnOnce(T, &mut Vec<u8>)) {
    match answer {
        Ok(value) => show(value, line),
        Err(number) => line::refused(number, line),
    }
}

fn flag(answer: Result<bool, u8>, line: &mut Vec<u8>) {
    told(answer, line, line::flag);
}

fn done(answer: Result<(), u8>, line: &mut Vec<u8>) {
    told(answer, line, |(), line| words!(line, "done"));
}

fn number(answer: Result<u64, u8>, line: &mut Vec<u8>) {
    told(answer, line, |n, line| words!(line, "number", n));
}

fn part(answer: Result<&[u8], u8>, line: &mut Vec<u8>) {
    told(answer, line, |bytes, line| {
        words!(line, "part");
        line::bytes(bytes, line)
    });
}

fn chunk(answer: Result<Option<Row>, u8>, line: &mut Vec<u8>) {
    told(answer, line, |found, line| match found {
        Some(row) => {
            words!(line, "chunk");
            line::fields(&row.fields(), line);
            line::list([row.short_length()], line)
        }
        None => words!(line, "none"),
    });
}

fn written(answer: Result<usize, u8>, out: &[u8], line: &mut Vec<u8>) {
    told(answer, line, |n, line| words!(line, "wrote", n));
    line::bytes(out, line);
}

impl Model {
    fn answer_codec(&mut self, call: &Call, line: &mut Vec<u8>) {
        let (serial, wrong) = (self.serial, self.serial.wrong);
        match call {
            Call::Sna32 { a, b } => {
                let answers = [serial.tsn_before(*a, *b), serial.tsn_at_or_before(*a, *b), serial.tsn_before(*b, *a), serial.tsn_at_or_before(*b, *a)];
                four(answers, line)
            }
            Call::Sna16 { a, b } => {
                let answers = [serial.ssn_before(*a, *b), serial.ssn_at_or_before(*a, *b), serial.ssn_before(*b, *a), serial.ssn_at_or_before(*b, *a)];
                four(answers, line)
            }
            Call::TsnDistance { a, b } => words!(line, serial::distance(32, *a, *b)),
            Call::SsnDistance { a, b } => words!(line, serial::distance(16, *a as u32, *b as u32)),
            Call::TsnCompare { a, b } => words!(line, serial.compared(32, *a, *b).word()),
            Call::SsnCompare { a, b } => words!(line, serial.compared(16, *a as u32, *b as u32).word()),
            Call::Header { raw } => told(codec::header(raw, wrong), line, |h, line| words!(line, "header", h.kind, h.flags, h.length)),
            Call::DataUnmarshal { raw } => told(codec::data(raw, wrong), line, |(fields, _), line| {
                words!(line, "data");
                line::fields(&fields, line)
            }),
            Call::DataUserData { raw } => part(codec::data(raw, wrong).map(|(_, part)| part), line),
            Call::DataMarshal { room, fill, fields, data } => {
                let mut out = vec![*fill; *room as usize];
                let answer = codec::write_data(&mut out, fields, &data.bytes(), wrong);
                written(answer, &out, line)
            }
            _ => self.answer_sack(call, line),
        }
    }

    fn answer_sack(&mut self, call: &Call, line: &mut Vec<u8>) {
        let wrong = self.serial.wrong;
        match call {
            Call::SackUnmarshal { raw } => {
                told(codec::sack(raw, wrong), line, |s, line| words!(line, "sack", s.cumulative, s.window, s.blocks.len() / 4, s.duplicates.len() / 4))
            }
            Call::SackBlocks { raw } => part(codec::sack(raw, wrong).map(|s| &raw[s.blocks]), line),
            Call::SackDuplicates { raw } => part(codec::sack(raw, wrong).map(|s| &raw[s.duplicates]), line),
            Call::SackBlockAt { part, index } => told(codec::block_at(part, *index, wrong), line, |(start, end), line| words!(line, "block", start, end)),
            Call::SackDuplicateAt { part, index } => told(codec::duplicate_at(part, *index, wrong), line, |tsn, line| words!(line, "tsn", tsn)),
            Call::SackMarshal { room, fill, cumulative, window, starts, ends, duplicates } => {
                let mut out = vec![*fill; *room as usize];
                let answer = codec::write_sack(&mut out, (*cumulative, *window), (starts, ends), duplicates, wrong);
                written(answer, &out, line)
            }
            _ => unreachable!("{call:?} is no codec's call"),
        }
    }

    fn answer_forward(&mut self, call: &Call, line: &mut Vec<u8>) {
        let wrong = self.serial.wrong;
        match call {
            Call::FwdUnmarshal { raw } => told(forward::forward(raw, wrong), line, |(point, part), line| words!(line, "forward", point, part.len() / 4)),
            Call::FwdStreams { raw } => part(forward::forward(raw, wrong).map(|(_, part)| part), line),
            Call::FwdStreamAt { part, index } => told(forward::stream_at(part, *index, wrong), line, |(stream, ssn), line| words!(line, "stream", stream, ssn)),
            Call::FwdMarshal { room, fill, point, streams, ssns } => {
                let mut out = vec![*fill; *room as usize];
                let answer = forward::write_forward(&mut out, *point, streams, ssns, wrong);
                written(answer, &out, line)
            }
            Call::PqApplyForward { cumulative, point } => done(forward::apply_to_tsns(&mut self.tsns, *cumulative, *point), line),
            Call::RqApplyForward { part, cumulative, point } => done(forward::apply_to_stream(&mut self.reassembly, part, *cumulative, *point), line),
            _ => unreachable!("{call:?} is no call of FORWARD TSN"),
        }
    }

    fn answer_causes(&mut self, call: &Call, line: &mut Vec<u8>) {
        let (kind, raw, rooms, fill) = match call {
            Call::ErrorUnmarshal { raw, codes, depths, starts, sizes, fill } => (causes::ERROR, raw, [codes, depths, starts, sizes], *fill),
            Call::AbortUnmarshal { raw, codes, depths, starts, sizes, fill } => (causes::ABORT, raw, [codes, depths, starts, sizes], *fill),
            other => unreachable!("{other:?}"),
        };
        let mut lists = rooms.map(|room| vec![fill; *room as usize]);
        told(causes::unmarshal(kind, raw, &mut lists, self.serial.wrong), line, |n, line| words!(line, "causes", n));
        for (name, list) in ["codes", "depths", "starts", "sizes"].into_iter().zip(lists) {
            words!(line, format!(" {name}"));
            line::list(list, line);
        }
    }

    fn answer_packets(&mut self, call: &Call, line: &mut Vec<u8>) {
        let wrong = self.serial.wrong;
        match call {
            Call::Crc32c { raw } => words!(line, "number", packets::crc32c(raw, wrong)),
            Call::Packet { raw } => told(packets::header(raw, wrong), line, |(source, destination, tag), line| words!(line, "packet", source, destination, tag)),
            Call::PacketChunk { raw, place } => told(packets::chunk_at(raw, *place, wrong), line, |found, line| match found {
                Some((end, next)) => words!(line, "chunk", end, next),
                None => words!(line, "none"),
            }),
            Call::PacketBytes { raw, place } => part(Ok(packets::bytes_at(raw, *place, wrong)), line),
            Call::PacketWalk { raw } => show_walk(packets::walk(raw, wrong), line),
            Call::PacketMarshal { room, fill, source, destination, tag, chunks } => {
                let mut out = vec![*fill; *room as usize];
                let answer = packets::write_packet(&mut out, *source, *destination, *tag, chunks, wrong);
                written(answer, &out, line)
            }
            _ => unreachable!("{call:?} is no call of packets"),
        }
    }

    fn answer_tsns(&mut self, call: &Call, line: &mut Vec<u8>) {
        let queue = &mut self.tsns;
        match call {
            Call::PqNew {} => {
                queue.renew();
                words!(line, "done")
            }
            Call::PqCanPush { tsn, cumulative } => flag(queue.can_push(*tsn, *cumulative), line),
            Call::PqPush { fields, size, cumulative } => flag(queue.push(fields, *size, *cumulative), line),
            Call::PqPop { tsn } => chunk(queue.pop(*tsn), line),
            Call::PqPopUpTo { tsn } => done(queue.pop_up_to(*tsn), line),
            Call::PqGet { tsn } => chunk(queue.get(*tsn), line),
            Call::PqPopDuplicates {} => {
                let answer = queue.pop_duplicates();
                let places = answer.map_or([0; LOG], |(_, places)| places);
                told(answer, line, |(count, _), line| words!(line, "log", count));
                line::list(places, line)
            }
            Call::PqGapAckBlocks { cumulative, starts, ends, fill } => {
                let (mut starts, mut ends) = (vec![*fill; *starts as usize], vec![*fill; *ends as usize]);
                told(queue.gap_ack_blocks(*cumulative, &mut starts, &mut ends), line, |n, line| words!(line, "blocks", n));
                words!(line, " starts");
                line::list(starts, line);
                words!(line, " ends");
                line::list(ends, line)
            }
            Call::PqLastTsn {} => told(queue.last_tsn(), line, |last, line| match last {
                Some(tsn) => words!(line, "tsn", tsn),
                None => words!(line, "none"),
            }),
            Call::PqNumBytes {} => number(queue.sound().map(|()| queue.sum()), line),
            Call::PqLen {} => number(queue.sound().map(|()| queue.count), line),
            Call::PqIsEmpty {} => flag(queue.sound().map(|()| queue.count == 0), line),
            Call::PqContainsStream { stream } => flag(queue.contains_stream(*stream), line),
            _ => show_tsns(queue, call, line),
        }
    }

    fn answer_reassembly(&mut self, call: &Call, line: &mut Vec<u8>) {
        let queue = &mut self.reassembly;
        match call {
            Call::RqNew { stream, maximum } => {
                queue.renew(*stream, *maximum);
                words!(line, "done")
            }
            Call::RqPush { fields, data } => flag(queue.push(fields, data.bytes()), line),
            Call::RqIsReadable {} => flag(queue.is_readable(), line),
            Call::RqRead { room, fill } => {
                let mut buffer = vec![*fill; *room as usize];
                let answer = queue.read(&mut buffer);
                self.hand = answer.as_ref().ok().and_then(|m| m.as_ref()).map(|message| Hand {
                    size: message.bytes.len() as u64,
                    position: 0,
                    given: false,
                    lent: buffer.len(),
                    buffer: buffer.clone(),
                    wrong: self.serial.wrong,
                });
                told(answer, line, |message, line| match message {
                    Some(m) => words!(line, "message", m.ssn, m.identifier, m.bytes.len()),
                    None => words!(line, "none"),
                });
                line::bytes(&buffer, line)
            }
            Call::RqForwardOrdered { ssn } => done(queue.forward_ordered(*ssn), line),
            Call::RqForwardUnordered { tsn } => done(queue.forward_unordered(*tsn), line),
            Call::RqForwardOrderedBounded { ssn, tsn } => done(bounded::forward(queue, *ssn, *tsn), line),
            Call::RqApplicableForward { ssn, tsn, peer } => told(bounded::applicable(queue, *ssn, *tsn, *peer), line, |ssn, line| match ssn {
                Some(ssn) => words!(line, "number", ssn),
                None => words!(line, "none"),
            }),
            Call::RqNumBytes {} => number(queue.sound().map(|()| queue.sum()), line),
            _ => show_reassembly(queue, call, line),
        }
    }
}

/// lt, lte, gt, gte.
fn four(answers: [bool; 4], line: &mut Vec<u8>) {
    words!(line, answers.map(|yes| if yes { "yes" } else { "no" }).join(" "));
}

/// Each chunk, and what stands at the last place.
fn show_walk((chunks, last, why): (Vec<(usize, usize)>, usize, Option<u8>), line: &mut Vec<u8>) {
    words!(line, "walk");
    for (place, size) in chunks {
        words!(line, " |", place, size);
    }
    words!(line, " |", last, "");
    told(why.map_or(Ok(()), Err), line, |(), line| words!(line, "none"));
}

/// State, forging, and the digests of all words.
fn show_tsns(queue: &mut Tsns, call: &Call, line: &mut Vec<u8>) {
    match call {
        Call::PqState {} => {
            words!(line, "held", queue.count, queue.bytes);
            for row in queue.held() {
                words!(line, " |");
                line::fields(&row.fields(), line);
                line::list([row.short_length()], line);
            }
        }
        Call::PqForge { field, index, value } => {
            match field {
                0 => queue.count = *value,
                1 => queue.bytes = *value,
                2 => queue.dups = *value,
                3 => queue.log[*index as usize % LOG] = *value as u32,
                _ => rows::set_word(&mut queue.rows, *index as usize, *value as u32),
            }
            words!(line, "done")
        }
        Call::PqWhole {} => words!(line, "whole", queue.count, queue.bytes, queue.dups, line::digest(queue.log), line::digest(rows::words(&queue.rows))),
        _ => unreachable!("{call:?} is no call of the TSN queue"),
    }
}

fn show_reassembly(queue: &mut Reassembly, call: &Call, line: &mut Vec<u8>) {
    match call {
        Call::RqState {} => {
            words!(line, "queue", queue.stream, queue.expected, queue.maximum, queue.bytes);
            let mut at = 0;
            for (i, row) in queue.held().iter().enumerate() {
                let i = i as u64;
                let kind = if i < queue.finished { 'f' } else if i - queue.finished < queue.loose { 'u' } else { 'o' };
                let end = POOL.min(at + row.long_length() as usize);
                words!(line, " |", kind);
                line::fields(&row.fields(), line);
                line::bytes(&queue.pool[at..end], line);
                at = end;
            }
        }
        Call::RqForge { field, index, value } => {
            match field {
                0 => queue.stream = *value as u16,
                1 => queue.expected = *value as u16,
                2 => queue.maximum = *value as u32,
                3 => queue.finished = *value,
                4 => queue.loose = *value,
                5 => queue.ordered = *value,
                6 => queue.bytes = *value,
                7 => rows::set_word(&mut queue.rows, *index as usize, *value as u32),
                8 => queue.pool[*index as usize % POOL] = *value as u8,
                _ => queue.lent = (*value % (POOL as u64 + 1)) as usize,
            }
            words!(line, "done")
        }
        Call::RqWhole {} => {
            let pool = queue.pool.iter().map(|b| *b as u32);
            words!(line, "whole", queue.finished, queue.loose, queue.ordered, line::digest(rows::words(&queue.rows)), line::digest(pool))
        }
        _ => unreachable!("{call:?} is no call of reassembly"),
    }
}

fn answer_hand(hand: &mut Hand, call: &Call, line: &mut Vec<u8>) {
    match call {
        Call::MLen {} => number(hand.sound().map(|()| hand.size), line),
        Call::MIsEmpty {} => flag(hand.sound().map(|()| hand.size == 0), line),
        Call::MRead { room, fill } => {
            let mut out = vec![*fill; *room as usize];
            number(hand.read(&mut out), line);
            line::bytes(&out, line)
        }
        Call::MNext { most } => told(hand.next(*most), line, |piece, line| match piece {
            Some(place) => {
                words!(line, "piece", place.start, place.len());
                line::bytes(&hand.buffer[place], line)
            }
            None => words!(line, "none"),
        }),
        Call::MForge { field, value } => {
            match field {
                0 => hand.size = *value,
                1 => hand.position = *value,
                2 => hand.given = *value != 0,
                _ => hand.lend((*value % 65_601) as usize),
            }
            words!(line, "done")
        }
        _ => unreachable!("{call:?} is no call of a message"),
    }
}
