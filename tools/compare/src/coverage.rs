//! Which call was answered how, how often; and what must have occurred.
use crate::Mode;
use crate::domain::kept;
use calls::Call;
use std::collections::BTreeMap;

/// For each call its answers in both modes, and those that occur outside the domain alone. Documents 01 and 02 have them.
#[rustfmt::skip]
const EXPECTED: &[(&str, &str, &str)] = &[
    ("Sna32", "yes yes no no,no yes no yes,no no yes yes", "no no no no"),
    ("Sna16", "yes yes no no,no yes no yes,no no yes yes", "no no no no"),
    ("TsnDistance", "", "below 0,0,above 0"),
    ("SsnDistance", "", "below 0,0,above 0"),
    ("Header", "header,refused 1,refused 2", ""),
    ("DataUnmarshal", "data,refused 1,refused 2,refused 3,refused 4", "data unnamed,refused 15"),
    ("DataUserData", "part,refused 1,refused 2,refused 3,refused 4", "refused 15"),
    ("DataMarshal", "wrote", "refused 9,refused 10,refused 15"),
    ("SackUnmarshal", "sack,refused 1,refused 2,refused 3,refused 5", ""),
    ("SackBlocks", "part,refused 1,refused 2,refused 3,refused 5", ""),
    ("SackDuplicates", "part,refused 1,refused 2,refused 3,refused 5", ""),
    ("SackBlockAt", "", "block,refused 11"),
    ("SackDuplicateAt", "", "tsn,refused 11"),
    ("SackMarshal", "wrote", "refused 9,refused 10"),
    ("PqNew", "done", ""),
    ("PqCanPush", "yes,no", "refused 0"),
    ("PqPush", "yes,no,refused 17", "refused 0,refused 8"),
    ("PqPop", "chunk,none", "chunk unnamed,refused 0"),
    ("PqPopUpTo", "done", "refused 0"),
    ("PqGet", "chunk,none", "chunk unnamed,refused 0"),
    ("PqPopDuplicates", "log", "refused 0"),
    ("PqGapAckBlocks", "blocks", "refused 0,refused 10"),
    ("PqLastTsn", "tsn,none", "refused 0"),
    ("PqNumBytes", "number", "refused 0"),
    ("PqLen", "number", "refused 0"),
    ("PqIsEmpty", "yes,no", "refused 0"),
    ("PqContainsStream", "yes,no", "refused 0"),
    ("PqState", "held", ""),
    ("PqForge", "", "done"),
    ("PqWhole", "", "whole"),
    ("RqNew", "done", ""),
    ("RqPush", "yes,no,refused 6", "refused 0,refused 8"),
    ("RqIsReadable", "yes,no", "refused 0"),
    ("RqRead", "message,none", "message unnamed,refused 0,refused 10"),
    ("RqForwardOrdered", "done", "refused 0"),
    ("RqForwardUnordered", "done", "refused 0"),
    ("RqForwardOrderedBounded", "done", "refused 0"),
    ("RqApplicableForward", "number,none", "refused 0"),
    ("RqNumBytes", "number", "refused 0"),
    ("RqState", "queue", ""),
    ("RqForge", "", "done"),
    ("RqWhole", "", "whole"),
    ("MLen", "number,nothing", "refused 0"),
    ("MIsEmpty", "yes,no,nothing", "refused 0"),
    ("MRead", "number,refused 7,nothing", "refused 0"),
    ("MNext", "piece,none,nothing", "refused 0"),
    ("MForge", "", "done,nothing"),
    ("FwdUnmarshal", "forward,refused 1,refused 2,refused 3,refused 12", ""),
    ("FwdStreams", "part,refused 1,refused 2,refused 3,refused 12", ""),
    ("FwdStreamAt", "", "stream,refused 11"),
    ("FwdMarshal", "wrote", "refused 9,refused 10"),
    ("PqApplyForward", "done", "refused 0"),
    ("RqApplyForward", "done", "refused 0"),
    ("Crc32c", "number", ""),
    ("Packet", "packet,refused 13,refused 14", ""),
    ("PacketChunk", "", "chunk,none,refused 1,refused 2,refused 11"),
    ("PacketBytes", "", "part,part -"),
    ("PacketWalk", "none", "refused 1,refused 2,refused 11"),
    ("PacketMarshal", "wrote", "refused 1,refused 2,refused 10"),
    ("ErrorUnmarshal", "causes,refused 1,refused 2,refused 3,refused 16", "refused 10"),
    ("AbortUnmarshal", "causes,refused 1,refused 2,refused 3,refused 16", "refused 10"),
    ("TsnCompare", "earlier,same,later,opposite", ""),
    ("SsnCompare", "earlier,same,later,opposite", ""),
    ("IqNew", "done", ""),
    ("IqPush", "done,refused 18", "refused 0,refused 8"),
    ("IqAcked", "number,number 0", "refused 0"),
    ("IqRetransmit", "done", "refused 0"),
    ("IqAbandon", "number,number 0", "refused 0"),
    ("IqPop", "sent,none", "refused 0"),
    ("IqPopUpTo", "done", "refused 0"),
    ("IqGet", "sent,none", "sent unnamed,refused 0"),
    ("IqNumBytes", "number", "refused 0"),
    ("IqLen", "number", "refused 0"),
    ("IqIsEmpty", "yes,no", "refused 0"),
    ("IqState", "held", ""),
    ("IqForge", "", "done"),
    ("IqWhole", "", "whole"),
];

/// What is counted of whole messages and runs.
#[derive(Clone, Copy, Debug, PartialEq, Eq, PartialOrd, Ord)]
pub enum Event {
    Ordered,
    Unordered,
    OrderedOverTsnWrap,
    UnorderedOverTsnWrap,
    OrderedOverSsnWrap,
    Drained,
    Full,
    StreamForwarded,
    TsnsForwarded,
    OldPoint,
    HeldBack,
    Abandoned,
    PartApplies,
}

const EVENTS: &[(Event, &str)] = &[
    (Event::Ordered, "ordered messages of three or more fragments"),
    (Event::Unordered, "unordered messages of three or more fragments"),
    (Event::OrderedOverTsnWrap, "such ordered ones across the TSNs' wrap"),
    (Event::UnorderedOverTsnWrap, "such unordered ones across the TSNs' wrap"),
    (Event::OrderedOverSsnWrap, "such ordered ones with which the expected SSN wraps"),
    (Event::Drained, "runs of reassembly that end drained"),
    (Event::Full, "moments at which a table or the pool is exactly full"),
    (Event::StreamForwarded, "FORWARD TSN chunks that change a stream"),
    (Event::TsnsForwarded, "FORWARD TSN chunks that change the TSN queue"),
    (Event::OldPoint, "FORWARD TSN chunks that change nothing and would with a point that is not old"),
    (Event::HeldBack, "bounded skips that a set holds back"),
    (Event::Abandoned, "bounded skips that drop incomplete sets"),
    (Event::PartApplies, "bounded skips of which a part applies"),
];

#[derive(Default)]
pub struct Coverage {
    pub calls: u64,
    answers: BTreeMap<u8, BTreeMap<Vec<u8>, u64>>,
    events: BTreeMap<Event, u64>,
}

/// How an answer is called: its first word, the number of a refusal too; all of the four words, the sign of a distance. A chunk or a message whose
/// identifier the Rust would fold is called unnamed; a walk is called by what stands at its last place, and an empty part of a packet apart.
pub fn kind<'a>(call: &Call, line: &'a [u8]) -> &'a [u8] {
    match call {
        Call::Sna32 { .. } | Call::Sna16 { .. } => line,
        Call::TsnDistance { .. } | Call::SsnDistance { .. } => match line {
            b"0" => b"0",
            [b'-', ..] => b"below 0",
            _ => b"above 0",
        },
        Call::DataUnmarshal { .. } if line.starts_with(b"data ") && !kept_at(5, line) => b"data unnamed",
        Call::PqPop { .. } | Call::PqGet { .. } if line.starts_with(b"chunk ") && !kept_at(5, line) => b"chunk unnamed",
        Call::IqGet { .. } if line.starts_with(b"sent ") && !kept_at(5, line) => b"sent unnamed",
        Call::IqAcked { .. } | Call::IqAbandon { .. } if line == b"number 0" => line,
        Call::RqRead { .. } if line.starts_with(b"message ") && !kept_at(2, line) => b"message unnamed",
        Call::PacketBytes { .. } if line == b"part -" => line,
        Call::PacketWalk { .. } => line.rsplit(|b| *b == b'|').next().and_then(|last| last.splitn(3, |b| *b == b' ').nth(2)).unwrap_or(line),
        _ => {
            let spaces = if line.starts_with(b"refused ") { 1 } else { 0 };
            let end = line.iter().enumerate().filter(|(_, b)| **b == b' ').map(|(i, _)| i).nth(spaces);
            &line[..end.unwrap_or(line.len())]
        }
    }
}

/// Whether that word of a line is an identifier that the Rust keeps.
fn kept_at(word: usize, line: &[u8]) -> bool {
    let number = line.split(|b| *b == b' ').nth(word).and_then(|word| std::str::from_utf8(word).ok());
    number.and_then(|word| word.parse().ok()).is_some_and(kept)
}

/// What a mode expects: a call's number, its name, an answer.
pub fn expected(mode: Mode) -> impl Iterator<Item = (u8, &'static str, &'static str)> {
    let number = |name: &str| Call::NAMES.iter().find(|(_, n)| *n == name).expect("a call's name").0;
    EXPECTED.iter().flat_map(move |(name, both, outside)| {
        let outside = if mode == Mode::Out { outside } else { &"" };
        both.split(',').chain(outside.split(',')).filter(|answer| !answer.is_empty()).map(move |answer| (number(name), *name, answer))
    })
}

impl Coverage {
    pub fn count(&mut self, call: &Call, line: &[u8]) {
        self.calls += 1;
        let answers = self.answers.entry(call.number()).or_default();
        let kind = kind(call, line);
        match answers.get_mut(kind) {
            Some(n) => *n += 1,
            None => _ = answers.insert(kind.to_vec(), 1),
        }
    }

    pub fn event(&mut self, event: Event) {
        *self.events.entry(event).or_default() += 1;
    }

    pub fn add(&mut self, other: &Coverage) {
        self.calls += other.calls;
        for (call, answers) in &other.answers {
            for (answer, n) in answers {
                *self.answers.entry(*call).or_default().entry(answer.clone()).or_default() += n;
            }
        }
        for (event, n) in &other.events {
            *self.events.entry(*event).or_default() += n;
        }
    }

    fn of(&self, call: u8, answer: &[u8]) -> u64 {
        self.answers.get(&call).and_then(|answers| answers.get(answer)).copied().unwrap_or(0)
    }

    pub fn has(&self, call: u8, answer: &str) -> bool {
        self.of(call, answer.as_bytes()) > 0
    }

    /// One line to a call: each answer and how often it came.
    pub fn print(&self, mode: Mode) {
        for (number, name) in Call::NAMES {
            let Some(answers) = self.answers.get(number) else { continue };
            let shown: Vec<String> = answers.iter().map(|(answer, n)| format!("{} {n}", String::from_utf8_lossy(answer))).collect();
            println!("  {name:<18} {}", shown.join(", "));
        }
        if mode == Mode::In {
            for (event, text) in EVENTS {
                println!("  {text}: {}", self.events.get(event).unwrap_or(&0));
            }
        }
    }

    /// Where it is thin: one line each. At ten million calls each answer wants 1,000, and each event 10,000, from `Full` on 1,000; at fewer, as many fewer, and below 100,000 none.
    pub fn thin(&self, mode: Mode) -> Vec<String> {
        if self.calls < 100_000 {
            return Vec::new();
        }
        let (answers, events) = (1_000.min(self.calls / 10_000), 10_000.min(self.calls / 1_000));
        let mut thin = Vec::new();
        for (number, name, answer) in expected(mode) {
            let n = self.of(number, answer.as_bytes());
            if n < answers {
                thin.push(format!("{name} answered '{answer}' {n} times of {answers}"));
            }
        }
        for (event, text) in EVENTS.iter().filter(|_| mode == Mode::In) {
            let n = self.events.get(event).copied().unwrap_or(0);
            let least = if *event < Event::Full { events } else { answers };
            if n < least {
                thin.push(format!("{text}: {n} of {least}"));
            }
        }
        thin
    }
}

#[cfg(test)]
mod tests {
    use super::*;

    #[test]
    fn every_call_and_every_refusal_is_expected() {
        for (_, name) in Call::NAMES {
            assert!(EXPECTED.iter().any(|(expected, ..)| expected == name), "{name}");
        }
        for number in 0..=18 {
            let refused = format!("refused {number}");
            assert!(expected(Mode::Out).any(|(_, _, answer)| answer == refused), "{refused}");
        }
    }

    #[test]
    fn answers_are_told_apart() {
        let call = Call::PqLen {};
        assert_eq!(kind(&call, b"refused 10 -"), b"refused 10");
        assert_eq!(kind(&call, b"number 7"), b"number");
        assert_eq!(kind(&Call::TsnDistance { a: 0, b: 0 }, b"-3"), b"below 0");
        assert_eq!(kind(&Call::Sna16 { a: 0, b: 0 }, b"no yes no yes"), b"no yes no yes");
        assert_eq!([b"data - 1 2 3 58", b"data - 1 2 58 7"].map(|line| kind(&Call::DataUnmarshal { raw: vec![] }, line)), [&b"data"[..], b"data unnamed"]);
        assert_eq!([b"chunk - 1 2 3 51 7", b"chunk - 1 2 3 52 7"].map(|line| kind(&Call::PqGet { tsn: 1 }, line)), [&b"chunk"[..], b"chunk unnamed"]);
        let walk = Call::PacketWalk { raw: vec![] };
        assert_eq!([&b"walk | 12 none"[..], b"walk | 12 4 | 16 refused 2"].map(|line| kind(&walk, line)), [&b"none"[..], b"refused 2"]);
        let read = Call::RqRead { room: 1, fill: 0 };
        assert_eq!([&b"message 1 57 1 61"[..], b"message 57 1 1 61", b"none 00"].map(|line| kind(&read, line)), [&b"message"[..], b"message unnamed", b"none"]);
    }
}
