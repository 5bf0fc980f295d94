//! What a file of captured chunks comes to: document 02, M-113, as a plain program over the model's codec and TSN queue.
use crate::model::codec;
use crate::model::fault::Wrong;
use crate::model::serial::Serial;
use crate::model::tsns::Tsns;
use std::fmt::Write;

/// "After 2^33 records it ends as at the file's end."
pub const MOST: u64 = 1 << 33;

macro_rules! mistakes {
    ($($name:ident: $text:literal,)*) => {
        /// A mistake that a model can make; each must be found out.
        #[derive(Clone, Copy, Debug, PartialEq, Eq)]
        pub enum Mistake { $($name),* }

        impl Mistake {
            pub const ALL: &[Mistake] = &[$(Mistake::$name),*];

            pub fn text(self) -> &'static str {
                match self { $(Mistake::$name => $text),* }
            }
        }
    };
}

mistakes! {
    AnyVersion: "a file of another version is replayed",
    EmptyKnown: "an empty file has no record",
    NumberedFromOne: "records are numbered from 1",
    LittleEndian: "a length has its low byte first",
    LengthOfRecord: "a length counts its own two bytes",
    ShortIsEnd: "a record that is cut in its length is the end",
    RestIsChunk: "a record that is cut behind its length is the chunk that is there",
    CutGoesOn: "behind a cut record there is no last line",
    CutUncounted: "a cut record is not counted",
    CutRefused: "a cut record counts as refused",
    OldStored: "a chunk at or before TSN 0 is stored",
    EarlyAfter1: "the cumulative TSN is 1",
    RefusedAway: "a refusal counts as turned away",
    FullForgets: "a full queue turns away",
    QueueRenewed: "every record goes to a fresh queue",
    WholeRecord: "a chunk's length is the record's",
    LimitCuts: "what is left behind the last record counts as cut",
}

/// A record behind its length, and what follows; none where it is cut short.
fn record(rest: &[u8], mistake: Option<Mistake>) -> Option<(Vec<u8>, &[u8])> {
    let (length, behind) = rest.split_at_checked(2)?;
    let mut n = if mistake == Some(Mistake::LittleEndian) { length[1] as usize * 256 + length[0] as usize } else { length[0] as usize * 256 + length[1] as usize };
    if mistake == Some(Mistake::LengthOfRecord) {
        n = n.saturating_sub(2);
    }
    if mistake == Some(Mistake::RestIsChunk) {
        n = n.min(behind.len());
    }
    let (chunk, behind) = behind.split_at_checked(n)?;
    let mut chunk = chunk.to_vec();
    if mistake == Some(Mistake::WholeRecord) && chunk.len() >= 4 {
        let n = chunk.len() as u16;
        chunk[2..4].copy_from_slice(&n.to_be_bytes());
    }
    Some((chunk, behind))
}

/// The push's answer, or the refusal of reading or pushing.
fn push(queue: &mut Tsns, chunk: &[u8], mistake: Option<Mistake>) -> Result<bool, u8> {
    let (fields, data) = codec::data(chunk, Wrong(None))?;
    if mistake == Some(Mistake::QueueRenewed) {
        queue.renew();
    }
    let cumulative = match mistake {
        Some(Mistake::EarlyAfter1) => 1,
        Some(Mistake::OldStored) => fields.tsn.wrapping_sub(1),
        _ => 0,
    };
    match queue.push(&fields, data.len() as u16, cumulative) {
        Err(8) if mistake == Some(Mistake::FullForgets) => Ok(false),
        answer => answer,
    }
}

/// Where an answer counts: stored, turned away, refused.
fn place(answer: Result<bool, u8>, mistake: Option<Mistake>) -> usize {
    match answer {
        Ok(true) => 0,
        Ok(false) => 1,
        Err(_) if mistake == Some(Mistake::RefusedAway) => 1,
        Err(_) => 2,
    }
}

/// All that is written of a file, at most so many records of it.
pub fn replayed(file: &[u8], most: u64, mistake: Option<Mistake>) -> String {
    let mut rest = match file.split_first() {
        Some((1, rest)) => rest,
        Some((_, rest)) if mistake == Some(Mistake::AnyVersion) => rest,
        None if mistake == Some(Mistake::EmptyKnown) => &[],
        _ => return "bad version\n".into(),
    };
    let (mut text, mut counts) = (String::new(), [0u32; 4]);
    let mut queue = Tsns::new(Serial::default());
    let mut number = 0;
    while number < most && !rest.is_empty() {
        if mistake == Some(Mistake::ShortIsEnd) && rest.len() < 2 {
            break;
        }
        let shown = number + u64::from(mistake == Some(Mistake::NumberedFromOne));
        let Some((chunk, behind)) = record(rest, mistake) else {
            let _ = writeln!(text, "{shown} cut");
            if mistake == Some(Mistake::CutGoesOn) {
                return text;
            }
            let counted = if mistake == Some(Mistake::CutRefused) { 2 } else { 3 };
            counts[counted] += u32::from(mistake != Some(Mistake::CutUncounted));
            break;
        };
        let answer = push(&mut queue, &chunk, mistake);
        let _ = match answer {
            Ok(stored) => writeln!(text, "{shown} {}", if stored { 'T' } else { 'F' }),
            Err(refusal) => writeln!(text, "{shown} {refusal}"),
        };
        let count = &mut counts[place(answer, mistake)];
        *count = count.saturating_add(1);
        (rest, number) = (behind, number + 1);
    }
    if mistake == Some(Mistake::LimitCuts) && number == most && !rest.is_empty() {
        counts[3] += 1;
    }
    let [stored, away, refused, cut] = counts;
    let _ = writeln!(text, "total {stored} {away} {refused} {cut}");
    text
}
