//! A difference made short: as few calls as show it, and their operands as small as show it.
use crate::answerers::Answerers;
use crate::model::Model;
use crate::run::{Explained, Lines, parting, split};
use crate::simpler::{simpler, tsns};
use crate::{Mode, domain};
use calls::{Answers, Call};
use std::time::{Duration, Instant};

struct Shrink<'a> {
    mode: Mode,
    who: &'a Answerers,
    /// The call that parts, as it was found.
    found: Option<Call>,
    tries: u64,
    until: Instant,
}

/// All that was answered to some calls.
pub struct Answered {
    model: Vec<u8>,
    replies: Vec<u8>,
    oracle: Option<Vec<u8>>,
}

/// Shortens the run, or, where that alone does not show the difference, all calls up to it.
pub fn shrink(mode: Mode, who: &Answerers, run: Vec<Call>, all: Vec<Call>) -> (Vec<Call>, u64) {
    let mut shrink = Shrink { mode, who, found: all.last().cloned(), tries: 0, until: Instant::now() + Duration::from_secs(60) };
    let (run, all) = (shrink.inside_only(run), shrink.inside_only(all));
    let mut calls = shrink.shows(&run).unwrap_or(all);
    loop {
        let before = calls.clone();
        calls = shrink.fewer(calls);
        calls = shrink.seen_sooner(calls);
        calls = shrink.without_two(calls);
        calls = shrink.shifted(calls);
        calls = shrink.smaller(calls);
        if calls == before || shrink.late() {
            return (calls, shrink.tries);
        }
    }
}

impl Shrink<'_> {
    fn late(&self) -> bool {
        Instant::now() > self.until
    }

    /// The calls up to the first that parts, if one does. In mode `in` all stay inside the domain, but for the one that was found to part.
    fn shows(&mut self, calls: &[Call]) -> Option<Vec<Call>> {
        self.tries += 1;
        let answered = answered(self.who, calls).ok()?;
        let index = parting(calls, &answered.model, &answered.replies, answered.oracle.as_deref(), &mut Explained::new())?;
        let calls = &calls[..calls.len().min(index + 1)];
        let mut model = Model::new();
        let mut line = Vec::new();
        for (i, call) in calls.iter().enumerate() {
            let as_found = i + 1 == calls.len() && self.found.as_ref() == Some(call);
            if self.mode == Mode::In && !as_found && !domain::inside(&model, call) {
                return None;
            }
            model.answer(call, &mut line);
            line.clear();
        }
        Some(calls.to_vec())
    }

    /// Without this part of the calls, and the next one of its size, down to single calls.
    fn fewer(&mut self, mut calls: Vec<Call>) -> Vec<Call> {
        let mut size = calls.len() / 2;
        while size > 0 && !self.late() {
            let mut from = 0;
            while from < calls.len() && !self.late() {
                let to = (from + size).min(calls.len());
                let without = [&calls[..from], &calls[to..]].concat();
                match self.shows(&without) {
                    Some(shorter) => calls = shorter,
                    None => from = to,
                }
            }
            size /= 2;
        }
        calls
    }

    /// In mode `in` without the calls that are outside, which a difference explains; the last stays.
    fn inside_only(&self, mut calls: Vec<Call>) -> Vec<Call> {
        let (mut model, mut line) = (Model::new(), Vec::new());
        let last = calls.pop();
        calls.retain(|call| {
            let keep = self.mode == Mode::Out || domain::inside(&model, call);
            if keep {
                model.answer(call, &mut line);
                line.clear();
            }
            keep
        });
        calls.extend(last);
        calls
    }

    /// With a look at a state in place of the last calls, where that shows it.
    fn seen_sooner(&mut self, calls: Vec<Call>) -> Vec<Call> {
        for end in 1..calls.len().min(60) {
            for state in [Call::PqState {}, Call::RqState {}] {
                let sooner = [&calls[..end], &[state]].concat();
                if let Some(sooner) = self.shows(&sooner).filter(|sooner| sooner.len() < calls.len()) {
                    return sooner;
                }
            }
        }
        calls
    }

    /// Without two calls, where few are left.
    fn without_two(&mut self, mut calls: Vec<Call>) -> Vec<Call> {
        let (mut i, mut j) = (0, 1);
        while i + 2 < calls.len() && calls.len() <= 24 && !self.late() {
            let mut without = calls.clone();
            without.remove(j);
            without.remove(i);
            if let Some(shorter) = self.shows(&without) {
                (calls, i, j) = (shorter, 0, 0);
            }
            (i, j) = if j + 2 < calls.len() { (i, j + 1) } else { (i + 1, i + 2) };
        }
        calls
    }

    /// With all TSNs moved together so that one of them is 1, where that makes them smaller; and with all streams 0.
    fn shifted(&mut self, mut calls: Vec<Call>) -> Vec<Call> {
        let all = |calls: &[Call]| calls.to_vec().iter_mut().flat_map(|call| tsns(call).into_iter().map(|tsn| *tsn).collect::<Vec<u32>>()).collect::<Vec<u32>>();
        let sum = |calls: &[Call]| all(calls).into_iter().map(u64::from).sum::<u64>();
        for by in all(&calls) {
            let mut moved = calls.clone();
            moved.iter_mut().flat_map(tsns).for_each(|tsn| *tsn = tsn.wrapping_sub(by).wrapping_add(1));
            if sum(&moved) < sum(&calls) {
                calls = self.shows(&moved).unwrap_or(calls);
            }
        }
        let (mut zero, mut own) = (calls.clone(), [0; 2]);
        for call in &mut zero {
            match call {
                Call::RqNew { stream, .. } => own = std::mem::take(stream).to_be_bytes(),
                Call::RqPush { fields, .. } => fields.stream = 0,
                Call::RqApplyForward { part, .. } => part.chunks_mut(4).filter(|pair| pair.starts_with(&own)).for_each(|pair| pair[..2].fill(0)),
                _ => {}
            }
        }
        self.shows(&zero).unwrap_or(calls)
    }

    /// With smaller operands.
    fn smaller(&mut self, mut calls: Vec<Call>) -> Vec<Call> {
        let mut at = 0;
        while at < calls.len() && !self.late() {
            let found = simpler(&calls[at]).into_iter().find_map(|call| {
                let mut other = calls.clone();
                other[at] = call;
                self.shows(&other)
            });
            match found {
                Some(other) => calls = other,
                None => at += 1,
            }
        }
        calls
    }
}

pub fn answered(who: &Answerers, calls: &[Call]) -> Result<Answered, String> {
    let (mut stream, mut model) = (Vec::new(), Vec::new());
    calls.iter().for_each(|call| call.encode(&mut stream));
    calls::reply(&mut Model::new(), &stream, &mut model);
    let replies = who.replies.lines(&stream)?;
    let oracle = who.oracle.as_ref().map(|oracle| oracle.lines(&stream)).transpose()?;
    Ok(Answered { model, replies, oracle })
}

/// Each call with its lines: one where all answer the same.
pub fn print(who: &Answerers, calls: &[Call]) {
    let Ok(answered) = answered(who, calls) else { return };
    let skipped = calls.len().saturating_sub(60);
    if skipped > 0 {
        println!("  .. {skipped} calls ..");
    }
    let mut model = split(&answered.model);
    let mut replies = split(&answered.replies);
    let mut oracle = answered.oracle.as_deref().map(split);
    for (index, call) in calls.iter().enumerate() {
        let lines = Lines { replies: replies.next(), model: model.next(), oracle: oracle.as_mut().and_then(Iterator::next) };
        if index < skipped {
            continue;
        }
        println!("  {}", cut(&format!("{call:?}")));
        let same = lines.replies == lines.model && (oracle.is_none() || lines.oracle == lines.model);
        let text = |line: Option<&[u8]>| cut(&line.map_or("(no line)".into(), String::from_utf8_lossy));
        if same {
            println!("      {}", text(lines.model));
            continue;
        }
        println!("      replies: {}", text(lines.replies));
        if oracle.is_some() {
            println!("      oracle:  {}", text(lines.oracle));
        }
        println!("      model:   {}", text(lines.model));
    }
}

/// Which of the answerers stands alone on the last call.
pub fn who_parts(who: &Answerers, calls: &[Call]) -> &'static str {
    let Ok(answered) = answered(who, calls) else { return "one of the programs does not run" };
    let last = |lines: &[u8]| split(lines).nth(calls.len() - 1).map(<[u8]>::to_vec);
    let (replies, model) = (last(&answered.replies), last(&answered.model));
    match answered.oracle.as_deref().map(last) {
        None => "replies and the model part",
        Some(oracle) if oracle == model => "replies parts from the oracle and the model",
        Some(oracle) if oracle == replies => "the model parts from replies and the oracle",
        Some(_) if replies == model => "the oracle parts from replies and the model",
        Some(_) => "all three part",
    }
}

/// The beginning and the end of a text that is long.
fn cut(text: &str) -> String {
    let n = text.chars().count();
    if n <= 600 { text.into() } else { text.chars().take(400).chain(" .. ".chars()).chain(text.chars().skip(n - 100)).collect() }
}

#[cfg(test)]
mod tests {
    use super::*;
    use crate::answerers::Who;
    use crate::generate::batch;
    use crate::model::fault::Fault;
    use crate::run::up_to;

    #[test]
    fn a_mistake_is_made_short() {
        let who = Answerers { replies: Who::Model(Some(Fault::DuplicateKept)), oracle: None };
        let batch = batch(Mode::Out, 3, 0, 20_000);
        let replies = who.replies.lines(&batch.stream()).unwrap();
        let index = parting(&batch.calls, &batch.lines, &replies, None, &mut Explained::new()).unwrap();
        let (run, all) = up_to(&batch, index);
        let (calls, _) = shrink(Mode::Out, &who, run, all);
        assert!(calls.len() <= 3, "{calls:?}");
        assert_eq!(who_parts(&who, &calls), "replies and the model part");
    }
}
