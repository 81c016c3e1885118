//! The second router's answers in the words of the probe's protocol.

use crate::{fast, records, slow, Refusal, Replied, Verdict};
use wire::{Answer, Edited, Request};

/// Which of the two answers.
#[derive(Clone, Copy, Debug, PartialEq, Eq)]
pub enum Way {
    Slow,
    Fast,
}

/// Answers a request.
pub fn answer(way: Way, request: Request) -> Answer {
    match way {
        Way::Slow => slow_answer(request),
        Way::Fast => fast_answer(request),
    }
}

/// The answer line to a request, without LF.
pub fn answer_text(way: Way, request: Request) -> Vec<u8> {
    let mut out = Vec::new();
    answer(way, request).write(&mut out);
    out.pop();
    out
}

macro_rules! answers {
    ($name:ident, $way:ident) => {
        fn $name(request: Request) -> Answer {
            match request {
                Request::Read { file } => read($way::read(&file).and_then(|job| Ok((job, $way::part_of_file(&file)?)))),
                Request::Route { file, budget, labels } => verdict($way::route(&file, budget, labels.len()), labels),
                Request::Judge { file, labels } => judge($way::judge(&file, &labels)),
                Request::Line { file, number, buffer } => written("line", $way::line(&file, number, buffer.len()), buffer),
                Request::Reply { file, text, labels } => replied($way::reply(&file, &text, labels.len()), labels),
                Request::P1 { connections, limit, buffer } => written("file", $way::p1(&connections, limit, buffer.len()), buffer),
                Request::P1Route { connections, limit, budget, labels } => {
                    verdict($way::p1_route(&records(&connections), limit, budget, labels.len()), labels)
                }
                Request::Program { input } => Answer::new("", &[], Some($way::program(&input))),
                Request::Edit { columns, tracks, ops } => edited($way::edit(columns, tracks, &ops)),
                Request::Panel { panel, ops } => {
                    let (edited, panel) = $way::panel(&panel, &ops);
                    Answer::edited("panel", edited, Some(panel.bytes()))
                }
                Request::PanelRoute { panel, ops, limit, budget, labels } => {
                    verdict($way::panel_route(&panel, &ops, limit, budget, labels.len()), labels)
                }
            }
        }
    };
}

answers!(slow_answer, slow);
answers!(fast_answer, fast);

fn refused(refusal: Refusal, buffer: Option<Vec<u8>>) -> Answer {
    Answer::new("refused", &[u64::from(refusal.number), refusal.place], buffer)
}

fn read(result: Result<(crate::Job, (usize, usize)), Refusal>) -> Answer {
    match result {
        Err(refusal) => refused(refusal, None),
        Ok((job, (start, length))) => {
            let numbers = [job.columns as u64, job.tracks.len() as u64, job.connections.len() as u64, job.limit as u64, start as u64, length as u64];
            Answer::new("job", &numbers, None)
        }
    }
}

fn judge(result: Result<(), Refusal>) -> Answer {
    match result {
        Err(refusal) => refused(refusal, None),
        Ok(()) => Answer::new("legal", &[], None),
    }
}

fn edited(result: Result<Vec<Edited>, Refusal>) -> Answer {
    match result {
        Err(refusal) => refused(refusal, None),
        Ok(edited) => Answer::edited("", edited, None),
    }
}

/// Bytes written from the front of a lent buffer; the rest stays.
fn over(mut buffer: Vec<u8>, bytes: &[u8]) -> Option<Vec<u8>> {
    buffer[..bytes.len()].copy_from_slice(bytes);
    Some(buffer)
}

fn written(word: &'static str, result: Result<Vec<u8>, Refusal>, buffer: Vec<u8>) -> Answer {
    match result {
        Err(refusal) => refused(refusal, Some(buffer)),
        Ok(bytes) => Answer::new(word, &[bytes.len() as u64], over(buffer, &bytes)),
    }
}

fn verdict(result: Result<Verdict, Refusal>, buffer: Vec<u8>) -> Answer {
    match result {
        Err(refusal) => refused(refusal, Some(buffer)),
        Ok(Verdict::Routed { labels, trials }) => Answer::new("routed", &[trials], over(buffer, &labels)),
        Ok(Verdict::Unroutable { trials }) => Answer::new("unroutable", &[trials], Some(buffer)),
        Ok(Verdict::Undecided { trials }) => Answer::new("undecided", &[trials], Some(buffer)),
    }
}

fn replied(result: Result<Replied, Refusal>, buffer: Vec<u8>) -> Answer {
    match result {
        Err(refusal) => refused(refusal, Some(buffer)),
        Ok(Replied::Accepted { labels }) => Answer::new("accepted", &[], over(buffer, &labels)),
        Ok(Replied::Claimed) => Answer::new("claimed", &[], Some(buffer)),
        Ok(Replied::Unknown) => Answer::new("unknown", &[], Some(buffer)),
    }
}
