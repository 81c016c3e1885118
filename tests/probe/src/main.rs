//! The probe: each request line becomes one call of an exported function, or a call for each operation on a panel, and its answer one line.
//!
//! It decides nothing itself. The program op runs the built routing program: target/bin/router of the repository that the probe was built in,
//! or the one that SILIENVO_ROUTER names.

mod edit;
mod program;

use silienvo::{Connection, Refusal, Replied, Verdict};
use wire::{Answer, Bad, Request};

fn main() -> std::io::Result<()> {
    let router = program::find();
    wire::serve(std::io::stdin().lock(), std::io::stdout().lock(), |request| answer(request, router.as_deref()))
}

fn answer(request: Request, router: Option<&std::path::Path>) -> Result<Answer, Bad> {
    Ok(match request {
        Request::Read { file } => match silienvo::read(&file) {
            Err(refusal) => refused(refusal, None),
            Ok(job) => {
                let sizes = [job.columns, job.tracks, job.connections, job.limit].map(u64::from);
                Answer::new("job", &[&sizes[..], &[job.start, job.length]].concat(), None)
            }
        },
        Request::Route { file, budget, mut labels } => verdict(silienvo::route(&file, budget, &mut labels), labels),
        Request::Judge { file, labels } => match silienvo::judge(&file, &labels) {
            Err(refusal) => refused(refusal, None),
            Ok(()) => Answer::new("legal", &[], None),
        },
        Request::Line { file, number, mut buffer } => written("line", silienvo::line(&file, number, &mut buffer), buffer),
        Request::Reply { file, text, mut labels } => match silienvo::reply(&file, &text, &mut labels) {
            Err(refusal) => refused(refusal, Some(labels)),
            Ok(Replied::Accepted) => Answer::new("accepted", &[], Some(labels)),
            Ok(Replied::Claimed) => Answer::new("claimed", &[], Some(labels)),
            Ok(Replied::Unknown) => Answer::new("unknown", &[], Some(labels)),
        },
        Request::P1 { connections, limit, mut buffer } => written("file", silienvo::p1_write(&connections, limit, &mut buffer), buffer),
        Request::P1Route { connections, limit, budget, mut labels } => {
            let records: Vec<Connection> = connections.chunks_exact(3).map(|b| Connection { left: b[0], right: b[1], mark: b[2] }).collect();
            verdict(silienvo::p1_route(&records, limit, budget, &mut labels), labels)
        }
        Request::Program { input } => {
            let printed = router.and_then(|router| program::run(router, &input)).ok_or(Bad::NoSuchOp)?;
            Answer::new("", &[], Some(printed))
        }
        Request::Edit { columns, tracks, ops } => edit::edit(columns, tracks, &ops),
        Request::Panel { panel, ops } => edit::panel(&panel, &ops),
        Request::PanelRoute { panel, ops, limit, budget, mut labels } => verdict(edit::route(&panel, &ops, limit, budget, &mut labels), labels),
    })
}

fn refused(refusal: Refusal, buffer: Option<Vec<u8>>) -> Answer {
    Answer::new("refused", &[u64::from(refusal.number), refusal.place], buffer)
}

fn written(word: &'static str, result: Result<u64, Refusal>, buffer: Vec<u8>) -> Answer {
    match result {
        Err(refusal) => refused(refusal, Some(buffer)),
        Ok(length) => Answer::new(word, &[length], Some(buffer)),
    }
}

fn verdict(result: Result<Verdict, Refusal>, buffer: Vec<u8>) -> Answer {
    match result {
        Err(refusal) => refused(refusal, Some(buffer)),
        Ok(Verdict::Routed(trials)) => Answer::new("routed", &[trials], Some(buffer)),
        Ok(Verdict::Unroutable(trials)) => Answer::new("unroutable", &[trials], Some(buffer)),
        Ok(Verdict::Undecided(trials)) => Answer::new("undecided", &[trials], Some(buffer)),
    }
}
