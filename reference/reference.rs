//! Says what sets of units put out and how they end, by the definition in words.

mod meaning;
mod sets;
mod units;

use meaning::{fit_together, run, Ending, Misfit, Outcome};
use sets::{read_sets, Set};
use std::io::Write;
use std::process::ExitCode;
use units::{read_unit, Unit};

const STACK_BYTES: usize = 512 << 20;
const USAGE: &str = "usage: reference [--details] SETS...";

/// What a set does.
enum Verdict {
    /// A unit's rows say no unit, for this reason.
    NoUnit(String),
    Misfit(Misfit),
    Ran(Box<Outcome>),
}

fn main() -> ExitCode {
    let on_large_stack = std::thread::Builder::new().stack_size(STACK_BYTES).spawn(work);
    let result = on_large_stack.expect("a thread").join().expect("no panic");
    match result {
        Ok(()) => ExitCode::SUCCESS,
        Err(error) => {
            eprintln!("reference: {error}");
            ExitCode::FAILURE
        }
    }
}

fn work() -> Result<(), String> {
    let mut paths: Vec<String> = std::env::args().skip(1).collect();
    let details = paths.first().is_some_and(|option| option == "--details");
    if details {
        paths.remove(0);
    }
    if paths.is_empty() {
        return Err(USAGE.to_string());
    }
    for path in &paths {
        let report = report(path, details).map_err(|error| format!("{path}: {error}"))?;
        let report = if paths.len() > 1 { format!("{path}\n{report}") } else { report };
        let written = std::io::stdout().write_all(report.as_bytes());
        written.map_err(|error| error.to_string())?;
    }
    Ok(())
}

/// A line for each of the file's sets.
fn report(path: &str, details: bool) -> Result<String, String> {
    let text = std::fs::read_to_string(path).map_err(|error| error.to_string())?;
    let sets = read_sets(&text)?;
    let mut fitting = 0;
    let mut report = String::new();
    for (place, set) in sets.iter().enumerate() {
        let number = place + 1;
        let verdict = judge(set).map_err(|error| format!("set {number}: {error}"))?;
        fitting += usize::from(matches!(verdict, Verdict::Ran(_)));
        report.push_str(&format!("set {number}: {}\n", verdict.text()));
        if details {
            report.push_str(&format!("    {}\n", verdict.details()));
        }
    }
    eprintln!("reference: {path}: {} sets, {fitting} of units that fit together", sets.len());
    Ok(report)
}

/// What a set does in every way of linking. The error says which way differs.
fn judge(set: &Set) -> Result<Verdict, String> {
    let mut units = vec![];
    for rows in &set.units {
        match read_unit(rows) {
            Ok(unit) => units.push(unit),
            Err(reason) => return Ok(Verdict::NoUnit(reason)),
        }
    }
    units.push(read_unit(&set.extra).map_err(|error| format!("the unrelated unit: {error}"))?);
    let mut verdicts = vec![];
    for way in ways(set) {
        verdicts.push(judge_way(set, &units, &way));
    }
    let first = verdicts.remove(0);
    match verdicts.iter().position(|other| other.text() != first.text()) {
        None => Ok(first),
        Some(place) => Err(format!("way {} differs", place + 2)),
    }
}

/// The ways of linking: each order, and the first order with the unrelated unit. Units are given
/// by their places; the unrelated unit's is the number of units.
fn ways(set: &Set) -> Vec<Vec<usize>> {
    let mut ways = set.orders.clone();
    let mut with_extra = set.orders[0].clone();
    with_extra.insert(set.place, set.units.len());
    ways.push(with_extra);
    ways
}

fn judge_way(set: &Set, units: &[Unit], way: &[usize]) -> Verdict {
    let linked: Vec<&Unit> = way.iter().map(|&place| &units[place]).collect();
    match fit_together(&linked) {
        Err(misfit) => Verdict::Misfit(misfit),
        Ok(()) => Verdict::Ran(Box::new(run(&linked, &set.tape, set.room, set.calls))),
    }
}

impl Verdict {
    fn text(&self) -> String {
        match self {
            Verdict::NoUnit(_) => "no unit".to_string(),
            Verdict::Misfit(Misfit::Twice) => "twice".to_string(),
            Verdict::Misfit(Misfit::Missing) => "missing".to_string(),
            Verdict::Ran(outcome) => outcome_text(outcome),
        }
    }

    fn details(&self) -> String {
        match self {
            Verdict::NoUnit(reason) => reason.clone(),
            Verdict::Misfit(_) => "the units do not fit together".to_string(),
            Verdict::Ran(outcome) => {
                let counts = &outcome.counts;
                format!(
                    "{} calls, at most {} active at once in {} words of room, {} expressions",
                    counts.calls, counts.deepest, counts.most_room, counts.expressions
                )
            }
        }
    }
}

/// The words put out and how it ended.
fn outcome_text(outcome: &Outcome) -> String {
    let mut text = String::new();
    for word in &outcome.out {
        text.push_str(&word.to_string());
        text.push(' ');
    }
    text + match outcome.ending {
        Ending::Done => "done",
        Ending::NoCalls => "no calls",
        Ending::NoRoom => "no room",
    }
}
