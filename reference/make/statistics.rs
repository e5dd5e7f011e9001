//! What is in the sets: counted over their units and their runs.

use super::budgets::Program;
use crate::meaning::{Ending, Outcome};
use crate::sets::Set;
use crate::units::{Expr, Unit};

pub struct Entry<'a> {
    pub set: &'a Set,
    pub program: &'a Program,
    pub outcome: &'a Outcome,
}

type Feature = (&'static str, fn(&Entry) -> bool);

const FEATURES: [Feature; 18] = [
    ("end done", |entry| entry.outcome.ending == Ending::Done),
    ("end without calls", |entry| entry.outcome.ending == Ending::NoCalls),
    ("end without room", |entry| entry.outcome.ending == Ending::NoRoom),
    ("put out nothing", |entry| entry.outcome.out.is_empty()),
    ("wants in both directions between two units", both_directions),
    ("recursion through two or more units", recursion_over_units),
    ("a unit that wants a procedure of its own", wants_of_its_own),
    ("two wants of one procedure in a unit", |entry| any_unit(entry, wants_twice)),
    ("a want that no body calls", |entry| any_unit(entry, idle_want)),
    ("an offer made twice", |entry| any_unit(entry, offers_twice)),
    ("a procedure that is not offered, called in the run", not_offered_but_called),
    ("a unit of which nothing is called in the run", idle_unit),
    ("an operand held over a call", |entry| any_expr(entry, held_over_call)),
    ("a call with eight arguments", |entry| any_expr(entry, eight_arguments)),
    ("a number of 2^31 or more in the code", |entry| any_expr(entry, large_number)),
    ("a division by 0 in the run", |entry| entry.outcome.counts.divisions_by_0 > 0),
    ("words of the tape taken", |entry| entry.outcome.counts.takes > 0),
    ("words taken behind the tape's end", |entry| entry.outcome.counts.takes_behind_the_tape > 0),
];

type Measure = (&'static str, fn(&Entry) -> u64);

const MEASURES: [Measure; 16] = [
    ("units", |entry| entry.program.units.len() as u64),
    ("procedures of all units", |entry| over_units(entry, |unit| unit.procedures.len())),
    ("procedures of the largest unit", |entry| most_of(entry, |unit| unit.procedures.len())),
    ("wants of the largest unit", |entry| most_of(entry, |unit| unit.wants.len())),
    ("rows of the largest unit", |entry| {
        entry.set.units.iter().map(|rows| rows.len() as u64).max().unwrap_or(0)
    }),
    ("rows of all units and the unrelated one", |entry| {
        let rows = entry.set.units.iter().map(|rows| rows.len() as u64);
        rows.sum::<u64>() + entry.set.extra.len() as u64
    }),
    ("words of all units", |entry| over_units(entry, |unit| unit.words)),
    ("expressions in one another", |entry| {
        expressions(entry).iter().map(|expr| nested(expr) as u64).max().unwrap_or(0)
    }),
    ("room given", |entry| u64::from(entry.set.room)),
    ("calls in the run", |entry| entry.outcome.counts.calls),
    ("calls to another unit", |entry| entry.outcome.counts.calls_across_units),
    ("calls active at once", |entry| entry.outcome.counts.deepest),
    ("room taken at once", |entry| entry.outcome.counts.most_room),
    ("expressions worked out in the run", |entry| entry.outcome.counts.expressions),
    ("words on the tape", |entry| entry.program.tape.len() as u64),
    ("words put out", |entry| entry.outcome.out.len() as u64),
];

/// The statistics as lines of text.
pub fn text(entries: &[Entry]) -> String {
    let mut text = String::new();
    for (name, holds) in FEATURES {
        let count = entries.iter().filter(|entry| holds(entry)).count();
        text.push_str(&format!("{count:5}  sets: {name}\n"));
    }
    text.push_str("\n    least   median      most\n");
    for (name, measure) in MEASURES {
        let mut values: Vec<u64> = entries.iter().map(measure).collect();
        values.sort_unstable();
        let (least, most) = (values[0], values[values.len() - 1]);
        let median = values[values.len() / 2];
        text.push_str(&format!("{least:9}{median:9}{most:10}  {name}\n"));
    }
    text.push_str("\nsets by their number of units, from 1 to 8:");
    for count in 1..=8 {
        let sets = entries.iter().filter(|entry| entry.program.units.len() == count).count();
        text.push_str(&format!(" {sets}"));
    }
    text.push('\n');
    text
}

fn over_units(entry: &Entry, number: fn(&Unit) -> usize) -> u64 {
    entry.program.units.iter().map(|unit| number(unit) as u64).sum()
}

fn most_of(entry: &Entry, number: fn(&Unit) -> usize) -> u64 {
    entry.program.units.iter().map(|unit| number(unit) as u64).max().unwrap_or(0)
}

fn any_unit(entry: &Entry, holds: fn(&Unit) -> bool) -> bool {
    entry.program.units.iter().any(holds)
}

/// All expressions of the units, with those in them.
fn expressions<'a>(entry: &Entry<'a>) -> Vec<&'a Expr> {
    let mut all = vec![];
    for procedure in entry.program.units.iter().flat_map(|unit| &unit.procedures) {
        with_parts(&procedure.body, &mut all);
    }
    all
}

fn with_parts<'a>(expr: &'a Expr, all: &mut Vec<&'a Expr>) {
    all.push(expr);
    for part in expr.parts() {
        with_parts(part, all);
    }
}

fn any_expr(entry: &Entry, holds: fn(&Expr) -> bool) -> bool {
    expressions(entry).into_iter().any(holds)
}

/// How deep expressions stand in one another: 1 for one without parts.
pub fn nested(expr: &Expr) -> usize {
    1 + expr.parts().into_iter().map(nested).max().unwrap_or(0)
}

fn has_call(expr: &Expr) -> bool {
    matches!(expr, Expr::Call(..)) || expr.parts().into_iter().any(has_call)
}

fn held_over_call(expr: &Expr) -> bool {
    matches!(expr, Expr::Operate(_, _, second) if has_call(second))
}

fn eight_arguments(expr: &Expr) -> bool {
    matches!(expr, Expr::Call(_, arguments) if arguments.len() == 8)
}

fn large_number(expr: &Expr) -> bool {
    matches!(expr, Expr::Number(number) if *number >= 1 << 31)
}

fn wants_twice(unit: &Unit) -> bool {
    let wants = &unit.wants;
    (0..wants.len()).any(|place| wants[..place].contains(&wants[place]))
}

fn idle_want(unit: &Unit) -> bool {
    let mut called = vec![];
    for procedure in &unit.procedures {
        callees(&procedure.body, &mut called);
    }
    (0..unit.wants.len()).any(|want| !called.contains(&want))
}

fn offers_twice(unit: &Unit) -> bool {
    let offers = &unit.offers;
    (0..offers.len()).any(|place| offers[..place].contains(&offers[place]))
}

fn wants_of_its_own(entry: &Entry) -> bool {
    any_unit(entry, |unit| unit.wants.iter().any(|want| want.unit == unit.name))
}

fn both_directions(entry: &Entry) -> bool {
    let wants = |from: &Unit, to: &Unit| from.wants.iter().any(|want| want.unit == to.name);
    let units = &entry.program.units;
    units.iter().any(|one| {
        units.iter().any(|other| one.name != other.name && wants(one, other) && wants(other, one))
    })
}

fn not_offered_but_called(entry: &Entry) -> bool {
    let called = entry.program.units.iter().zip(&entry.outcome.counts.called);
    called.into_iter().any(|(unit, counts)| {
        (0..counts.len()).any(|place| counts[place] > 0 && !unit.offers.contains(&place))
    })
}

fn idle_unit(entry: &Entry) -> bool {
    entry.outcome.counts.called.iter().any(|counts| counts.iter().sum::<u64>() == 0)
}

fn callees(expr: &Expr, called: &mut Vec<usize>) {
    if let Expr::Call(callee, _) = expr {
        called.push(*callee);
    }
    for part in expr.parts() {
        callees(part, called);
    }
}

/// The procedures that a procedure's body calls, by the units' places.
fn edges(units: &[Unit], (place, procedure): (usize, usize)) -> Vec<(usize, usize)> {
    let unit = &units[place];
    let mut called = vec![];
    callees(&unit.procedures[procedure].body, &mut called);
    let target = |callee: usize| match unit.wants.get(callee) {
        None => (place, callee - unit.wants.len()),
        Some(want) => {
            let wanted = units.iter().position(|other| other.name == want.unit);
            (wanted.expect("units that fit together"), want.procedure as usize)
        }
    };
    called.into_iter().map(target).collect()
}

fn reached(units: &[Unit], from: (usize, usize)) -> Vec<(usize, usize)> {
    let mut reached = edges(units, from);
    let mut at = 0;
    while at < reached.len() {
        for next in edges(units, reached[at]) {
            if !reached.contains(&next) {
                reached.push(next);
            }
        }
        at += 1;
    }
    reached
}

/// A procedure that was called, and that reaches itself through another unit.
fn recursion_over_units(entry: &Entry) -> bool {
    let units = &entry.program.units;
    let called = &entry.outcome.counts.called;
    let reached_from = |place: usize| -> Vec<Vec<(usize, usize)>> {
        (0..called[place].len())
            .map(|number| match called[place][number] {
                0 => vec![],
                _ => reached(units, (place, number)),
            })
            .collect()
    };
    let all: Vec<Vec<Vec<(usize, usize)>>> = (0..units.len()).map(reached_from).collect();
    (0..units.len()).any(|place| {
        (0..all[place].len()).any(|number| {
            let through = |&(unit, other): &(usize, usize)| {
                unit != place && all[unit][other].contains(&(place, number))
            };
            all[place][number].iter().any(through)
        })
    })
}
