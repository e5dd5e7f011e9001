//! What units that fit together put out, and how they end, by recursion over the expressions.

use crate::units::{Expr, Operation, Procedure, Unit, Word};

/// Why units do not fit together: two have one name; or a want is not met, or the first unit
/// offers no procedure 0 without arguments.
#[derive(Clone, Copy, Debug, PartialEq, Eq)]
pub enum Misfit {
    Twice,
    Missing,
}

/// Whether units fit together. That each call is of a callee that is there, with as many
/// arguments, was looked at when each unit was read.
pub fn fit_together(units: &[&Unit]) -> Result<(), Misfit> {
    for (place, unit) in units.iter().enumerate() {
        if units[..place].iter().any(|other| other.name == unit.name) {
            return Err(Misfit::Twice);
        }
    }
    for want in units.iter().flat_map(|unit| &unit.wants) {
        let met = units.iter().any(|unit| {
            unit.name == want.unit && unit.offers_procedure(want.procedure, want.arguments)
        });
        if !met {
            return Err(Misfit::Missing);
        }
    }
    match units.first() {
        Some(first) if first.offers_procedure(0, 0) => Ok(()),
        _ => Err(Misfit::Missing),
    }
}

/// The height of an expression.
pub fn height(expr: &Expr) -> u64 {
    match expr {
        Expr::Number(_) | Expr::Argument(_) | Expr::Own(_) | Expr::Take => 1,
        Expr::Operate(_, first, second) => height(first).max(height(second) + 1),
        Expr::If(test, yes, no) => height(test).max(height(yes)).max(height(no)),
        Expr::Then(first, second) => height(first).max(height(second)),
        Expr::Keep(_, part) | Expr::Out(part) => height(part),
        Expr::Call(_, arguments) => {
            let mut highest = 1;
            for (before, argument) in arguments.iter().enumerate() {
                highest = highest.max(height(argument) + before as u64);
            }
            highest
        }
    }
}

/// The words of room that a call of a procedure takes.
pub fn frame(procedure: &Procedure) -> u64 {
    4 + procedure.arguments as u64 + height(&procedure.body)
}

pub fn operate(operation: Operation, first: Word, second: Word) -> Word {
    match operation {
        Operation::Add => first.wrapping_add(second),
        Operation::Sub => first.wrapping_sub(second),
        Operation::Mul => first.wrapping_mul(second),
        Operation::Div => first.checked_div(second).unwrap_or(0),
        Operation::Less => Word::from(first < second),
        Operation::Same => Word::from(first == second),
    }
}

#[derive(Clone, Copy, Debug, PartialEq, Eq)]
pub enum Ending {
    Done,
    NoCalls,
    NoRoom,
}

/// What a run met with on its way. It has no part in what the run puts out.
#[derive(Clone, Debug, Default)]
pub struct Counts {
    pub calls: u64,
    pub deepest: u64,
    pub most_room: u64,
    pub expressions: u64,
    pub divisions_by_0: u64,
    pub takes: u64,
    pub takes_behind_the_tape: u64,
    pub calls_across_units: u64,
    /// How often each procedure of each unit was called.
    pub called: Vec<Vec<u64>>,
}

#[derive(Clone, Debug)]
pub struct Outcome {
    pub out: Vec<Word>,
    pub ending: Ending,
    pub counts: Counts,
}

/// A run that ends before the program is done.
#[derive(Clone, Copy)]
enum Stop {
    NoCalls,
    NoRoom,
}

struct Run<'a> {
    units: &'a [&'a Unit],
    frames: Vec<Vec<u64>>,
    words: Vec<Vec<Word>>,
    tape: &'a [Word],
    taken: usize,
    out: Vec<Word>,
    all_room: u64,
    room: u64,
    calls: u64,
    active: u64,
    counts: Counts,
}

/// Runs units that fit together: a call of the first unit's procedure 0.
pub fn run(units: &[&Unit], tape: &[Word], room: Word, calls: Word) -> Outcome {
    let frames_of = |unit: &&Unit| unit.procedures.iter().map(frame).collect();
    let none_called = |unit: &&Unit| vec![0; unit.procedures.len()];
    let mut run = Run {
        units,
        frames: units.iter().map(frames_of).collect(),
        words: units.iter().map(|unit| vec![0; unit.words]).collect(),
        tape,
        taken: 0,
        out: vec![],
        all_room: u64::from(room),
        room: u64::from(room),
        calls: u64::from(calls),
        active: 0,
        counts: Counts::default(),
    };
    run.counts.called = units.iter().map(none_called).collect();
    let ending = match run.call(0, 0, &[]) {
        Ok(_) => Ending::Done,
        Err(Stop::NoCalls) => Ending::NoCalls,
        Err(Stop::NoRoom) => Ending::NoRoom,
    };
    Outcome { out: run.out, ending, counts: run.counts }
}

impl Run<'_> {
    fn call(&mut self, unit: usize, procedure: usize, arguments: &[Word]) -> Result<Word, Stop> {
        if self.calls == 0 {
            return Err(Stop::NoCalls);
        }
        self.calls -= 1;
        let frame = self.frames[unit][procedure];
        if frame > self.room {
            return Err(Stop::NoRoom);
        }
        self.room -= frame;
        self.count_call(unit, procedure);
        let units = self.units;
        let body = &units[unit].procedures[procedure].body;
        let value = self.value(unit, arguments, body)?;
        self.room += frame;
        self.active -= 1;
        Ok(value)
    }

    fn count_call(&mut self, unit: usize, procedure: usize) {
        self.active += 1;
        let counts = &mut self.counts;
        counts.calls += 1;
        counts.deepest = counts.deepest.max(self.active);
        counts.most_room = counts.most_room.max(self.all_room - self.room);
        counts.called[unit][procedure] += 1;
    }

    /// The value of an expression in the body of a procedure of a unit.
    fn value(&mut self, unit: usize, arguments: &[Word], expr: &Expr) -> Result<Word, Stop> {
        self.counts.expressions += 1;
        match expr {
            Expr::Number(number) => Ok(*number),
            Expr::Argument(number) => Ok(arguments[*number]),
            Expr::Own(word) => Ok(self.words[unit][*word]),
            Expr::Operate(operation, first, second) => {
                let first = self.value(unit, arguments, first)?;
                let second = self.value(unit, arguments, second)?;
                let by_0 = *operation == Operation::Div && second == 0;
                self.counts.divisions_by_0 += u64::from(by_0);
                Ok(operate(*operation, first, second))
            }
            Expr::If(test, yes, no) => {
                let test = self.value(unit, arguments, test)?;
                self.value(unit, arguments, if test != 0 { yes } else { no })
            }
            Expr::Keep(word, part) => {
                let value = self.value(unit, arguments, part)?;
                self.words[unit][*word] = value;
                Ok(value)
            }
            Expr::Then(first, second) => {
                self.value(unit, arguments, first)?;
                self.value(unit, arguments, second)
            }
            Expr::Out(part) => {
                let value = self.value(unit, arguments, part)?;
                self.out.push(value);
                Ok(value)
            }
            Expr::Take => Ok(self.take()),
            Expr::Call(callee, parts) => {
                let given: Result<Vec<Word>, Stop> =
                    parts.iter().map(|part| self.value(unit, arguments, part)).collect();
                self.call_of(unit, *callee, &given?)
            }
        }
    }

    /// A call out of the body of a procedure of a unit.
    fn call_of(&mut self, unit: usize, callee: usize, given: &[Word]) -> Result<Word, Stop> {
        let (callee_unit, procedure) = self.callee(unit, callee);
        self.counts.calls_across_units += u64::from(callee_unit != unit);
        self.call(callee_unit, procedure, given)
    }

    fn take(&mut self) -> Word {
        self.counts.takes += 1;
        match self.tape.get(self.taken) {
            Some(word) => {
                self.taken += 1;
                *word
            }
            None => {
                self.counts.takes_behind_the_tape += 1;
                0
            }
        }
    }

    /// The unit and the procedure that a callee of a unit is.
    fn callee(&self, unit: usize, callee: usize) -> (usize, usize) {
        let wants = &self.units[unit].wants;
        match wants.get(callee) {
            None => (unit, callee - wants.len()),
            Some(want) => {
                let named = |other: &&Unit| other.name == want.unit;
                let wanted = self.units.iter().position(named);
                (wanted.expect("units that fit together"), want.procedure as usize)
            }
        }
    }
}
