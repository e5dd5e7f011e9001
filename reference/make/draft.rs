//! Programs before their wants are written down: a callee is named by its unit and procedure.

use super::chance::Chance;
use crate::units::{Expr, Operation, Procedure, Unit, Want, Word};

/// A procedure of a unit as the target of calls. Way 0 is the usual one: the procedure itself
/// within its own unit, and a want from elsewhere. Any other way is a want of its own, also
/// within its own unit.
#[derive(Clone, Copy, Debug, PartialEq, Eq)]
pub struct Target {
    pub unit: usize,
    pub procedure: usize,
    pub way: usize,
}

const WAYS: usize = 2;
const PROCEDURES: usize = 256;

impl Target {
    /// The number that stands for a target in a draft's bodies.
    pub fn number(self) -> usize {
        (self.unit * PROCEDURES + self.procedure) * WAYS + self.way
    }

    pub fn of_number(number: usize) -> Target {
        let procedure = number / WAYS;
        Target {
            unit: procedure / PROCEDURES,
            procedure: procedure % PROCEDURES,
            way: number % WAYS,
        }
    }
}

#[derive(Clone, Debug)]
pub struct DraftUnit {
    pub words: usize,
    pub procedures: Vec<Procedure>,
    /// Procedures that are offered even if nobody wants them.
    pub offers: Vec<usize>,
    /// Wants that stand there even if nobody calls them.
    pub wants: Vec<Target>,
}

#[derive(Clone, Debug)]
pub struct Draft {
    pub units: Vec<DraftUnit>,
    pub tape: Vec<Word>,
}

/// A draft from text: of each unit its words and procedures, of each procedure its arguments
/// and body.
pub fn draft(units: &[(usize, &[(usize, &str)])], tape: &[Word]) -> Draft {
    let unit = |&(words, procedures): &(usize, &[(usize, &str)])| DraftUnit {
        words,
        procedures: procedures
            .iter()
            .map(|&(arguments, body)| Procedure { arguments, body: expr(body) })
            .collect(),
        offers: vec![],
        wants: vec![],
    };
    Draft { units: units.iter().map(unit).collect(), tape: tape.to_vec() }
}

/// Reads an expression: a number, `a0` an argument, `w0` a word, `take`, or in parentheses
/// `+ - * / < =` with two, `if` with three, `keep` with a word and one, `then` with several,
/// `out` with one, `1.0` a call of unit 1's procedure 0 (`1.0!` the other way) with arguments.
pub fn expr(text: &str) -> Expr {
    let spaced = text.replace('(', " ( ").replace(')', " ) ");
    let parts: Vec<&str> = spaced.split_ascii_whitespace().collect();
    let mut at = 0;
    let expr = read(&parts, &mut at);
    assert!(at == parts.len(), "text behind the expression: {text}");
    expr
}

fn read(parts: &[&str], at: &mut usize) -> Expr {
    let part = parts[*at];
    *at += 1;
    match part {
        "take" => Expr::Take,
        "(" => {
            let head = parts[*at];
            *at += 1;
            let mut inner = vec![];
            while parts[*at] != ")" {
                inner.push(read(parts, at));
            }
            *at += 1;
            combined(head, inner)
        }
        _ => match (part.strip_prefix('a'), part.strip_prefix('w')) {
            (Some(number), _) => Expr::Argument(number.parse().expect("an argument")),
            (_, Some(number)) => Expr::Own(number.parse().expect("a word")),
            _ => Expr::Number(part.parse().unwrap_or_else(|_| panic!("no number: {part}"))),
        },
    }
}

fn combined(head: &str, inner: Vec<Expr>) -> Expr {
    let operation = ["+", "-", "*", "/", "<", "="].iter().position(|sign| *sign == head);
    if let Some(number) = operation {
        let [first, second] = inner.try_into().expect("two operands");
        return operate(crate::units::OPERATIONS[number], first, second);
    }
    match head {
        "if" => {
            let [test, yes, no] = inner.try_into().expect("three parts");
            Expr::If(Box::new(test), Box::new(yes), Box::new(no))
        }
        "keep" => {
            let [word, value] = inner.try_into().expect("a word and a value");
            match word {
                Expr::Own(word) => keep(word, value),
                other => panic!("no word: {other:?}"),
            }
        }
        "then" => sequence(inner),
        "out" => {
            let [value] = inner.try_into().expect("one part");
            Expr::Out(Box::new(value))
        }
        _ => {
            let (plain, way) = match head.strip_suffix('!') {
                Some(plain) => (plain, 1),
                None => (head, 0),
            };
            let (unit, procedure) = plain.split_once('.').expect("a callee");
            let unit = unit.parse().expect("a unit");
            let procedure = procedure.parse().expect("a procedure");
            Expr::Call(Target { unit, procedure, way }.number(), inner)
        }
    }
}

pub fn operate(operation: Operation, first: Expr, second: Expr) -> Expr {
    Expr::Operate(operation, Box::new(first), Box::new(second))
}

pub fn keep(word: usize, value: Expr) -> Expr {
    Expr::Keep(word, Box::new(value))
}

pub fn then(first: Expr, second: Expr) -> Expr {
    Expr::Then(Box::new(first), Box::new(second))
}

/// One after the other; the last gives the value.
pub fn sequence(mut parts: Vec<Expr>) -> Expr {
    let mut whole = parts.pop().expect("at least one part");
    while let Some(part) = parts.pop() {
        whole = then(part, whole);
    }
    whole
}

/// The numbers of the targets that an expression calls.
pub fn called(expr: &Expr, numbers: &mut Vec<usize>) {
    if let Expr::Call(number, _) = expr {
        numbers.push(*number);
    }
    for part in expr.parts() {
        called(part, numbers);
    }
}

/// Gives the units names, wants and offers in an order of chance, and numbers their callees.
pub fn finish(draft: &Draft, chance: &mut Chance) -> Vec<Unit> {
    let names = names(draft.units.len(), chance);
    let wanted: Vec<Vec<Target>> =
        (0..draft.units.len()).map(|unit| wanted_by(draft, unit, chance)).collect();
    let mut units = vec![];
    for (place, unit) in draft.units.iter().enumerate() {
        let want = |target: &Target| Want {
            unit: names[target.unit],
            procedure: target.procedure as Word,
            arguments: draft.units[target.unit].procedures[target.procedure].arguments,
        };
        let settle_procedure = |procedure: &Procedure| Procedure {
            arguments: procedure.arguments,
            body: settle(&procedure.body, place, &wanted[place]),
        };
        units.push(Unit {
            name: names[place],
            words: unit.words,
            wants: wanted[place].iter().map(want).collect(),
            procedures: unit.procedures.iter().map(settle_procedure).collect(),
            offers: offers(draft, place, &wanted, chance),
        });
    }
    units
}

fn names(count: usize, chance: &mut Chance) -> Vec<Word> {
    let mut names = vec![];
    while names.len() < count {
        let name = if chance.percent(70) { chance.below(40) as Word } else { chance.word() };
        if !names.contains(&name) {
            names.push(name);
        }
    }
    names
}

fn wanted_by(draft: &Draft, unit: usize, chance: &mut Chance) -> Vec<Target> {
    let mut numbers = vec![];
    for procedure in &draft.units[unit].procedures {
        called(&procedure.body, &mut numbers);
    }
    let mut wanted = draft.units[unit].wants.clone();
    for target in numbers.into_iter().map(Target::of_number) {
        let by_want = target.unit != unit || target.way > 0;
        if by_want && !wanted.contains(&target) {
            wanted.push(target);
        }
    }
    chance.shuffle(&mut wanted);
    wanted
}

fn offers(draft: &Draft, unit: usize, wanted: &[Vec<Target>], chance: &mut Chance) -> Vec<usize> {
    let mut offers = draft.units[unit].offers.clone();
    if unit == 0 {
        offers.push(0);
    }
    for target in wanted.iter().flatten() {
        if target.unit == unit && !offers.contains(&target.procedure) {
            offers.push(target.procedure);
        }
    }
    chance.shuffle(&mut offers);
    offers
}

/// The expression with its callees counted through.
fn settle(expr: &Expr, unit: usize, wanted: &[Target]) -> Expr {
    let again = |part: &Expr| Box::new(settle(part, unit, wanted));
    match expr {
        Expr::Number(_) | Expr::Argument(_) | Expr::Own(_) | Expr::Take => expr.clone(),
        Expr::Operate(operation, a, b) => Expr::Operate(*operation, again(a), again(b)),
        Expr::If(a, b, c) => Expr::If(again(a), again(b), again(c)),
        Expr::Keep(word, a) => Expr::Keep(*word, again(a)),
        Expr::Then(a, b) => Expr::Then(again(a), again(b)),
        Expr::Out(a) => Expr::Out(again(a)),
        Expr::Call(number, arguments) => {
            let target = Target::of_number(*number);
            let callee = match wanted.iter().position(|other| *other == target) {
                Some(place) if target.unit != unit || target.way > 0 => place,
                _ => wanted.len() + target.procedure,
            };
            let arguments = arguments.iter().map(|part| *again(part)).collect();
            Expr::Call(callee, arguments)
        }
    }
}
