//! Programs made at random.
//!
//! So that most of them end, procedures are of three classes. A plain one calls plain ones of a
//! lower rank. One with fuel counts its first argument down and, while that is not 0, calls any
//! other with fuel, in whichever unit. A driver calls plain ones, those with fuel, and drivers of
//! a lower rank. In some programs a few calls keep to none of this.

use super::chance::Chance;
use super::draft::{keep, operate, sequence, then, Draft, DraftUnit, Target};
use crate::units::{Expr, Operation, Procedure, Word, MOST_WORDS, OPERATIONS};

#[derive(Clone, Copy, Debug, PartialEq, Eq)]
enum Class {
    Plain,
    Fuel,
    Driver,
}

/// A procedure to be written.
struct Plan {
    unit: usize,
    procedure: usize,
    arguments: usize,
    class: Class,
    rank: usize,
    /// Whether others may call it.
    open: bool,
    uses: usize,
}

struct Maker<'a> {
    chance: &'a mut Chance,
    plans: Vec<Plan>,
    words: Vec<usize>,
    /// The plan whose body is being made.
    own: usize,
    /// How many more expressions the body may have, and how many calls with fuel.
    expressions: usize,
    recursions: usize,
    /// Of a hundred calls, how many go anywhere.
    anywhere: usize,
    /// Whether recursion goes far, but without branching.
    long: bool,
}

pub fn random(chance: &mut Chance) -> Draft {
    let count = 1 + chance.weighted(&[10, 18, 20, 17, 12, 9, 7, 7]);
    let words: Vec<usize> = (0..count).map(|_| word_count(chance)).collect();
    let plans = plans(count, chance);
    let anywhere = if chance.percent(10) { 12 } else { 0 };
    let long = chance.percent(15);
    let shown = chance.percent(60);
    let tape: Vec<Word> = (0..chance.below(12)).map(|_| chance.word()).collect();
    let size = (230 / plans.len()).clamp(7, 30);
    let mut maker =
        Maker { chance, plans, words, own: 0, expressions: 0, recursions: 0, anywhere, long };
    let mut units: Vec<DraftUnit> = maker.words.iter().map(|&words| empty_unit(words)).collect();
    for own in (0..maker.plans.len()).rev() {
        maker.own = own;
        maker.recursions = if long { 1 } else { 1 + maker.chance.weighted(&[60, 35, 5]) };
        maker.expressions = maker.chance.between(size / 2, size * 3 / 2);
        let body = maker.body();
        let plan = &maker.plans[own];
        let procedure = Procedure { arguments: plan.arguments, body };
        units[plan.unit].procedures.insert(0, procedure);
    }
    if shown {
        show_words(&mut units, maker.chance);
    }
    Draft { units, tape }
}

fn empty_unit(words: usize) -> DraftUnit {
    DraftUnit { words, procedures: vec![], offers: vec![], wants: vec![] }
}

fn word_count(chance: &mut Chance) -> usize {
    match chance.weighted(&[30, 120, 40, 9, 1]) {
        0 => 0,
        1 => chance.between(1, 4),
        2 => chance.between(5, 20),
        3 => chance.between(100, 1500),
        _ => MOST_WORDS,
    }
}

/// The procedures of so many units, those of one unit one after the other.
fn plans(count: usize, chance: &mut Chance) -> Vec<Plan> {
    let mut plans = vec![];
    for unit in 0..count {
        let first = unit == 0;
        let idle = !first && chance.percent(12);
        let procedures = match chance.weighted(&[6, 34, 30, 18, 8, 4]) {
            0 if first => 1,
            number => number,
        };
        for procedure in 0..procedures {
            let main = first && procedure == 0;
            let class = match chance.weighted(&[32, 48, 20]) {
                _ if main => Class::Driver,
                0 => Class::Plain,
                1 => Class::Fuel,
                _ => Class::Driver,
            };
            let least = usize::from(class == Class::Fuel);
            let most = if chance.percent(20) { 8 } else { 3 };
            let arguments = if main { 0 } else { chance.between(least, most) };
            let rank = if main { 1000 } else { chance.below(1000) };
            let open = !idle && !main;
            plans.push(Plan { unit, procedure, arguments, class, rank, open, uses: 0 });
        }
    }
    plans
}

impl Maker<'_> {
    fn body(&mut self) -> Expr {
        let plan = &self.plans[self.own];
        let main = plan.unit == 0 && plan.procedure == 0;
        match plan.class {
            Class::Driver if main => self.statements(),
            Class::Fuel => self.fuel_body(),
            Class::Plain | Class::Driver => {
                let depth = self.chance.between(3, 7);
                self.compound(depth, false)
            }
        }
    }

    /// A few expressions one after the other, most of which put out something.
    fn statements(&mut self) -> Expr {
        let count = self.chance.between(2, 6);
        let mut parts = vec![];
        for _ in 0..count {
            self.expressions = self.chance.between(5, 16);
            let part = match self.call(4, false, false) {
                Some(call) if self.chance.percent(70) => call,
                _ => self.compound(5, false),
            };
            let put_out = self.chance.percent(75);
            parts.push(if put_out { Expr::Out(Box::new(part)) } else { part });
        }
        sequence(parts)
    }

    /// While the first argument is not 0 there may be calls with less fuel.
    fn fuel_body(&mut self) -> Expr {
        let inner = if self.chance.percent(75) { self.recursion() } else { self.compound(5, true) };
        let base = self.expr(2, false);
        let fuel = || Box::new(Expr::Argument(0));
        let choice = match self.chance.below(4) {
            0 => {
                let test = operate(Operation::Same, Expr::Argument(0), Expr::Number(0));
                Expr::If(Box::new(test), Box::new(base), Box::new(inner))
            }
            1 => {
                let test = operate(Operation::Less, Expr::Number(0), Expr::Argument(0));
                Expr::If(Box::new(test), Box::new(inner), Box::new(base))
            }
            _ => Expr::If(fuel(), Box::new(inner), Box::new(base)),
        };
        match self.chance.weighted(&[55, 15, 15, 15]) {
            0 => choice,
            1 => then(self.expr(2, false), choice),
            2 => operate(self.operation(), self.expr(2, false), choice),
            _ => Expr::Out(Box::new(choice)),
        }
    }

    /// A call with less fuel, and something before or behind it.
    fn recursion(&mut self) -> Expr {
        let words = self.words[self.plans[self.own].unit];
        let before = self.expr(3, true);
        let Some(call) = self.call(3, true, true) else {
            return before;
        };
        match self.chance.weighted(&[20, 40, 15, 10, 15]) {
            0 => call,
            1 => operate(self.operation(), before, call),
            2 => then(before, call),
            3 => operate(self.operation(), call, self.expr(3, true)),
            _ if words == 0 => Expr::Out(Box::new(call)),
            _ => {
                let word = self.word(words);
                keep(word, operate(self.operation(), before, call))
            }
        }
    }

    fn operation(&mut self) -> Operation {
        OPERATIONS[self.chance.weighted(&[32, 26, 18, 9, 8, 7])]
    }

    fn expr(&mut self, depth: usize, guarded: bool) -> Expr {
        if depth == 0 || self.expressions == 0 || self.chance.percent(25) {
            self.leaf()
        } else {
            self.compound(depth, guarded)
        }
    }

    fn boxed(&mut self, depth: usize, guarded: bool) -> Box<Expr> {
        Box::new(self.expr(depth, guarded))
    }

    fn leaf(&mut self) -> Expr {
        self.expressions = self.expressions.saturating_sub(1);
        let plan = &self.plans[self.own];
        let (arguments, words) = (plan.arguments, self.words[plan.unit]);
        let by_argument = if arguments > 0 { 40 } else { 0 };
        let by_word = if words > 0 { 25 } else { 0 };
        match self.chance.weighted(&[30, by_argument, by_word, 8]) {
            0 => Expr::Number(self.chance.word()),
            1 => Expr::Argument(self.chance.below(arguments)),
            2 => Expr::Own(self.word(words)),
            _ => Expr::Take,
        }
    }

    /// One of so many words, the first and the last more often.
    fn word(&mut self, words: usize) -> usize {
        match self.chance.below(4) {
            0 => 0,
            1 => words - 1,
            _ => self.chance.below(words),
        }
    }

    fn compound(&mut self, depth: usize, guarded: bool) -> Expr {
        self.expressions = self.expressions.saturating_sub(1);
        let inner = depth - 1;
        let words = self.words[self.plans[self.own].unit];
        let by_word = if words > 0 { 14 } else { 0 };
        match self.chance.weighted(&[26, 12, by_word, 12, 7, 32]) {
            0 => self.held_operand(inner, guarded),
            1 => {
                let test = self.boxed(inner, guarded);
                Expr::If(test, self.boxed(inner, guarded), self.boxed(inner, guarded))
            }
            2 => keep(self.word(words), self.expr(inner, guarded)),
            3 => then(self.expr(inner, guarded), self.expr(inner, guarded)),
            4 => Expr::Out(self.boxed(inner, guarded)),
            _ => match self.call(inner, guarded, false) {
                Some(call) => call,
                None => self.held_operand(inner, guarded),
            },
        }
    }

    /// An operation, often with a call as its second operand.
    fn held_operand(&mut self, depth: usize, guarded: bool) -> Expr {
        let operation = self.operation();
        let first = self.expr(depth, guarded);
        let call = if self.chance.percent(45) { self.call(depth, guarded, false) } else { None };
        let second = match call {
            Some(call) => call,
            None => self.expr(depth, guarded),
        };
        operate(operation, first, second)
    }

    /// A call, if need be one with fuel. None where there is no callee for it.
    fn call(&mut self, depth: usize, guarded: bool, with_fuel: bool) -> Option<Expr> {
        let callee = self.callee(guarded, with_fuel)?;
        self.plans[callee].uses += 1;
        let plan = &self.plans[callee];
        let (unit, procedure) = (plan.unit, plan.procedure);
        let (count, class) = (plan.arguments, plan.class);
        let inner = depth.saturating_sub(1);
        let mut arguments = vec![];
        if class == Class::Fuel {
            self.recursions = self.recursions.saturating_sub(1);
            arguments.push(self.fuel());
        }
        while arguments.len() < count {
            arguments.push(self.expr(inner, guarded));
        }
        let way = usize::from(self.chance.percent(10));
        Some(Expr::Call(Target { unit, procedure, way }.number(), arguments))
    }

    /// A callee that may stand here, rather one that is not called yet.
    fn callee(&mut self, guarded: bool, with_fuel: bool) -> Option<usize> {
        let anywhere = self.chance.percent(self.anywhere);
        let open: Vec<usize> = (0..self.plans.len())
            .filter(|&callee| anywhere || self.may_call(callee, guarded))
            .filter(|&callee| !with_fuel || self.plans[callee].class == Class::Fuel)
            .collect();
        if open.is_empty() {
            return None;
        }
        let weight = |&callee: &usize| {
            let plan = &self.plans[callee];
            let unused = if plan.uses == 0 { 4 } else { 1 };
            let recursive = if guarded && plan.class == Class::Fuel { 3 } else { 1 };
            let elsewhere = if plan.unit == self.plans[self.own].unit { 1 } else { 2 };
            unused * recursive * elsewhere
        };
        let weights: Vec<usize> = open.iter().map(weight).collect();
        Some(open[self.chance.weighted(&weights)])
    }

    fn may_call(&self, callee: usize, guarded: bool) -> bool {
        let (own, other) = (&self.plans[self.own], &self.plans[callee]);
        let lower = other.rank < own.rank;
        other.open
            && match (own.class, other.class) {
                (Class::Plain, Class::Plain) | (Class::Driver, Class::Driver) => lower,
                (Class::Fuel | Class::Driver, Class::Plain) => true,
                (Class::Driver, Class::Fuel) => true,
                (Class::Fuel, Class::Fuel) => guarded && self.recursions > 0,
                _ => false,
            }
    }

    fn fuel(&mut self) -> Expr {
        if self.plans[self.own].class == Class::Fuel {
            let less =
                if self.chance.percent(80) { (Operation::Sub, 1) } else { (Operation::Div, 2) };
            return operate(less.0, Expr::Argument(0), Expr::Number(less.1));
        }
        if self.long {
            return Expr::Number(self.chance.between(1, 60).pow(2) as Word);
        }
        match self.chance.weighted(&[70, 20, 5, 5]) {
            0 => Expr::Number(self.chance.below(7) as Word),
            1 => Expr::Number(self.chance.between(7, 15) as Word),
            2 => Expr::Number(self.chance.between(15, 60) as Word),
            _ => Expr::Take,
        }
    }
}

/// At its end the program puts out words of units: each such unit has a procedure for it.
fn show_words(units: &mut [DraftUnit], chance: &mut Chance) {
    let mut calls = vec![];
    for (place, unit) in units.iter_mut().enumerate() {
        if unit.words == 0 || unit.procedures.is_empty() {
            continue;
        }
        let mut shown = vec![0, unit.words / 2, unit.words - 1];
        shown.dedup();
        let parts = shown.iter().map(|&word| Expr::Out(Box::new(Expr::Own(word)))).collect();
        unit.procedures.push(Procedure { arguments: 0, body: sequence(parts) });
        let procedure = unit.procedures.len() - 1;
        let target = Target { unit: place, procedure, way: 0 };
        calls.push(Expr::Call(target.number(), vec![]));
    }
    chance.shuffle(&mut calls);
    if !calls.is_empty() {
        let main = &mut units[0].procedures[0].body;
        let before = std::mem::replace(main, Expr::Take);
        *main = then(before, sequence(calls));
    }
}

/// Adds what changes nothing: offers that nobody wants, offers made twice, wants that nobody
/// calls, and units that nobody calls.
pub fn decorate(draft: &mut Draft, chance: &mut Chance) {
    if draft.units.len() < 8 && chance.percent(20) {
        draft.units.push(idle_unit(chance));
    }
    let mut targets = vec![];
    for (unit, drafted) in draft.units.iter_mut().enumerate() {
        for procedure in 0..drafted.procedures.len() {
            targets.push(Target { unit, procedure, way: 0 });
            if chance.percent(25) {
                drafted.offers.push(procedure);
            }
            if chance.percent(8) {
                drafted.offers.extend([procedure, procedure]);
            }
        }
    }
    for unit in &mut draft.units {
        if chance.percent(12) {
            unit.wants.push(chance.pick(&targets));
        }
    }
}

/// A unit that nobody calls, with words and perhaps a procedure that would keep one.
fn idle_unit(chance: &mut Chance) -> DraftUnit {
    let mut unit = empty_unit(chance.between(1, 9));
    if chance.percent(60) {
        let value = operate(Operation::Add, Expr::Own(unit.words - 1), Expr::Argument(0));
        unit.procedures.push(Procedure { arguments: 1, body: keep(0, value) });
    }
    unit
}
