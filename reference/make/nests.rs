//! Programs with expressions that stand deep in one another, and units with many procedures.

use super::chance::Chance;
use super::draft::{draft, expr, keep, operate, then, Draft, DraftUnit, Target};
use super::statistics::nested;
use crate::units::{Expr, Procedure, Word, OPERATIONS};

pub type Nest = (&'static str, fn(&mut Chance) -> Draft);

pub const NESTS: [Nest; 12] = [
    ("256 deep: operations in second operands", second_operands),
    ("256 deep: operations in first operands", first_operands),
    ("256 deep: calls in one another", calls_in_calls),
    ("256 deep: tests in tests", tests),
    ("256 deep: choices in choices", choices),
    ("256 deep: one after the other", sequences),
    ("255 deep: values kept and put out", kept),
    ("60 deep: calls in last arguments of eight", last_arguments),
    ("256 deep: mixed", mixed),
    ("200 deep: mixed", mixed_200),
    ("256 deep: mixed, another", mixed),
    ("256 deep, and entered again from its inmost place", entered_inside),
];

pub const CROWDS: [Nest; 4] = [
    ("256 procedures in a row of calls", row_of_256),
    ("256 wants of 256 procedures", wants_of_256),
    ("two units of 100 procedures that call each other", two_of_100),
    ("256 procedures, of which few are called", few_of_256),
];

const DEPTH: usize = 256;

/// Puts one expression around another until they stand so deep in one another.
fn deepen(core: Expr, depth: usize, mut step: impl FnMut(Expr, usize) -> Expr) -> Expr {
    let mut deep = core;
    for level in nested(&deep)..depth {
        deep = step(deep, level);
    }
    assert_eq!(nested(&deep), depth);
    deep
}

/// A main procedure with a deep expression for its body, and another unit.
fn around(deep: Expr, other: &[(usize, &str)], tape: &[Word]) -> Draft {
    let mut draft = draft(&[(2, &[(0, "0")]), (2, other)], tape);
    draft.units[0].procedures[0].body = deep;
    draft
}

fn put_out(value: Expr) -> Expr {
    Expr::Out(Box::new(value))
}

fn choice(test: Expr, yes: Expr, no: Expr) -> Expr {
    Expr::If(Box::new(test), Box::new(yes), Box::new(no))
}

fn call(unit: usize, procedure: usize, arguments: Vec<Expr>) -> Expr {
    Expr::Call(Target { unit, procedure, way: 0 }.number(), arguments)
}

fn second_operands(chance: &mut Chance) -> Draft {
    let deep = deepen(expr("(1.0 4)"), DEPTH - 1, |deep, _| {
        let number = Expr::Number(chance.word() % 100);
        let first = if chance.percent(30) { Expr::Own(0) } else { number };
        operate(chance.pick(&OPERATIONS[..3]), first, deep)
    });
    around(put_out(deep), &[(1, "(keep w1 (+ w1 (out a0)))")], &[])
}

fn first_operands(chance: &mut Chance) -> Draft {
    let deep = deepen(expr("(1.0 4)"), DEPTH - 1, |deep, level| {
        let second = match level % 50 {
            49 => expr("(1.0 w0)"),
            _ => Expr::Number(chance.below(30) as Word),
        };
        operate(chance.pick(&OPERATIONS[..3]), deep, second)
    });
    around(put_out(deep), &[(1, "(keep w1 (+ w1 (out a0)))")], &[])
}

fn calls_in_calls(chance: &mut Chance) -> Draft {
    let deep = deepen(Expr::Take, DEPTH - 1, |deep, _| call(1, chance.below(2), vec![deep]));
    let other = [(1, "(+ a0 (keep w0 (+ w0 1)))"), (1, "(- (* a0 3) w0)")];
    around(put_out(deep), &other, &[chance.word()])
}

fn tests(chance: &mut Chance) -> Draft {
    let deep = deepen(Expr::Take, DEPTH - 2, |deep, _| {
        let (yes, no) = (chance.below(3) as Word, chance.below(3) as Word);
        choice(deep, Expr::Number(yes), Expr::Number(no))
    });
    let twice = then(put_out(deep), expr("(out (1.0 take))"));
    around(twice, &[(1, "(+ a0 1)")], &[chance.word(), 7])
}

fn choices(chance: &mut Chance) -> Draft {
    let deep = deepen(expr("(1.0 5)"), DEPTH - 1, |deep, _| {
        let other = Expr::Number(chance.below(9) as Word);
        if chance.percent(50) {
            choice(Expr::Number(chance.between(1, 9) as Word), deep, other)
        } else {
            choice(Expr::Number(0), other, deep)
        }
    });
    around(put_out(deep), &[(1, "(out (* a0 a0))")], &[])
}

fn sequences(chance: &mut Chance) -> Draft {
    let deep = deepen(expr("(1.0 5)"), DEPTH - 1, |deep, level| {
        let other = match level % 40 {
            39 => expr("(1.0 w1)"),
            20 => expr("(keep w1 (+ w1 1))"),
            _ => Expr::Number(chance.below(9) as Word),
        };
        if chance.percent(70) {
            then(deep, other)
        } else {
            then(other, deep)
        }
    });
    around(put_out(deep), &[(1, "(keep w0 (+ w0 (out a0)))")], &[])
}

fn kept(chance: &mut Chance) -> Draft {
    let deep = deepen(Expr::Take, DEPTH - 1, |deep, level| match level % 30 {
        1 => put_out(deep),
        17 => call(1, 0, vec![deep]),
        _ => keep(chance.below(2), deep),
    });
    around(deep, &[(1, "(keep w1 (+ a0 3))")], &[chance.word()])
}

fn last_arguments(chance: &mut Chance) -> Draft {
    let deep = deepen(Expr::Take, 59, |deep, _| {
        let number = |_| Expr::Number(chance.below(10) as Word);
        let mut arguments: Vec<Expr> = (0..7).map(number).collect();
        arguments.push(deep);
        call(1, 0, arguments)
    });
    let other = [(8, "(+ (- a7 (* a0 a1)) (* a6 (- a5 a2)))")];
    around(put_out(deep), &other, &[chance.word()])
}

fn mixed(chance: &mut Chance) -> Draft {
    mixed_deep(chance, DEPTH)
}

fn mixed_200(chance: &mut Chance) -> Draft {
    mixed_deep(chance, 200)
}

fn mixed_deep(chance: &mut Chance, depth: usize) -> Draft {
    let core = expr("(1.1 9 8 7)");
    let deep = deepen(core, depth - 1, |deep, _| around_once(deep, chance));
    let other = [(1, "(+ a0 (keep w1 (+ w1 1)))"), (3, "(- (* a0 (out a1)) (+ a2 w1))")];
    around(put_out(deep), &other, &[3, 0, chance.word()])
}

/// One more expression around, with small ones beside.
fn around_once(deep: Expr, chance: &mut Chance) -> Expr {
    let small = |chance: &mut Chance| match chance.below(5) {
        0 => Expr::Own(chance.below(2)),
        1 => Expr::Take,
        _ => Expr::Number(chance.below(12) as Word),
    };
    match chance.weighted(&[25, 25, 8, 8, 8, 8, 8, 3, 8, 8]) {
        0 => operate(chance.pick(&OPERATIONS), deep, small(chance)),
        1 => operate(chance.pick(&OPERATIONS), small(chance), deep),
        2 => choice(deep, small(chance), small(chance)),
        3 => choice(Expr::Number(1), deep, small(chance)),
        4 => choice(Expr::Number(0), small(chance), deep),
        5 => keep(chance.below(2), deep),
        6 => then(small(chance), deep),
        7 => put_out(deep),
        8 => call(1, 0, vec![deep]),
        _ => {
            let mut arguments = vec![small(chance), small(chance)];
            arguments.insert(chance.below(3), deep);
            call(1, 1, arguments)
        }
    }
}

fn entered_inside(chance: &mut Chance) -> Draft {
    let turns = chance.between(3, 6);
    let core = expr(&format!("(if (< (keep w0 (+ w0 1)) {turns}) (1.0 w0) (out w0))"));
    let deep = deepen(core, DEPTH - 1, |deep, _| {
        let first = Expr::Number(chance.below(20) as Word);
        operate(chance.pick(&OPERATIONS[..2]), first, deep)
    });
    around(put_out(deep), &[(1, "(+ (out a0) (0.0))")], &[])
}

fn unit_of(procedures: Vec<Procedure>, words: usize) -> DraftUnit {
    DraftUnit { words, procedures, offers: vec![], wants: vec![] }
}

fn procedure(arguments: usize, body: &str) -> Procedure {
    Procedure { arguments, body: expr(body) }
}

fn row_of_256(chance: &mut Chance) -> Draft {
    let mut procedures = vec![procedure(0, "(out (0.1 take))")];
    for number in 1..255 {
        let operation = chance.pick(&["+", "-"]);
        procedures.push(procedure(1, &format!("({operation} a0 (0.{} a0))", number + 1)));
    }
    procedures.push(procedure(1, "(out (+ a0 (1.0)))"));
    let other = unit_of(vec![procedure(0, "(keep w0 (+ w0 7))")], 1);
    Draft { units: vec![unit_of(procedures, 0), other], tape: vec![chance.word()] }
}

fn wants_of_256(chance: &mut Chance) -> Draft {
    let mut main = String::from("(then");
    for _ in 0..12 {
        main.push_str(&format!(" (out (1.{}))", chance.below(256)));
    }
    main.push_str(" (out (1.255)) (out (1.0)))");
    let mut first = unit_of(vec![procedure(0, &main)], 0);
    first.wants = (0..256).map(|procedure| Target { unit: 1, procedure, way: 0 }).collect();
    let numbered = |number: usize| procedure(0, &(number * 3 % 256).to_string());
    let mut second = unit_of((0..256).map(numbered).collect(), 1);
    second.procedures[255] = procedure(0, "(keep w0 (+ w0 1000))");
    Draft { units: vec![first, second], tape: vec![] }
}

fn two_of_100(chance: &mut Chance) -> Draft {
    let mut units = vec![];
    for unit in 0..2 {
        let mut procedures = vec![procedure(0, "(out (1.1 40))")];
        for _ in 1..100 {
            let (other, next) = (1 - unit, chance.between(1, 99));
            let body =
                format!("(if a0 (+ w0 ({other}.{next} (- a0 1))) (out {}))", chance.below(90));
            procedures.push(procedure(1, &body));
        }
        procedures.push(procedure(1, "(keep w0 a0)"));
        units.push(unit_of(procedures, 1));
    }
    units[0].procedures[0] =
        procedure(0, "(then (0.100 5) (1.100 6) (out (1.1 40)) (out (0.99 7)))");
    Draft { units, tape: vec![] }
}

fn few_of_256(chance: &mut Chance) -> Draft {
    let numbered = |number: usize| procedure(number % 3, &number.to_string());
    let mut procedures: Vec<Procedure> = (0..256).map(numbered).collect();
    let called = chance.between(100, 200);
    procedures[255] = procedure(2, &format!("(out (- a0 (* a1 (1.{called}))))"));
    procedures[called] = procedure(0, "(keep w0 (+ w0 3))");
    let main =
        procedure(0, &format!("(then (out (1.255 take {})) (out (1.{called})))", chance.word()));
    let units = vec![unit_of(vec![main], 3), unit_of(procedures, 2)];
    Draft { units, tape: vec![chance.word()] }
}
