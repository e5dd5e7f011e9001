//! Writes units as rows, and sets as a file.

use crate::sets::Set;
use crate::units::{Expr, Unit, Word};

/// The rows of a unit.
pub fn rows_of(unit: &Unit) -> Vec<Word> {
    let mut rows = vec![
        unit.name,
        unit.words as Word,
        unit.wants.len() as Word,
        unit.procedures.len() as Word,
        unit.offers.len() as Word,
    ];
    for want in &unit.wants {
        rows.extend([want.unit, want.procedure, want.arguments as Word]);
    }
    for procedure in &unit.procedures {
        rows.push(procedure.arguments as Word);
        write_expr(&procedure.body, &mut rows);
    }
    rows.extend(unit.offers.iter().map(|&offer| offer as Word));
    rows
}

fn write_expr(expr: &Expr, rows: &mut Vec<Word>) {
    match expr {
        Expr::Number(number) => rows.extend([0, *number]),
        Expr::Argument(number) => rows.extend([1, *number as Word]),
        Expr::Own(word) => rows.extend([2, *word as Word]),
        Expr::Operate(operation, _, _) => rows.extend([3, *operation as Word]),
        Expr::If(..) => rows.push(4),
        Expr::Keep(word, _) => rows.extend([5, *word as Word]),
        Expr::Then(..) => rows.push(6),
        Expr::Out(_) => rows.push(7),
        Expr::Take => rows.push(8),
        Expr::Call(callee, arguments) => rows.extend([9, *callee as Word, arguments.len() as Word]),
    }
    for part in expr.parts() {
        write_expr(part, rows);
    }
}

/// The text of a file of sets.
pub fn write_sets(sets: &[Set]) -> String {
    let mut text = format!("{}\n", sets.len());
    for set in sets {
        text.push('\n');
        text.push_str(&format!("{}\n", set.units.len()));
        for unit in &set.units {
            write_list(unit, &mut text);
        }
        write_list(&set.tape, &mut text);
        text.push_str(&format!("{}\n{}\n{}\n", set.room, set.calls, set.orders.len()));
        for order in &set.orders {
            text.push_str(&line(order));
        }
        write_list(&set.extra, &mut text);
        text.push_str(&format!("{}\n", set.place));
    }
    text
}

fn write_list(words: &[Word], text: &mut String) {
    text.push_str(&format!("{}\n", words.len()));
    if !words.is_empty() {
        text.push_str(&line(words));
    }
}

fn line<T: ToString>(numbers: &[T]) -> String {
    let parts: Vec<String> = numbers.iter().map(|number| number.to_string()).collect();
    parts.join(" ") + "\n"
}
