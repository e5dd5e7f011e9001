//! Sets of units that do not fit together, each for one reason.

use crate::units::Word;

/// What such a set is, what is expected of it, and its units.
pub struct MisfitSet {
    pub title: &'static str,
    pub expected: &'static str,
    pub units: Vec<Vec<Word>>,
}

/// The worked cases' units: the first, the second, and a third that nobody calls.
pub const FIRST: [Word; 21] = [1, 0, 1, 1, 1, 2, 0, 1, 0, 6, 7, 9, 0, 1, 8, 7, 9, 0, 1, 8, 0];
pub const SECOND: [Word; 15] = [2, 1, 0, 1, 1, 1, 5, 0, 3, 0, 2, 0, 1, 0, 0];
pub const THIRD: [Word; 5] = [3, 3, 0, 0, 0];

pub fn misfits(more: bool) -> Vec<MisfitSet> {
    let mut sets = missing();
    sets.extend(twice());
    sets.extend(no_unit(more));
    sets
}

fn set(title: &'static str, expected: &'static str, units: &[&[Word]]) -> MisfitSet {
    MisfitSet { title, expected, units: units.iter().map(|rows| rows.to_vec()).collect() }
}

fn missing() -> Vec<MisfitSet> {
    let missing = |title, units: &[&[Word]]| set(title, "missing", units);
    let mut two_arguments = FIRST.to_vec();
    two_arguments.splice(5.., [2, 0, 2, 0, 9, 0, 2, 8, 8, 0]);
    vec![
        missing("worked case: the other way round", &[&SECOND, &FIRST]),
        missing("worked case: the first unit alone", &[&FIRST]),
        missing("a third unit in the place of the wanted one", &[&FIRST, &THIRD]),
        missing("a want of another number of arguments", &[&two_arguments, &SECOND]),
        missing("the procedure is there but not offered", &[&FIRST, &[2, 0, 0, 1, 0, 1, 0, 5]]),
        missing("another procedure is offered", &[&FIRST, &[2, 0, 0, 2, 1, 1, 0, 5, 1, 0, 6, 1]]),
        missing(
            "a procedure with another number of arguments is offered, twice",
            &[&FIRST, &[2, 0, 0, 1, 2, 2, 0, 5, 0, 0]],
        ),
        missing("a want that nobody calls", &[&[1, 0, 1, 1, 1, 2, 7, 0, 0, 0, 5, 0], &SECOND]),
        missing(
            "a want of a unit that nobody calls",
            &[&FIRST, &SECOND, &[3, 1, 1, 0, 0, 4, 0, 0]],
        ),
        missing("a want of a large number", &[&[1, 0, 1, 1, 1, 1, 4294967295, 0, 0, 0, 5, 0]]),
        missing("no procedure 0: none at all", &[&[1, 0, 0, 0, 0]]),
        missing("procedure 0 is not offered", &[&[1, 0, 0, 1, 0, 0, 0, 5]]),
        missing("only procedure 1 is offered", &[&[1, 0, 0, 2, 1, 0, 0, 5, 0, 0, 6, 1]]),
        missing("procedure 0 takes an argument", &[&[1, 0, 0, 1, 1, 1, 0, 5, 0]]),
        missing(
            "procedure 0 is offered by another unit only",
            &[&[1, 0, 0, 1, 0, 0, 0, 5], &[2, 0, 0, 1, 1, 0, 0, 5, 0]],
        ),
    ]
}

fn twice() -> Vec<MisfitSet> {
    let twice = |title, units: &[&[Word]]| set(title, "twice", units);
    vec![
        twice("worked case: the first unit twice", &[&FIRST, &FIRST]),
        twice("the first unit twice, and what it wants", &[&FIRST, &SECOND, &FIRST]),
        twice("the second unit twice", &[&FIRST, &SECOND, &SECOND]),
        twice("another unit of the second's name", &[&FIRST, &SECOND, &[2, 0, 0, 0, 0]]),
        twice("two idle units of one name", &[&FIRST, &THIRD, &SECOND, &[3, 0, 0, 0, 0]]),
    ]
}

/// Sets with one list of rows that says no unit.
fn no_unit(more: bool) -> Vec<MisfitSet> {
    let alone = |title, rows: &[Word]| set(title, "no unit", &[rows]);
    let mut want_of_two = FIRST.to_vec();
    want_of_two[7] = 2;
    let mut longer = FIRST.to_vec();
    longer.push(0);
    let mut sets = vec![
        set("worked case: the want's arguments are 2", "no unit", &[&want_of_two, &SECOND]),
        set("one row more", "no unit", &[&longer, &SECOND]),
        set("one row less", "no unit", &[&FIRST, &SECOND[..14]]),
        alone("no rows", &[]),
        alone("the rows end in a body", &[1, 0, 0, 1, 1, 0, 3, 0, 0]),
        alone("no such expression", &[1, 0, 0, 1, 1, 0, 10, 0]),
        alone("no such operation", &[1, 0, 0, 1, 1, 0, 3, 6, 0, 1, 0, 1, 0]),
        alone("an argument that is not there", &[1, 0, 0, 1, 1, 0, 1, 0, 0]),
        alone("a word that is not there", &[1, 3, 0, 1, 1, 0, 2, 3, 0]),
        alone("a word kept that is not there", &[1, 3, 0, 1, 1, 0, 5, 3, 0, 1, 0]),
        alone("a callee that is not there", &[1, 0, 0, 1, 1, 0, 9, 1, 0, 0]),
        alone("a call with too many arguments", &[1, 0, 0, 1, 1, 0, 9, 0, 1, 8, 0]),
        alone("a call with too few arguments", &[1, 0, 0, 2, 1, 0, 9, 1, 1, 8, 2, 0, 5, 0]),
        alone("an offer of no procedure", &[1, 0, 0, 1, 2, 0, 0, 5, 0, 1]),
        alone("4097 words", &[1, 4097, 0, 1, 1, 0, 0, 5, 0]),
        alone("a procedure of nine arguments", &[1, 0, 0, 2, 1, 0, 0, 5, 9, 0, 5, 0]),
        alone("a want of nine arguments", &[1, 0, 1, 1, 1, 1, 0, 9, 0, 0, 5, 0]),
    ];
    sets.push(alone("257 procedures", &crowd(257, 0)));
    sets.push(alone("257 wants", &crowd(1, 257)));
    if more {
        sets.push(alone("expressions 257 deep", &deep(257)));
    }
    sets.push(alone("expressions 258 deep", &deep(258)));
    sets
}

/// A unit with so many procedures and so many wants of its own first procedure.
fn crowd(procedures: Word, wants: Word) -> Vec<Word> {
    let mut rows = vec![1, 0, wants, procedures, 1];
    for _ in 0..wants {
        rows.extend([1, 0, 0]);
    }
    for _ in 0..procedures {
        rows.extend([0, 8]);
    }
    rows.push(0);
    rows
}

/// A unit with so many expressions in one another.
fn deep(levels: usize) -> Vec<Word> {
    let mut rows = vec![1, 0, 0, 1, 1, 0];
    rows.extend(vec![7; levels - 1]);
    rows.extend([8, 0]);
    rows
}
