//! Sets of units with a tape and budgets, and the file that holds them.

use crate::units::Word;

/// Units in their rows, what they run on, and the ways in which they are to be linked.
#[derive(Clone, Debug, PartialEq, Eq)]
pub struct Set {
    pub units: Vec<Vec<Word>>,
    pub tape: Vec<Word>,
    pub room: Word,
    pub calls: Word,
    /// Each order is all places of the units, the first unit's first.
    pub orders: Vec<Vec<usize>>,
    /// An unrelated unit, and its place among the units in the first order.
    pub extra: Vec<Word>,
    pub place: usize,
}

const BLANKS: [char; 4] = [' ', '\t', '\n', '\r'];

/// Reads a number of digits alone, below 2^32. Zeros may stand in front.
fn read_number(text: &str) -> Result<Word, String> {
    let digits = text.bytes().all(|byte| byte.is_ascii_digit());
    match text.parse() {
        Ok(number) if digits => Ok(number),
        _ => Err(format!("{text:?} is no number")),
    }
}

/// Reads a file of sets. The error says what is wrong with it.
pub fn read_sets(text: &str) -> Result<Vec<Set>, String> {
    let mut numbers = vec![];
    for part in text.split(BLANKS).filter(|part| !part.is_empty()) {
        numbers.push(read_number(part)?);
    }
    let mut reader = Reader { numbers: &numbers, at: 0 };
    let count = reader.number()?;
    let sets: Result<Vec<Set>, String> = (0..count).map(|_| reader.set()).collect();
    if reader.at < numbers.len() && sets.is_ok() {
        return Err("numbers behind the sets".to_string());
    }
    sets
}

struct Reader<'a> {
    numbers: &'a [Word],
    at: usize,
}

impl Reader<'_> {
    fn number(&mut self) -> Result<Word, String> {
        let number = self.numbers.get(self.at).ok_or("the file ends too early")?;
        self.at += 1;
        Ok(*number)
    }

    /// A length and so many numbers.
    fn list(&mut self) -> Result<Vec<Word>, String> {
        let length = self.number()?;
        (0..length).map(|_| self.number()).collect()
    }

    fn set(&mut self) -> Result<Set, String> {
        let count = self.number()?;
        let units: Result<Vec<Vec<Word>>, String> = (0..count).map(|_| self.list()).collect();
        let units = units?;
        let tape = self.list()?;
        let room = self.number()?;
        let calls = self.number()?;
        let order_count = self.number()?;
        let orders: Result<Vec<Vec<usize>>, String> =
            (0..order_count).map(|_| self.order(units.len())).collect();
        let orders = orders?;
        let extra = self.list()?;
        let place = self.number()? as usize;
        if orders.is_empty() || place == 0 || place > units.len() {
            return Err("no order, or no place for the unrelated unit".to_string());
        }
        Ok(Set { units, tape, room, calls, orders, extra, place })
    }

    fn order(&mut self, count: usize) -> Result<Vec<usize>, String> {
        let order: Result<Vec<usize>, String> =
            (0..count).map(|_| Ok(self.number()? as usize)).collect();
        let order = order?;
        let all_there = (0..count).all(|place| order.contains(&place));
        if all_there && order.first() == Some(&0) {
            Ok(order)
        } else {
            Err(format!("{order:?} is no order"))
        }
    }
}
