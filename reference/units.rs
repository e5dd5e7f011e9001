//! Units, and the rows of words that say them.

pub type Word = u32;

pub const MOST_ROWS: usize = 65_536;
pub const MOST_WORDS: usize = 4_096;
pub const MOST_WANTS: usize = 256;
pub const MOST_PROCEDURES: usize = 256;
pub const MOST_ARGUMENTS: usize = 8;
pub const MOST_NESTED: usize = 256;

#[derive(Clone, Copy, Debug, PartialEq, Eq)]
pub enum Operation {
    Add,
    Sub,
    Mul,
    Div,
    Less,
    Same,
}

pub const OPERATIONS: [Operation; 6] = [
    Operation::Add,
    Operation::Sub,
    Operation::Mul,
    Operation::Div,
    Operation::Less,
    Operation::Same,
];

#[derive(Clone, Debug, PartialEq, Eq)]
pub enum Expr {
    Number(Word),
    Argument(usize),
    /// One of the unit's own words.
    Own(usize),
    Operate(Operation, Box<Expr>, Box<Expr>),
    /// The first is not 0: the second, else the third.
    If(Box<Expr>, Box<Expr>, Box<Expr>),
    Keep(usize, Box<Expr>),
    Then(Box<Expr>, Box<Expr>),
    Out(Box<Expr>),
    Take,
    /// A callee, counted through the wants and then the unit's own procedures.
    Call(usize, Vec<Expr>),
}

#[derive(Clone, Debug, PartialEq, Eq)]
pub struct Want {
    pub unit: Word,
    pub procedure: Word,
    pub arguments: usize,
}

#[derive(Clone, Debug, PartialEq, Eq)]
pub struct Procedure {
    pub arguments: usize,
    pub body: Expr,
}

#[derive(Clone, Debug, PartialEq, Eq)]
pub struct Unit {
    pub name: Word,
    pub words: usize,
    pub wants: Vec<Want>,
    pub procedures: Vec<Procedure>,
    pub offers: Vec<usize>,
}

impl Expr {
    /// The parts, from left to right.
    pub fn parts(&self) -> Vec<&Expr> {
        match self {
            Expr::Number(_) | Expr::Argument(_) | Expr::Own(_) | Expr::Take => vec![],
            Expr::Operate(_, a, b) | Expr::Then(a, b) => vec![a, b],
            Expr::If(a, b, c) => vec![a, b, c],
            Expr::Keep(_, a) | Expr::Out(a) => vec![a],
            Expr::Call(_, arguments) => arguments.iter().collect(),
        }
    }
}

impl Unit {
    /// How many arguments a callee takes, if it is there.
    pub fn callee_arguments(&self, callee: usize) -> Option<usize> {
        if callee < self.wants.len() {
            Some(self.wants[callee].arguments)
        } else {
            let own = self.procedures.get(callee - self.wants.len())?;
            Some(own.arguments)
        }
    }

    /// Whether the unit offers a procedure with this number and so many arguments.
    pub fn offers_procedure(&self, procedure: Word, arguments: usize) -> bool {
        self.offers.iter().any(|&offer| {
            offer as u64 == procedure as u64 && self.procedures[offer].arguments == arguments
        })
    }
}

/// Reads the unit that rows say. The error says why they say none.
pub fn read_unit(rows: &[Word]) -> Result<Unit, String> {
    if rows.len() > MOST_ROWS {
        return Err("too many rows".to_string());
    }
    let mut reader = Reader { rows, at: 0 };
    let unit = reader.unit()?;
    if reader.at < rows.len() {
        return Err("rows behind the unit".to_string());
    }
    for procedure in &unit.procedures {
        check_body(&unit, procedure.arguments, &procedure.body)?;
    }
    Ok(unit)
}

struct Reader<'a> {
    rows: &'a [Word],
    at: usize,
}

impl Reader<'_> {
    fn word(&mut self) -> Result<Word, String> {
        let word = self.rows.get(self.at).ok_or("the rows end too early")?;
        self.at += 1;
        Ok(*word)
    }

    fn number_up_to(&mut self, most: usize, what: &str) -> Result<usize, String> {
        let number = self.word()? as usize;
        if number <= most {
            Ok(number)
        } else {
            Err(format!("too many {what}"))
        }
    }

    fn unit(&mut self) -> Result<Unit, String> {
        let name = self.word()?;
        let words = self.number_up_to(MOST_WORDS, "words")?;
        let want_count = self.number_up_to(MOST_WANTS, "wants")?;
        let procedure_count = self.number_up_to(MOST_PROCEDURES, "procedures")?;
        let offer_count = self.word()?;
        let mut wants = vec![];
        for _ in 0..want_count {
            wants.push(self.want()?);
        }
        let mut procedures = vec![];
        for _ in 0..procedure_count {
            let arguments = self.number_up_to(MOST_ARGUMENTS, "arguments")?;
            let body = self.expr(1)?;
            procedures.push(Procedure { arguments, body });
        }
        let mut offers = vec![];
        for _ in 0..offer_count {
            let offer = self.word()? as usize;
            if offer >= procedure_count {
                return Err("an offer of no procedure".to_string());
            }
            offers.push(offer);
        }
        Ok(Unit { name, words, wants, procedures, offers })
    }

    fn want(&mut self) -> Result<Want, String> {
        let unit = self.word()?;
        let procedure = self.word()?;
        let arguments = self.number_up_to(MOST_ARGUMENTS, "arguments")?;
        Ok(Want { unit, procedure, arguments })
    }

    fn boxed(&mut self, level: usize) -> Result<Box<Expr>, String> {
        Ok(Box::new(self.expr(level)?))
    }

    /// Reads an expression that stands at this level, 1 for a whole body.
    fn expr(&mut self, level: usize) -> Result<Expr, String> {
        if level > MOST_NESTED {
            return Err("expressions too deep in one another".to_string());
        }
        let inner = level + 1;
        Ok(match self.word()? {
            0 => Expr::Number(self.word()?),
            1 => Expr::Argument(self.word()? as usize),
            2 => Expr::Own(self.word()? as usize),
            3 => {
                let number = self.word()? as usize;
                let operation = *OPERATIONS.get(number).ok_or("no such operation")?;
                Expr::Operate(operation, self.boxed(inner)?, self.boxed(inner)?)
            }
            4 => Expr::If(self.boxed(inner)?, self.boxed(inner)?, self.boxed(inner)?),
            5 => Expr::Keep(self.word()? as usize, self.boxed(inner)?),
            6 => Expr::Then(self.boxed(inner)?, self.boxed(inner)?),
            7 => Expr::Out(self.boxed(inner)?),
            8 => Expr::Take,
            9 => {
                let callee = self.word()? as usize;
                let count = self.number_up_to(MOST_ARGUMENTS, "arguments")?;
                let arguments: Result<Vec<Expr>, String> =
                    (0..count).map(|_| self.expr(inner)).collect();
                Expr::Call(callee, arguments?)
            }
            _ => return Err("no such expression".to_string()),
        })
    }
}

/// Arguments and words are there; callees are there and take as many arguments.
fn check_body(unit: &Unit, arguments: usize, expr: &Expr) -> Result<(), String> {
    match expr {
        Expr::Argument(number) if *number >= arguments => {
            return Err("an argument that is not there".to_string());
        }
        Expr::Own(word) | Expr::Keep(word, _) if *word >= unit.words => {
            return Err("a word that is not there".to_string());
        }
        Expr::Call(callee, given) => match unit.callee_arguments(*callee) {
            None => return Err("a callee that is not there".to_string()),
            Some(taken) if taken != given.len() => {
                return Err("a call with another number of arguments".to_string());
            }
            Some(_) => {}
        },
        _ => {}
    }
    for part in expr.parts() {
        check_body(unit, arguments, part)?;
    }
    Ok(())
}
