//! A plain compiler in safe Rust that reads the whole unit into a tree first, checks it, and then writes code.

use crate::compiler::{
    Code, Compiled, MOST_ARGUMENTS, MOST_DEPTH, MOST_PROCEDURES, MOST_ROW, MOST_WANTS, MOST_WORDS, Opcode, Procedure, is_short, write_object,
};

enum Expr {
    Number(u32),
    Argument(u32),
    Word(u32),
    Operate(u32, Box<[Expr; 2]>),
    If(Box<[Expr; 3]>),
    Keep(u32, Box<Expr>),
    Then(Box<[Expr; 2]>),
    Out(Box<Expr>),
    Next,
    Call(u32, Vec<Expr>),
}

struct Body {
    args: u32,
    expr: Expr,
}

struct Unit<'a> {
    name: u32,
    words: u32,
    wants: &'a [[u32; 3]],
    bodies: Vec<Body>,
    offers: &'a [u32],
}

/// What is left of a row.
struct Reader<'a>(&'a [u32]);

impl<'a> Reader<'a> {
    fn next(&mut self) -> Option<u32> {
        self.0.split_off_first().copied()
    }

    fn at_most(&mut self, limit: u32) -> Option<u32> {
        self.next().filter(|&word| word <= limit)
    }

    fn expr(&mut self, depth: u32) -> Option<Expr> {
        let depth = depth.checked_sub(1)?;
        Some(match self.next()? {
            0 => Expr::Number(self.next()?),
            1 => Expr::Argument(self.next()?),
            2 => Expr::Word(self.next()?),
            3 => Expr::Operate(self.at_most(5)?, Box::new([self.expr(depth)?, self.expr(depth)?])),
            4 => Expr::If(Box::new([self.expr(depth)?, self.expr(depth)?, self.expr(depth)?])),
            5 => Expr::Keep(self.next()?, Box::new(self.expr(depth)?)),
            6 => Expr::Then(Box::new([self.expr(depth)?, self.expr(depth)?])),
            7 => Expr::Out(Box::new(self.expr(depth)?)),
            8 => Expr::Next,
            9 => {
                let callee = self.next()?;
                let count = self.at_most(MOST_ARGUMENTS)?;
                Expr::Call(callee, (0..count).map(|_| self.expr(depth)).collect::<Option<_>>()?)
            }
            _ => return None,
        })
    }

    fn body(&mut self) -> Option<Body> {
        Some(Body { args: self.at_most(MOST_ARGUMENTS)?, expr: self.expr(MOST_DEPTH)? })
    }

    fn unit(mut self) -> Option<Unit<'a>> {
        let name = self.next()?;
        let words = self.at_most(MOST_WORDS)?;
        let wants = self.at_most(MOST_WANTS)?;
        let bodies = self.at_most(MOST_PROCEDURES)?;
        let offers = self.next()?;
        let wants = self.0.split_off(..3 * wants as usize)?.as_chunks().0;
        let bodies: Vec<Body> = (0..bodies).map(|_| self.body()).collect::<Option<_>>()?;
        (self.0.len() == offers as usize).then_some(Unit { name, words, wants, bodies, offers: self.0 })
    }
}

impl Unit<'_> {
    /// How many arguments a callee takes, where it is there.
    fn arity(&self, callee: u32) -> Option<u32> {
        match self.wants.get(callee as usize) {
            Some(want) => Some(want[2]),
            None => Some(self.bodies.get(callee as usize - self.wants.len())?.args),
        }
    }

    /// Whether what an expression names is there, in a procedure with so many arguments.
    fn is_formed(&self, args: u32, expr: &Expr) -> bool {
        match expr {
            Expr::Number(_) | Expr::Next => true,
            Expr::Argument(i) => *i < args,
            Expr::Word(i) => *i < self.words,
            Expr::Operate(_, parts) | Expr::Then(parts) => parts.iter().all(|part| self.is_formed(args, part)),
            Expr::If(parts) => parts.iter().all(|part| self.is_formed(args, part)),
            Expr::Keep(i, part) => *i < self.words && self.is_formed(args, part),
            Expr::Out(part) => self.is_formed(args, part),
            Expr::Call(callee, parts) => self.arity(*callee) == Some(parts.len() as u32) && parts.iter().all(|part| self.is_formed(args, part)),
        }
    }

    fn is_right(&self) -> bool {
        self.wants.iter().all(|want| want[2] <= MOST_ARGUMENTS)
            && self.offers.iter().all(|&offer| (offer as usize) < self.bodies.len())
            && self.bodies.iter().all(|body| self.is_formed(body.args, &body.expr))
    }
}

impl Expr {
    /// How many words the work on an expression holds at most.
    fn height(&self) -> u32 {
        match self {
            Expr::Number(_) | Expr::Argument(_) | Expr::Word(_) | Expr::Next => 1,
            Expr::Operate(_, parts) => parts[0].height().max(parts[1].height() + 1),
            Expr::If(parts) => parts[0].height().max(parts[1].height()).max(parts[2].height()),
            Expr::Then(parts) => parts[0].height().max(parts[1].height()),
            Expr::Keep(_, part) | Expr::Out(part) => part.height(),
            Expr::Call(_, parts) => parts.iter().zip(0..).map(|(part, before)| before + part.height()).max().unwrap_or(1),
        }
    }
}

/// Writes the code of a unit.
struct Writer<'a> {
    unit: &'a Unit<'a>,
    code: Code,
    /// Calls of the unit's own procedures: where the operand stands, and the procedure.
    own_calls: Vec<(usize, usize)>,
}

impl Writer<'_> {
    fn expr(&mut self, expr: &Expr) {
        match expr {
            Expr::Number(n) => self.code.emit(Opcode::Push, *n),
            Expr::Argument(i) => self.code.emit(Opcode::Arg, *i),
            Expr::Word(i) => self.code.emit_fitted(Opcode::Load, *i, 1, 0),
            Expr::Operate(operation, parts) => {
                self.expr(&parts[0]);
                self.expr(&parts[1]);
                self.code.emit(Opcode::Operate, *operation);
            }
            Expr::If(parts) => {
                self.expr(&parts[0]);
                let to_second = self.code.emit_jump(Opcode::JumpIfZero);
                self.expr(&parts[1]);
                let to_end = self.code.emit_jump(Opcode::Jump);
                self.code.land(to_second);
                self.expr(&parts[2]);
                self.code.land(to_end);
            }
            Expr::Keep(i, part) => {
                self.expr(part);
                self.code.emit_fitted(Opcode::Store, *i, 1, 0);
            }
            Expr::Then(parts) => {
                self.expr(&parts[0]);
                self.code.emit(Opcode::Pop, 0);
                self.expr(&parts[1]);
            }
            Expr::Out(part) => {
                self.expr(part);
                self.code.emit(Opcode::Out, 0);
            }
            Expr::Next => self.code.emit(Opcode::Next, 0),
            Expr::Call(callee, parts) => {
                for part in parts {
                    self.expr(part);
                }
                self.call(*callee);
            }
        }
    }

    fn call(&mut self, callee: u32) {
        match (callee as usize).checked_sub(self.unit.wants.len()) {
            None => self.code.emit_fitted(Opcode::Call, 0, 2, callee),
            Some(own) => {
                let operand = self.code.emit_jump(Opcode::Call);
                self.own_calls.push((operand, own));
            }
        }
    }

    fn procedure(&mut self, body: &Body) -> Procedure {
        let at = self.code.words.len() as u32;
        let frame = 4 + body.args + body.expr.height();
        self.code.emit(Opcode::Count, 0);
        self.code.emit(Opcode::Reserve, frame);
        self.code.emit(Opcode::SetFrame, body.args);
        self.expr(&body.expr);
        self.code.emit(Opcode::Release, frame);
        self.code.emit(Opcode::Return, body.args);
        Procedure { args: body.args, at }
    }
}

/// Compiles a unit's row. The object stands first in its words; what is refused leaves them as they were.
pub fn compile(row: &[u32], object: &mut [u32], work: usize) -> Compiled {
    if is_short(row, object, work) {
        return Compiled::Short;
    }
    if row.len() > MOST_ROW {
        return Compiled::NoUnit;
    }
    let Some(unit) = Reader(row).unit().filter(Unit::is_right) else {
        return Compiled::NoUnit;
    };
    let mut writer = Writer { unit: &unit, code: Code::with_capacity(2 * row.len()), own_calls: Vec::new() };
    let procedures: Vec<Procedure> = unit.bodies.iter().map(|body| writer.procedure(body)).collect();
    for &(operand, own) in &writer.own_calls {
        writer.code.words[operand] = procedures[own].at;
    }
    Compiled::Object(write_object(unit.name, unit.words, unit.wants, &procedures, unit.offers, &writer.code, object))
}
