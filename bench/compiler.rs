//! A plain compiler in safe Rust, to compare the proved one with: same answers, same object.
//!
//! One pass over the row, with no tree: the code is written while the bodies are read. What is only known later, frames, jumps and the
//! places of the unit's own procedures, is filled in. tree_compiler.rs reads the whole unit first.

pub const MOST_ROW: usize = 65_536;
pub const MOST_WORDS: u32 = 4096;
pub const MOST_WANTS: u32 = 256;
pub const MOST_PROCEDURES: u32 = 256;
pub const MOST_ARGUMENTS: u32 = 8;
pub const MOST_DEPTH: u32 = 256;

/// What came of a unit's row.
#[derive(Clone, Copy, Debug, PartialEq, Eq)]
pub enum Compiled {
    Object(usize),
    NoUnit,
    Short,
}

/// The machine's instructions, by their numbers.
#[derive(Clone, Copy)]
pub enum Opcode {
    Push = 1,
    Arg = 2,
    Load = 3,
    Store = 4,
    Operate = 5,
    JumpIfZero = 6,
    Jump = 7,
    Call = 8,
    SetFrame = 9,
    Return = 10,
    Out = 11,
    Next = 12,
    Pop = 13,
    Reserve = 14,
    Release = 15,
    Count = 16,
}

/// A procedure: how many arguments it takes and where its code begins.
#[derive(Clone, Copy)]
pub struct Procedure {
    pub args: u32,
    pub at: u32,
}

/// Code and its fits.
pub struct Code {
    pub words: Vec<u32>,
    pub fits: Vec<[u32; 3]>,
}

impl Code {
    /// No code yet, and memory for so many words of it.
    pub fn with_capacity(words: usize) -> Code {
        Code { words: Vec::with_capacity(words), fits: Vec::with_capacity(words / 4) }
    }

    /// Writes an instruction.
    pub fn emit(&mut self, opcode: Opcode, operand: u32) {
        self.words.extend([opcode as u32, operand]);
    }

    /// Writes an instruction whose operand is fitted.
    pub fn emit_fitted(&mut self, opcode: Opcode, operand: u32, kind: u32, want: u32) {
        self.fits.push([self.words.len() as u32 + 1, kind, want]);
        self.emit(opcode, operand);
    }

    /// Writes a jump or a call to a place of this code that is not known yet, and says where its operand stands.
    pub fn emit_jump(&mut self, opcode: Opcode) -> usize {
        self.emit_fitted(opcode, 0, 0, 0);
        self.words.len() - 1
    }

    /// Lets a jump go to the end of the code so far.
    pub fn land(&mut self, jump: usize) {
        self.words[jump] = self.words.len() as u32;
    }
}

/// A call of one of the unit's own procedures with so many arguments; the procedure's place goes to the code word `at`.
struct OwnCall {
    at: usize,
    procedure: u32,
    args: u32,
}

/// What is left of the row, what a body may name, and what has been written so far.
struct Compiler<'a> {
    row: &'a [u32],
    words: u32,
    wants: &'a [[u32; 3]],
    code: Code,
    own_calls: Vec<OwnCall>,
}

impl Compiler<'_> {
    /// The next word of the row.
    fn next(&mut self) -> Option<u32> {
        self.row.split_off_first().copied()
    }

    /// The next word of the row, which is below `limit`.
    fn next_below(&mut self, limit: u32) -> Option<u32> {
        self.next().filter(|&word| word < limit)
    }

    /// Writes the code of the row's next expression, in a procedure with so many arguments. The expression's height.
    fn expression(&mut self, args: u32, depth: u32) -> Option<u32> {
        let depth = depth.checked_sub(1)?;
        let height = match self.next()? {
            0 => {
                let number = self.next()?;
                self.code.emit(Opcode::Push, number);
                1
            }
            1 => {
                let argument = self.next_below(args)?;
                self.code.emit(Opcode::Arg, argument);
                1
            }
            2 => {
                let word = self.next_below(self.words)?;
                self.code.emit_fitted(Opcode::Load, word, 1, 0);
                1
            }
            3 => {
                let operation = self.next_below(6)?;
                let first = self.expression(args, depth)?;
                let second = self.expression(args, depth)?;
                self.code.emit(Opcode::Operate, operation);
                first.max(second + 1)
            }
            4 => {
                let test = self.expression(args, depth)?;
                let to_second = self.code.emit_jump(Opcode::JumpIfZero);
                let first = self.expression(args, depth)?;
                let to_end = self.code.emit_jump(Opcode::Jump);
                self.code.land(to_second);
                let second = self.expression(args, depth)?;
                self.code.land(to_end);
                test.max(first).max(second)
            }
            5 => {
                let word = self.next_below(self.words)?;
                let height = self.expression(args, depth)?;
                self.code.emit_fitted(Opcode::Store, word, 1, 0);
                height
            }
            6 => {
                let first = self.expression(args, depth)?;
                self.code.emit(Opcode::Pop, 0);
                first.max(self.expression(args, depth)?)
            }
            7 => {
                let height = self.expression(args, depth)?;
                self.code.emit(Opcode::Out, 0);
                height
            }
            8 => {
                self.code.emit(Opcode::Next, 0);
                1
            }
            9 => self.call(args, depth)?,
            _ => return None,
        };
        Some(height)
    }

    /// Writes the code of a call, whose sign has been read. Its height.
    fn call(&mut self, args: u32, depth: u32) -> Option<u32> {
        let callee = self.next()?;
        let count = self.next()?;
        let mut height = 1;
        for before in 0..count {
            height = height.max(before + self.expression(args, depth)?);
        }
        if let Some(want) = self.wants.get(callee as usize) {
            if want[2] != count {
                return None;
            }
            self.code.emit_fitted(Opcode::Call, 0, 2, callee);
        } else {
            let at = self.code.emit_jump(Opcode::Call);
            self.own_calls.push(OwnCall { at, procedure: callee - self.wants.len() as u32, args: count });
        }
        Some(height)
    }

    /// Writes the code of the row's next procedure.
    fn procedure(&mut self) -> Option<Procedure> {
        let at = self.code.words.len();
        let args = self.next_below(MOST_ARGUMENTS + 1)?;
        self.code.emit(Opcode::Count, 0);
        self.code.emit(Opcode::Reserve, 0);
        self.code.emit(Opcode::SetFrame, args);
        let frame = 4 + args + self.expression(args, MOST_DEPTH)?;
        self.code.words[at + 3] = frame;
        self.code.emit(Opcode::Release, frame);
        self.code.emit(Opcode::Return, args);
        Some(Procedure { args, at: at as u32 })
    }

    /// Fills in the calls of the unit's own procedures; none where one is not there or takes another number of arguments.
    fn settle_calls(&mut self, procedures: &[Procedure]) -> Option<()> {
        for call in &self.own_calls {
            let procedure = procedures.get(call.procedure as usize)?;
            if procedure.args != call.args {
                return None;
            }
            self.code.words[call.at] = procedure.at;
        }
        Some(())
    }
}

/// Writes words behind those that stand in an object already.
fn put(object: &mut [u32], size: &mut usize, words: &[u32]) {
    object[*size..*size + words.len()].copy_from_slice(words);
    *size += words.len();
}

/// Writes the row of an object, which has space. The object's length.
pub fn write_object(name: u32, words: u32, wants: &[[u32; 3]], procedures: &[Procedure], offers: &[u32], code: &Code, object: &mut [u32]) -> usize {
    let counts = [wants.len(), offers.len(), code.words.len(), code.fits.len()].map(|count| count as u32);
    let mut size = 0;
    put(object, &mut size, &[name, words]);
    put(object, &mut size, &counts);
    put(object, &mut size, wants.as_flattened());
    for &offer in offers {
        let Procedure { args, at } = procedures[offer as usize];
        put(object, &mut size, &[offer, args, at]);
    }
    put(object, &mut size, &code.words);
    put(object, &mut size, code.fits.as_flattened());
    size
}

/// Compiles a unit's row; the object has space. The object's length.
fn object_of(row: &[u32], object: &mut [u32]) -> Option<usize> {
    let &[name, words, want_count, procedure_count, offer_count, ref rest @ ..] = row else {
        return None;
    };
    if row.len() > MOST_ROW || words > MOST_WORDS || want_count > MOST_WANTS || procedure_count > MOST_PROCEDURES {
        return None;
    }
    let (wants, bodies) = rest.split_at_checked(3 * want_count as usize)?;
    let wants = wants.as_chunks().0;
    if wants.iter().any(|want| want[2] > MOST_ARGUMENTS) {
        return None;
    }

    let mut compiler = Compiler { row: bodies, words, wants, code: Code::with_capacity(2 * row.len()), own_calls: Vec::new() };
    let procedures: Option<Vec<Procedure>> = (0..procedure_count).map(|_| compiler.procedure()).collect();
    let procedures = procedures?;
    compiler.settle_calls(&procedures)?;
    let Compiler { row: offers, code, .. } = compiler;
    if offers.len() != offer_count as usize || offers.iter().any(|&offer| offer >= procedure_count) {
        return None;
    }

    Some(write_object(name, words, wants, &procedures, offers, &code, object))
}

/// Whether there are too few words for the object or for the work.
pub fn is_short(unit: &[u32], object: &[u32], work: usize) -> bool {
    object.len() < 256 + 32 * unit.len() || work < 4096 + 16 * unit.len()
}

/// Compiles a unit's row. The object stands first in its words; what is refused leaves them as they were. `work` is how many words
/// a caller lends to work with: they decide what is short and are not used.
pub fn compile(unit: &[u32], object: &mut [u32], work: usize) -> Compiled {
    if is_short(unit, object, work) {
        return Compiled::Short;
    }
    match object_of(unit, object) {
        Some(size) => Compiled::Object(size),
        None => Compiled::NoUnit,
    }
}
