//! Inputs to time and to compare the compilers and the linkers on; always the same ones.

/// Numbers that look random (xorshift).
pub struct Chance(u64);

impl Chance {
    pub fn new(seed: u64) -> Chance {
        Chance(seed ^ 0x9e37_79b9_7f4a_7c15)
    }

    pub fn word(&mut self) -> u32 {
        self.0 ^= self.0 << 13;
        self.0 ^= self.0 >> 7;
        self.0 ^= self.0 << 17;
        (self.0 >> 32) as u32
    }

    pub fn below(&mut self, limit: u32) -> u32 {
        self.word() % limit
    }
}

/// How large a list of objects is made.
pub struct Sizes {
    pub objects: u32,
    pub wants: u32,
    pub offers: u32,
    pub code: u32,
}

/// How many arguments a procedure takes that an object offers; procedure 0 takes none.
fn arguments(proc: u32) -> u32 {
    proc % 9
}

/// The row of objects with these names. Each wants procedures of other objects, and has two fits of kind 2 for each want and one of kind 0 and
/// of kind 1.
pub fn objects(chance: &mut Chance, sizes: &Sizes, names: &[u32]) -> Vec<u32> {
    let mut row = Vec::new();
    for (own, &name) in names.iter().enumerate() {
        row.extend([name, chance.below(64), sizes.wants, sizes.offers, sizes.code, 4 * sizes.wants]);
        for _ in 0..sizes.wants {
            let other = own + 1 + chance.below(sizes.objects - 1) as usize;
            let proc = chance.below(sizes.offers);
            row.extend([names[other % names.len()], proc, arguments(proc)]);
        }
        for proc in 0..sizes.offers {
            row.extend([proc, arguments(proc), chance.below(sizes.code)]);
        }
        for _ in 0..sizes.code {
            row.push(chance.below(4096));
        }
        for want in 0..sizes.wants {
            for kind in [2, 0, 2, 1] {
                row.extend([chance.below(sizes.code), kind, want]);
            }
        }
    }
    row
}

/// Different names, as many as are asked for.
pub fn random_names(chance: &mut Chance, count: u32) -> Vec<u32> {
    let mut names = Vec::new();
    while names.len() < count as usize {
        let name = chance.word();
        if !names.contains(&name) {
            names.push(name);
        }
    }
    names
}

/// A unit that is being made: how many words it has, and how many arguments its callees take, the wants first.
struct Draft {
    words: u32,
    callees: Vec<u32>,
    row: Vec<u32>,
}

impl Draft {
    /// An expression that costs about so many row words, in a procedure with so many arguments, at most so deep.
    fn expression(&mut self, chance: &mut Chance, args: u32, budget: u32, depth: u32) {
        if budget < 4 || depth == 1 {
            return self.leaf(chance, args);
        }
        let (inner, part) = (depth - 1, budget - 2);
        match chance.below(20) {
            0..=8 => {
                let first = chance.below(part);
                self.row.extend([3, chance.below(6)]);
                self.expression(chance, args, first, inner);
                self.expression(chance, args, part - first, inner);
            }
            9..=10 => {
                self.row.push(4);
                self.expression(chance, args, part / 4, inner);
                self.expression(chance, args, part / 3, inner);
                self.expression(chance, args, part / 3, inner);
            }
            11..=12 => {
                self.row.extend([5, chance.below(self.words)]);
                self.expression(chance, args, part, inner);
            }
            13..=15 => {
                let first = chance.below(part);
                self.row.push(6);
                self.expression(chance, args, first, inner);
                self.expression(chance, args, part - first, inner);
            }
            16 => {
                self.row.push(7);
                self.expression(chance, args, part, inner);
            }
            _ => {
                let callee = chance.below(self.callees.len() as u32);
                let count = self.callees[callee as usize];
                self.row.extend([9, callee, count]);
                for _ in 0..count {
                    self.expression(chance, args, part / count, inner);
                }
            }
        }
    }

    /// A number, an argument, a word, or the tape's next.
    fn leaf(&mut self, chance: &mut Chance, args: u32) {
        match chance.below(8) {
            0..=2 => {
                let number = chance.word() >> chance.below(32);
                self.row.extend([0, number]);
            }
            3..=4 if args > 0 => self.row.extend([1, chance.below(args)]),
            7 => self.row.push(8),
            _ => self.row.extend([2, chance.below(self.words)]),
        }
    }
}

/// The row of a unit with so many wants and procedures, whose bodies have about so many words each.
pub fn unit(chance: &mut Chance, wants: u32, procedures: u32, body: u32) -> Vec<u32> {
    let words = 512;
    let offers = procedures / 4;
    let callees: Vec<u32> = (0..wants + procedures).map(|_| chance.below(5)).collect();
    let mut row = vec![chance.word(), words, wants, procedures, offers];
    for want in 0..wants {
        row.extend([chance.word(), chance.below(256), callees[want as usize]]);
    }
    let mut draft = Draft { words, callees, row };
    for procedure in 0..procedures {
        let args = draft.callees[(wants + procedure) as usize];
        draft.row.push(args);
        draft.expression(chance, args, body, 256);
    }
    for _ in 0..offers {
        draft.row.push(chance.below(procedures));
    }
    draft.row
}

/// A copy of a row with a word or two changed, or words cut off or added at its end.
pub fn damaged(chance: &mut Chance, row: &[u32]) -> Vec<u32> {
    let mut copy = row.to_vec();
    match chance.below(8) {
        0 => copy.truncate(chance.below(row.len() as u32) as usize),
        1 => copy.push(chance.below(4)),
        _ => {
            for _ in 0..1 + chance.below(2) {
                let at = chance.below(row.len() as u32) as usize;
                copy[at] = match chance.below(4) {
                    0 => copy[at].wrapping_add(1),
                    1 => copy[at].wrapping_sub(1),
                    2 => row[chance.below(row.len() as u32) as usize],
                    _ => chance.word() >> chance.below(32),
                };
            }
        }
    }
    copy
}
