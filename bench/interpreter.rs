//! A plain interpreter of the machine in safe Rust, to compare the proved one with.
//!
//! Same command line as `unitrun --code`, same output. Build: `rustc --edition 2021 -C opt-level=3 interpreter.rs`.

#![forbid(unsafe_code)]

use std::env;
use std::fmt;
use std::fs;
use std::io::{self, BufWriter, Read, Write};
use std::process::ExitCode;

const USAGE: &str = "usage: interpreter [--room N] [--calls N] [--steps N] [--count-steps] --code FILE < TAPE";

/// So many words may be put out.
const OUT_WORDS: usize = 65_536;

/// How a run ended.
#[derive(Clone, Copy)]
enum Ending {
    Done,
    NoCalls,
    NoRoom,
    Wild,
    More,
    OutFull,
}

impl Ending {
    /// How a halt with `n` ends.
    fn of_halt(n: u32) -> Ending {
        match n {
            1 => Ending::Done,
            2 => Ending::NoCalls,
            3 => Ending::NoRoom,
            _ => Ending::Wild,
        }
    }
}

impl fmt::Display for Ending {
    fn fmt(&self, f: &mut fmt::Formatter<'_>) -> fmt::Result {
        f.write_str(match self {
            Ending::Done => "done",
            Ending::NoCalls => "no calls",
            Ending::NoRoom => "no room",
            Ending::Wild => "wild",
            Ending::More => "more",
            Ending::OutFull => "out full",
        })
    }
}

/// What a run is given besides its code and its tape.
struct Limits {
    words: u32,
    room: u32,
    calls: u32,
    steps: u32,
}

/// What a run gives.
struct Ran {
    ending: Ending,
    outs: Vec<u32>,
    steps: u32,
}

/// A word outside reads 0.
fn read(words: &[u32], place: usize) -> u32 {
    words.get(place).copied().unwrap_or(0)
}

/// A word outside is not kept.
fn write(words: &mut [u32], place: usize, value: u32) {
    if let Some(word) = words.get_mut(place) {
        *word = value;
    }
}

/// Operation `n` on two words, if there is one of that number.
fn operate(n: u32, x: u32, y: u32) -> Option<u32> {
    Some(match n {
        0 => x.wrapping_add(y),
        1 => x.wrapping_sub(y),
        2 => x.wrapping_mul(y),
        3 => x.checked_div(y).unwrap_or(0),
        4 => u32::from(x < y),
        5 => u32::from(x == y),
        _ => return None,
    })
}

/// Runs `code` on `tape` until it halts, at most `limits.steps` steps. The memory holds the units' words and behind them the stack.
fn run(code: &[u32], tape: &[u32], memory: &mut [u32], limits: &Limits) -> Ran {
    let mut pc = 0;
    let mut fp = limits.words as usize;
    let mut sp = limits.words as usize;
    let mut free = limits.room;
    let mut left = limits.calls;
    let mut tape = tape.iter();
    let mut outs = Vec::with_capacity(OUT_WORDS);

    for step in 0..limits.steps {
        let ended = |ending, outs| Ran { ending, outs, steps: step + 1 };
        let Some(&instruction) = code.get(pc) else {
            return ended(Ending::Wild, outs);
        };
        let n = read(code, pc + 1);
        let mut next = pc + 2;
        match instruction {
            // halt with n
            0 => return ended(Ending::of_halt(n), outs),
            // push n
            1 => {
                write(memory, sp, n);
                sp += 1;
            }
            // push the word at fp + n
            2 => {
                let value = read(memory, fp + n as usize);
                write(memory, sp, value);
                sp += 1;
            }
            // push the word at n
            3 => {
                let value = read(memory, n as usize);
                write(memory, sp, value);
                sp += 1;
            }
            // keep the top at n
            4 => {
                let top = read(memory, sp.saturating_sub(1));
                write(memory, n as usize, top);
            }
            // operation n on the two topmost
            5 => {
                let x = read(memory, sp.saturating_sub(2));
                let y = read(memory, sp.saturating_sub(1));
                let Some(value) = operate(n, x, y) else {
                    return ended(Ending::Wild, outs);
                };
                write(memory, sp.saturating_sub(2), value);
                sp = sp.saturating_sub(1);
            }
            // pop, go to n if it was 0
            6 => {
                sp = sp.saturating_sub(1);
                if read(memory, sp) == 0 {
                    next = n as usize;
                }
            }
            // go to n
            7 => next = n as usize,
            // push the place behind this instruction and fp, go to n
            8 => {
                write(memory, sp, next as u32);
                write(memory, sp + 1, fp as u32);
                sp += 2;
                next = n as usize;
            }
            // fp becomes sp less n and 2
            9 => fp = sp.saturating_sub(n as usize + 2),
            // return from n arguments: the top goes to fp, sp behind it; pc and fp from behind the arguments
            10 => {
                let top = read(memory, sp.saturating_sub(1));
                next = read(memory, fp + n as usize) as usize;
                let caller = read(memory, fp + n as usize + 1) as usize;
                write(memory, fp, top);
                sp = fp + 1;
                fp = caller;
            }
            // put out the top
            11 => {
                if outs.len() == OUT_WORDS {
                    return ended(Ending::OutFull, outs);
                }
                outs.push(read(memory, sp.saturating_sub(1)));
            }
            // push the tape's next word, 0 at its end
            12 => {
                write(memory, sp, tape.next().copied().unwrap_or(0));
                sp += 1;
            }
            // pop
            13 => sp = sp.saturating_sub(1),
            // free less n, or halt with 3
            14 => match free.checked_sub(n) {
                Some(rest) => free = rest,
                None => return ended(Ending::NoRoom, outs),
            },
            // free and n, modulo 2^32
            15 => free = free.wrapping_add(n),
            // left less 1, or halt with 2
            16 => match left.checked_sub(1) {
                Some(rest) => left = rest,
                None => return ended(Ending::NoCalls, outs),
            },
            _ => return ended(Ending::Wild, outs),
        }
        pc = next;
    }
    Ran { ending: Ending::More, outs, steps: limits.steps }
}

/// The command line.
struct Options {
    room: u32,
    calls: u32,
    steps: u32,
    count_steps: bool,
    code: String,
}

impl Options {
    fn parse(mut args: impl Iterator<Item = String>) -> Result<Options, String> {
        let mut options = Options { room: 65_536, calls: 1_000_000, steps: u32::MAX, count_steps: false, code: String::new() };
        while let Some(option) = args.next() {
            if option == "--count-steps" {
                options.count_steps = true;
                continue;
            }
            let value = args.next().ok_or(USAGE)?;
            match option.as_str() {
                "--room" => options.room = number(&value)?,
                "--calls" => options.calls = number(&value)?,
                "--steps" => options.steps = number(&value)?,
                "--code" => options.code = value,
                _ => return Err(USAGE.into()),
            }
        }
        if options.code.is_empty() {
            return Err(USAGE.into());
        }
        Ok(options)
    }
}

fn number(text: &str) -> Result<u32, String> {
    text.parse().map_err(|_| format!("not a number below 2^32: {text}"))
}

fn numbers(text: &str) -> Result<Vec<u32>, String> {
    text.split_ascii_whitespace().map(number).collect()
}

fn print(ran: &Ran) -> io::Result<()> {
    let mut stdout = BufWriter::new(io::stdout().lock());
    if !matches!(ran.ending, Ending::OutFull) {
        for word in &ran.outs {
            writeln!(stdout, "{word}")?;
        }
    }
    writeln!(stdout, "{}", ran.ending)?;
    stdout.flush()
}

fn work() -> Result<(), String> {
    let options = Options::parse(env::args().skip(1))?;
    let image = fs::read_to_string(&options.code).map_err(|e| format!("{}: {e}", options.code))?;
    let image = numbers(&image)?;
    let (&words, code) = image.split_last().ok_or("no number of words")?;
    let mut tape = String::new();
    io::stdin().read_to_string(&mut tape).map_err(|e| format!("tape: {e}"))?;
    let tape = numbers(&tape)?;

    let mut memory = vec![0; words as usize + options.room as usize];
    let limits = Limits { words, room: options.room, calls: options.calls, steps: options.steps };
    let ran = run(code, &tape, &mut memory, &limits);
    if options.count_steps {
        eprintln!("{}", ran.steps);
    }
    print(&ran).map_err(|e| e.to_string())
}

fn main() -> ExitCode {
    match work() {
        Ok(()) => ExitCode::SUCCESS,
        Err(message) => {
            eprintln!("interpreter: {message}");
            ExitCode::FAILURE
        }
    }
}
