//! Programs of known shapes, over several units, with numbers of chance in them.

use super::chance::Chance;
use super::draft::{draft, Draft};
use crate::units::Word;

pub type Shape = (&'static str, fn(&mut Chance) -> Draft);

/// Programs that are done if there are room and calls enough.
pub const ENDING: [Shape; 27] = [
    ("two units by turns, with a sum behind each call", turns_with_sums),
    ("three units by turns, thousands deep", deep_turns),
    ("Fibonacci over two units", fibonacci),
    ("Ackermann over two units", ackermann),
    ("greatest common divisors of the tape's pairs", divisors),
    ("the tape backwards, by two units in turn", backwards),
    ("sums of the tape", sums),
    ("Collatz over two units", collatz),
    ("eight arguments that go round", eight_arguments),
    ("the first procedure entered again from another unit", entered_again),
    ("all operations on edge numbers from the tape", edges_from_tape),
    ("all operations on edge numbers", edges_in_code),
    (
        "the same procedure number in eight units, and one beside it that is not offered",
        same_numbers,
    ),
    ("order of evaluation of operands and arguments", order),
    ("Hofstadter's two sequences", hofstadter),
    ("Takeuchi over two units", takeuchi),
    ("McCarthy's 91 over two units", ninety_one),
    ("accounts, by orders on the tape", accounts),
    ("a counter of bits, each in its own unit", bits),
    ("each unit fills and shows its own words", fill_words),
    ("units of 4096 words", many_words),
    ("calls in all eight arguments", calls_in_arguments),
    ("a row of mixed numbers", mixed_numbers),
    ("primes by division", primes),
    ("towers of Hanoi", hanoi),
    ("binomials over two units", binomials),
    ("powers by squaring, with words kept over calls", powers),
];

/// Programs that never end of themselves.
pub const ENDLESS: [Shape; 3] = [
    ("endless calls, each puts out", endless_out),
    ("endless calls from a second operand", endless_operand),
    ("endless calls one after the other", endless_row),
];

fn turns_with_sums(chance: &mut Chance) -> Draft {
    let main = format!("(out (1.0 {} {}))", chance.between(900, 3000), chance.word());
    draft(
        &[
            (0, &[(0, &main), (2, "(if a0 (+ a0 (1.0 (- a0 1) (* a1 3))) (out a1))")]),
            (1, &[(2, "(if a0 (- (0.1 (- a0 1) (+ a1 a0)) (keep w0 (+ w0 1))) (out w0))")]),
        ],
        &[],
    )
}

fn deep_turns(chance: &mut Chance) -> Draft {
    let main = format!("(out (1.0 {}))", chance.between(7000, 9200));
    draft(
        &[
            (0, &[(0, &main)]),
            (0, &[(1, "(if a0 (2.0 (- a0 1)) 7)")]),
            (1, &[(1, "(if a0 (3.0 (- a0 1)) (out 8))")]),
            (0, &[(1, "(if a0 (1.0 (- a0 1)) (out 9))")]),
        ],
        &[],
    )
}

fn fibonacci(chance: &mut Chance) -> Draft {
    let main = format!("(then (out (1.0 {})) (out w0))", chance.between(8, 16));
    let counted = "(if (< a0 2) (then (keep w0 (+ w0 1)) a0) (+ (1.0 (- a0 1)) (1.0 (- a0 2))))";
    draft(
        &[
            (1, &[(0, &main), (1, counted)]),
            (0, &[(1, "(if (< a0 2) a0 (+ (0.1 (- a0 1)) (0.1 (- a0 2))))")]),
        ],
        &[],
    )
}

fn ackermann(chance: &mut Chance) -> Draft {
    let main = format!("(out (1.0 2 {}))", chance.between(2, 9));
    let step = "(if a0 (if a1 (2.0 (- a0 1) (1.0 a0 (- a1 1))) (2.0 (- a0 1) 1)) (+ a1 1))";
    let pass = "(then (keep w1 (+ w1 1)) (if (= w1 20) (out w1) 0) (1.0 a0 a1))";
    draft(&[(0, &[(0, &main)]), (0, &[(2, step)]), (2, &[(2, pass)])], &[])
}

fn divisors(chance: &mut Chance) -> Draft {
    let factor = chance.between(2, 30) as Word;
    let mut tape = vec![];
    for _ in 0..chance.between(3, 6) {
        tape.push(factor * chance.between(1, 400) as Word);
        tape.push(factor * chance.between(0, 400) as Word);
    }
    tape.extend([0x8000_0000, 0xffff_ffff, 0, 12]);
    draft(
        &[
            (0, &[(0, "(0.1 take)"), (1, "(if a0 (then (out (1.0 a0 take)) (0.1 take)) 0)")]),
            (0, &[(2, "(if a1 (1.0 a1 (2.1 a0 a1)) a0)")]),
            (0, &[(2, "(- a1 a0)"), (2, "(- a0 (* (/ a0 a1) a1))")]),
        ],
        &tape,
    )
}

fn backwards(chance: &mut Chance) -> Draft {
    let mut tape: Vec<Word> = (0..chance.between(6, 20)).map(|_| chance.word() | 1).collect();
    tape.push(0);
    draft(
        &[
            (
                1,
                &[
                    (0, "(1.0 take)"),
                    (1, "(if a0 (then (1.0 take) (out (+ a0 w0))) (keep w0 100))"),
                ],
            ),
            (0, &[(1, "(if a0 (then (0.1 take) (out a0)) (out 0))")]),
        ],
        &tape,
    )
}

fn sums(chance: &mut Chance) -> Draft {
    let count = chance.between(4, 12);
    let tape: Vec<Word> = (0..count).map(|_| chance.word()).collect();
    let main = format!("(then (0.1 {}) (out (1.1)))", count + 2);
    let each = "(if a0 (then (out (1.0 take)) (0.1 (- a0 1))) 0)";
    let add = "(then (keep w1 (+ w1 1)) (keep w0 (+ w0 a0)))";
    draft(&[(0, &[(0, &main), (1, each)]), (2, &[(1, add), (0, "(/ w0 w1)")])], &tape)
}

fn collatz(chance: &mut Chance) -> Draft {
    let main = format!("(then (out (1.0 {} 0)) (out (2.1)))", chance.between(5, 60));
    let step = "(if (= a0 1) a1 (2.0 (if (- a0 (* 2 (/ a0 2))) (+ 1 (* 3 a0)) (/ a0 2)) (+ a1 1)))";
    let top = "(then (if (< w0 a0) (keep w0 a0) 0) (1.0 a0 a1))";
    draft(&[(0, &[(0, &main)]), (0, &[(2, step)]), (1, &[(2, top), (0, "w0")])], &[])
}

fn eight_arguments(chance: &mut Chance) -> Draft {
    let turns = chance.between(3, 25);
    let main = format!("(out (1.0 {turns} take take take take take take take))");
    let round = "(if a0 (2.3 (- a0 1) a2 a3 a4 a5 a6 a7 (+ a1 w0)) (- a1 (2.0 a2 a3 a4)))";
    let back =
        "(if a0 (1.0 (- a0 1) a7 a1 a2 a3 a4 (keep w2 (* a5 3)) a6) (then (out a7) (out a1)))";
    let tape: Vec<Word> = (0..6).map(|_| chance.word()).collect();
    draft(
        &[
            (0, &[(0, &main)]),
            (1, &[(8, round)]),
            (3, &[(3, "(+ a0 (* a1 a2))"), (0, "1"), (8, "a7"), (8, back)]),
        ],
        &tape,
    )
}

fn entered_again(chance: &mut Chance) -> Draft {
    let turns = chance.between(3, 12);
    let main = format!("(then (out (keep w0 (+ w0 1))) (if (< w0 {turns}) (1.0 w0) (out 99)))");
    let back = "(then (keep w0 (+ w0 (* a0 a0))) (0.0) (out (+ w0 a0)))";
    draft(&[(1, &[(0, &main)]), (1, &[(1, back)])], &[])
}

fn endless_out(chance: &mut Chance) -> Draft {
    let main = format!("(then (out (keep w0 (+ w0 {}))) (1.0))", chance.between(1, 9));
    draft(&[(1, &[(0, &main)]), (2, &[(0, "(+ (keep w1 (- w1 1)) (0.0))")])], &[])
}

fn endless_operand(chance: &mut Chance) -> Draft {
    let main = format!("(* (out {}) (1.0 (out take) 3))", chance.word());
    draft(
        &[
            (0, &[(0, &main), (1, "(- a0 (1.0! a0 a0))")]),
            (0, &[(2, "(+ a1 (if (< a0 a1) (0.1 (+ a0 1)) (1.0 (/ a0 2) (0.1 a1))))")]),
        ],
        &[chance.between(2, 200) as Word],
    )
}

/// No chain of calls grows long, but they never end.
fn endless_row(chance: &mut Chance) -> Draft {
    let main = format!("(then (out {}) (0.1 40))", chance.below(100));
    let each = "(if a0 (then (1.0) (0.1 (- a0 1)) (0.1 (- a0 1))) (out (1.1)))";
    draft(
        &[(0, &[(0, &main), (1, each)]), (1, &[(0, "(keep w0 (+ w0 1))"), (0, "(* w0 (1.0))")])],
        &[],
    )
}

const ALL: &str = "(then (out (+ a0 a1)) (out (- a0 a1)) (out (* a0 a1)) (out (/ a0 a1)) \
                   (out (< a0 a1)) (out (= a0 a1)))";

fn edges_from_tape(chance: &mut Chance) -> Draft {
    let pairs = chance.between(8, 16);
    let edges = [0, 1, 2, 0x7fff_ffff, 0x8000_0000, 0xffff_ffff, 0xffff, 0x1_0000];
    let tape: Vec<Word> = (0..2 * pairs).map(|_| chance.pick(&edges)).collect();
    let main = format!("(0.1 {pairs})");
    let each = "(if a0 (then (1.0 take take) (0.1 (- a0 1))) 0)";
    draft(&[(0, &[(0, &main), (1, each)]), (0, &[(2, ALL)])], &tape)
}

fn edges_in_code(chance: &mut Chance) -> Draft {
    let edges: [Word; 6] = [0, 1, 0x8000_0000, 0xffff_ffff, 0x7fff_ffff, 0x1_0000];
    let mut calls = String::new();
    for _ in 0..chance.between(6, 10) {
        let (first, second) = (chance.pick(&edges), chance.pick(&edges));
        calls.push_str(&format!("(1.0 {first} {second}) "));
    }
    let division = format!("(out (/ {} 0)) (out (/ 0 0))", chance.pick(&edges));
    let main = format!("(then {calls} {division} (out (- 0 1)) (out (* 4294967295 4294967295)))");
    draft(&[(0, &[(0, &main)]), (0, &[(2, ALL)])], &[])
}

fn same_numbers(chance: &mut Chance) -> Draft {
    let mut main = String::from("(then");
    let mut bodies = vec![];
    for unit in 1..8 {
        main.push_str(&format!(" (out ({unit}.1 {}))", chance.below(50)));
        let next = unit % 7 + 1;
        let own = format!("(+ (keep w0 (+ w0 a0)) {})", chance.word());
        let offered = format!("(* (if (< a0 9) a0 ({next}.1 (/ a0 3))) ({unit}.0 {unit}))");
        bodies.push((own, offered));
    }
    main.push_str(" (out w0))");
    let texts: Vec<[(usize, &str); 2]> =
        bodies.iter().map(|(own, offered)| [(1, own.as_str()), (1, offered.as_str())]).collect();
    let first: [(usize, &str); 2] = [(0, &main), (1, "(out (keep w0 a0))")];
    let mut units: Vec<(usize, &[(usize, &str)])> = vec![(1, &first)];
    units.extend(texts.iter().map(|text| (1, text.as_slice())));
    draft(&units, &[])
}

fn order(chance: &mut Chance) -> Draft {
    let tape: Vec<Word> = (0..16).map(|_| chance.between(1, 99) as Word).collect();
    let main = "(then (out (- take take)) (out (/ take take)) (1.0 take take take take take take \
                take take) (out (+ (keep w0 5) w0)) (out (- w0 (keep w0 9))) (1.0 w0 (keep w0 \
                (+ w0 1)) w0 (0.1) w0 (0.1) (out w0) (then (keep w0 1) w0)) (out (if take take \
                (out 77))) (out (< (out take) (out take))))";
    let show = "(then (out a0) (out a1) (out a2) (out a3) (out a4) (out a5) (out a6) (out a7))";
    draft(&[(1, &[(0, main), (0, "(keep w0 (* w0 2))")]), (0, &[(8, show)])], &tape)
}

fn hofstadter(chance: &mut Chance) -> Draft {
    let main = format!("(0.2 {} {})", chance.between(4, 9), chance.between(2, 8));
    let row = "(if a0 (then (out (0.1 a1)) (out (1.0 a1)) (0.2 (- a0 1) (+ a1 1))) 0)";
    draft(
        &[
            (0, &[(0, &main), (1, "(if a0 (- a0 (1.0 (0.1 (- a0 1)))) 1)"), (2, row)]),
            (0, &[(1, "(if a0 (- a0 (0.1 (1.0 (- a0 1)))) 0)")]),
        ],
        &[],
    )
}

fn takeuchi(chance: &mut Chance) -> Draft {
    let low = chance.between(20, 40);
    let (middle, high) = (low + chance.between(1, 4), low + chance.between(4, 7));
    let main = format!("(then (out (1.0 {high} {middle} {low})) (out (2.1)))");
    let step =
        "(if (< a1 a0) (2.0 (1.0 (- a0 1) a1 a2) (1.0 (- a1 1) a2 a0) (1.0 (- a2 1) a0 a1)) a2)";
    let pass = "(then (keep w0 (+ w0 1)) (1.0 a0 a1 a2))";
    draft(&[(0, &[(0, &main)]), (0, &[(3, step)]), (1, &[(3, pass), (0, "w0")])], &[])
}

fn ninety_one(chance: &mut Chance) -> Draft {
    let main = format!(
        "(then (out (1.0 {})) (out (0.1 {})))",
        chance.between(40, 99),
        chance.between(90, 110)
    );
    let body = "(if (< 100 a0) (- a0 10) (1.0 (0.1 (+ a0 11))))";
    let other = "(if (< 100 a0) (- a0 10) (0.1 (1.0 (+ a0 11))))";
    draft(&[(0, &[(0, &main), (1, body)]), (0, &[(1, other)])], &[])
}

fn accounts(chance: &mut Chance) -> Draft {
    let mut tape = vec![];
    for _ in 0..chance.between(6, 12) {
        let order = chance.between(1, 3) as Word;
        tape.push(order);
        if order < 3 {
            tape.push(chance.below(200) as Word);
        }
    }
    let obey = "(if a0 (then (if (= a0 1) (1.0 take) (if (= a0 2) (1.1 take) (out (1.2)))) \
                (0.1 take)) (out (1.2)))";
    let less = "(if (< w0 a0) (out (2.0 w0 a0)) (keep w0 (- w0 a0)))";
    draft(
        &[
            (0, &[(0, "(0.1 take)"), (1, obey)]),
            (1, &[(1, "(keep w0 (+ w0 a0))"), (1, less), (0, "w0")]),
            (3, &[(2, "(then (keep w2 (+ w2 1)) (- (keep w1 a1) (keep w0 a0)))")]),
        ],
        &tape,
    )
}

fn bits(chance: &mut Chance) -> Draft {
    let main = format!(
        "(then (0.1 {}) (out (4.1)) (out (3.1)) (out (2.1)) (out (1.1)) (out w0))",
        chance.between(5, 30)
    );
    let each = "(if a0 (then (1.0) (0.1 (- a0 1))) 0)";
    draft(
        &[
            (1, &[(0, &main), (1, each), (0, "(keep w0 (+ w0 1))")]),
            (2, &[(0, "(if w1 (then (keep w1 0) (2.0)) (keep w1 1))"), (0, "w1")]),
            (1, &[(0, "(if w0 (then (keep w0 0) (3.0)) (keep w0 1))"), (0, "w0")]),
            (3, &[(0, "(if w2 (then (keep w2 0) (4.0)) (keep w2 1))"), (0, "w2")]),
            (1, &[(0, "(if w0 (then (keep w0 0) (0.2)) (keep w0 1))"), (0, "w0")]),
        ],
        &[],
    )
}

fn fill_words(chance: &mut Chance) -> Draft {
    let mut main = String::from("(then (keep w0 1)");
    let mut bodies = vec![];
    for unit in 1..6 {
        let mut fill = String::from("(then");
        let mut show = String::from("(then");
        for word in 0..unit {
            fill.push_str(&format!(" (keep w{word} (+ w{word} (* a0 {})))", chance.between(1, 90)));
            show.push_str(&format!(" (out w{word})"));
        }
        bodies.push((fill + ")", show + ")"));
    }
    for turn in 1..3 {
        for unit in 1..6 {
            main.push_str(&format!(" ({unit}.0 {turn})"));
        }
    }
    main.push_str(" (5.1) (4.1) (3.1) (2.1) (1.1) (out w0) (out w1))");
    let texts: Vec<[(usize, &str); 2]> =
        bodies.iter().map(|(fill, show)| [(1, fill.as_str()), (0, show.as_str())]).collect();
    let first: [(usize, &str); 1] = [(0, &main)];
    let mut units: Vec<(usize, &[(usize, &str)])> = vec![(2, &first)];
    for (place, text) in texts.iter().enumerate() {
        units.push((place + 1, text.as_slice()));
    }
    draft(&units, &[])
}

fn many_words(chance: &mut Chance) -> Draft {
    let main = format!(
        "(then (keep w4095 {}) (1.0 {}) (2.0 {}) (out w4095) (out w0) (1.1) (2.1))",
        chance.word(),
        chance.word(),
        chance.word()
    );
    let fill = "(then (keep w0 a0) (keep w4095 (+ a0 1)) (keep w2048 (* w0 w4095)))";
    let show = "(then (out w0) (out w1) (out w2048) (out w4094) (out w4095))";
    draft(
        &[(4096, &[(0, &main)]), (4096, &[(1, fill), (0, show)]), (4096, &[(1, fill), (0, show)])],
        &[],
    )
}

fn calls_in_arguments(chance: &mut Chance) -> Draft {
    let main = "(out (1.0 (0.1 1) (1.1 2 3) (0.1 4) (+ 5 (0.1 5)) (- (0.1 6) 1) \
                (1.1 (0.1 7) (0.1 8)) (0.1 (0.1 9)) (0.1 10)))";
    let mix = "(+ a0 (* 3 (+ a1 (* 3 (+ a2 (* 3 (+ a3 (* 3 (+ a4 (* 3 (+ a5 (* 3 (+ a6 \
               (* 3 a7))))))))))))))";
    let count = format!("(out (+ (keep w0 (+ w0 {})) a0))", chance.between(1, 1000));
    draft(
        &[
            (1, &[(0, main), (1, &count)]),
            (1, &[(8, mix), (2, "(keep w0 (- (0.1 a1) (- a0 w0)))")]),
        ],
        &[],
    )
}

fn mixed_numbers(chance: &mut Chance) -> Draft {
    let main = format!("(then (1.1 take) (0.1 {}))", chance.between(5, 30));
    let each = "(if a0 (then (out (/ (1.0) 65536)) (0.1 (- a0 1))) 0)";
    let next = "(keep w0 (+ (* w0 1103515245) 12345))";
    draft(
        &[(0, &[(0, &main), (1, each)]), (1, &[(0, next), (1, "(keep w0 a0)")])],
        &[chance.word()],
    )
}

fn primes(chance: &mut Chance) -> Draft {
    let main = format!("(0.1 {} {})", chance.between(2, 40), chance.between(4, 10));
    let row = "(if a1 (then (if (1.0 a0 2) (out a0) 0) (0.1 (+ a0 1) (- a1 1))) 0)";
    let test = "(if (< a0 (* a1 a1)) 1 (if (2.0 a0 a1) (1.0 a0 (+ a1 1)) 0))";
    draft(
        &[(0, &[(0, &main), (2, row)]), (0, &[(2, test)]), (0, &[(2, "(- a0 (* a1 (/ a0 a1)))")])],
        &[],
    )
}

fn hanoi(chance: &mut Chance) -> Draft {
    let main = format!("(then (1.0 {} 1 2 3) (out w0))", chance.between(3, 6));
    let move_ =
        "(if a0 (then (2.1 (- a0 1) a1 a3 a2) (out (+ (* 10 a1) a2)) (2.1 (- a0 1) a3 a2 a1)) 0)";
    draft(
        &[(1, &[(0, &main)]), (0, &[(4, move_)]), (0, &[(4, "0"), (4, "(1.0 a0 a1 a2 a3)")])],
        &[],
    )
}

fn binomials(chance: &mut Chance) -> Draft {
    let row = chance.between(5, 10);
    let main = format!("(then (out (1.0 {row} {})) (out (2.0 {row} 2)))", row / 2);
    let one = "(if a1 (if a0 (+ (2.0 (- a0 1) (- a1 1)) (2.0 (- a0 1) a1)) 0) 1)";
    let other = "(if (= a1 0) 1 (if (= a0 0) 0 (+ (1.0 (- a0 1) a1) (1.0 (- a0 1) (- a1 1)))))";
    draft(&[(0, &[(0, &main)]), (0, &[(2, one)]), (0, &[(2, other)])], &[])
}

fn powers(chance: &mut Chance) -> Draft {
    let main = format!(
        "(then (out (1.0 take {})) (out (1.0 take {})) (out (1.1)))",
        chance.between(3, 200),
        chance.between(200, 100000)
    );
    let power =
        "(if a1 (* (if (= (* 2 (/ a1 2)) a1) 1 a0) (2.0 (1.0 a0 (/ a1 2)))) (keep w0 (+ w0 1)))";
    draft(
        &[(0, &[(0, &main)]), (1, &[(2, power), (0, "w0")]), (1, &[(1, "(* (keep w0 a0) w0)")])],
        &[chance.between(2, 9) as Word, chance.word()],
    )
}
