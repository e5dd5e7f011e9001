//! Times the proved linker and compiler beside the plain ones, after comparing what they give.
//!
//! `bench/run` builds it: the proved ones come from the static library of the crate `speed`.

mod compiler;
mod inputs;
mod linker;
mod tree_compiler;

use inputs::{Chance, Sizes};
use std::hint::black_box;
use std::time::Instant;

/// Many short rounds, so that some of them are not disturbed on a machine that does other work.
const ROUNDS: usize = 101;
const SECONDS_A_ROUND: f64 = 0.004;
const DAMAGED_ROWS: usize = 100_000;

/// What stands in buffers before a call, so that a word too many is seen.
const FILL: u32 = 0xa5a5_a5a5;

/// The proved calls: a slice is a pointer and then a length.
mod proved {
    #[link(name = "speed", kind = "static")]
    unsafe extern "C" {
        fn speed_link(objects: *const u32, objects_len: usize, image: *mut u32, image_len: usize) -> usize;
        fn speed_link_answer(objects: *const u32, objects_len: usize, image: *mut u32, image_len: usize) -> u32;
        fn speed_compile(unit: *const u32, unit_len: usize, object: *mut u32, object_len: usize, work: *mut u32, work_len: usize) -> usize;
        fn speed_compile_answer(unit: *const u32, unit_len: usize, object: *mut u32, object_len: usize, work: *mut u32, work_len: usize) -> u32;
    }

    pub fn link(objects: &[u32], image: &mut [u32]) -> usize {
        // SAFETY: both slices are valid for the call, which asks nothing else and keeps neither.
        unsafe { speed_link(objects.as_ptr(), objects.len(), image.as_mut_ptr(), image.len()) }
    }

    pub fn link_answer(objects: &[u32], image: &mut [u32]) -> u32 {
        // SAFETY: as for `link`.
        unsafe { speed_link_answer(objects.as_ptr(), objects.len(), image.as_mut_ptr(), image.len()) }
    }

    pub fn compile(unit: &[u32], object: &mut [u32], work: &mut [u32]) -> usize {
        // SAFETY: as for `link`.
        unsafe { speed_compile(unit.as_ptr(), unit.len(), object.as_mut_ptr(), object.len(), work.as_mut_ptr(), work.len()) }
    }

    pub fn compile_answer(unit: &[u32], object: &mut [u32], work: &mut [u32]) -> u32 {
        // SAFETY: as for `link`.
        unsafe { speed_compile_answer(unit.as_ptr(), unit.len(), object.as_mut_ptr(), object.len(), work.as_mut_ptr(), work.len()) }
    }
}

/// The number of a plain linker's answer in `speed_link_answer`.
fn link_number(answer: Result<linker::Image, linker::Refusal>) -> u32 {
    match answer {
        Ok(_) => 0,
        Err(linker::Refusal::NoSpace) => 1,
        Err(linker::Refusal::NoObjects) => 2,
        Err(linker::Refusal::Twice) => 3,
        Err(linker::Refusal::Missing) => 4,
    }
}

/// Links a row both ways into so many words; the answers and all words are the same. The answer's number, and the image's length.
fn compare_links(row: &[u32], space: usize) -> (u32, usize) {
    let mut images = [vec![FILL; space], vec![FILL; space], vec![FILL; space]];
    let size = proved::link(row, &mut images[0]);
    let number = proved::link_answer(row, &mut images[1]);
    let answer = linker::link(row, &mut images[2]);
    assert_eq!(number, link_number(answer), "another answer on {} words", row.len());
    assert_eq!(size, answer.map_or(0, |image| image.size), "another size on {} words", row.len());
    assert!(images[0] == images[2] && images[1] == images[2], "another image on {} words", row.len());
    (number, size)
}

/// Compares the linkers on damaged rows.
fn compare_damaged_links() {
    let mut chance = Chance::new(3);
    let sizes = Sizes { objects: 4, wants: 3, offers: 3, code: 20 };
    let row = inputs::objects(&mut chance, &sizes, &[7, 1031, 2, 0]);
    let mut answers = [0; 5];
    for _ in 0..DAMAGED_ROWS {
        let damaged = inputs::damaged(&mut chance, &row);
        let space = damaged.len() + if chance.below(50) == 0 { 3 } else { 4 + chance.below(3) as usize };
        let (number, _) = compare_links(&damaged, space);
        answers[number as usize] += 1;
    }
    let [image, no_space, no_objects, twice, missing] = answers;
    println!("link, {DAMAGED_ROWS} damaged rows, same answers and words: {image} images, {no_space} no space, {no_objects} no objects, {twice} twice, {missing} missing");
}

/// How many words an object needs, and how many the work on it.
fn compile_space(unit: &[u32]) -> (usize, usize) {
    (256 + 32 * unit.len(), 4096 + 16 * unit.len())
}

/// The number of a plain compiler's answer in `speed_compile_answer`, and the object's length.
fn compile_number(answer: compiler::Compiled) -> (u32, usize) {
    match answer {
        compiler::Compiled::Object(size) => (0, size),
        compiler::Compiled::Short => (1, 0),
        compiler::Compiled::NoUnit => (2, 0),
    }
}

/// Compiles a row in each way into so many words, with so many words to work with; the answers and all words of the object are the same.
/// The answer's number, and the object's length.
fn compare_objects(row: &[u32], space: usize, work: usize) -> (u32, usize) {
    let (mut object, mut tree_object) = (vec![FILL; space], vec![FILL; space]);
    let answer = compiler::compile(row, &mut object, work);
    assert_eq!(answer, tree_compiler::compile(row, &mut tree_object, work), "another answer on {} words", row.len());
    assert!(object == tree_object, "another object on {} words", row.len());
    let (mut ours, mut again, mut work) = (vec![FILL; space], vec![FILL; space], vec![FILL; work]);
    let size = proved::compile(row, &mut ours, &mut work);
    let number = proved::compile_answer(row, &mut again, &mut work);
    assert_eq!((number, size), compile_number(answer), "another answer on {} words", row.len());
    assert!(ours == object && again == object, "another object on {} words", row.len());
    compile_number(answer)
}

/// Compares the compilers on damaged rows.
fn compare_damaged_objects() {
    let mut chance = Chance::new(4);
    let row = inputs::unit(&mut chance, 3, 4, 40);
    let mut answers = [0; 3];
    for _ in 0..DAMAGED_ROWS {
        let damaged = inputs::damaged(&mut chance, &row);
        let (mut space, mut work) = compile_space(&damaged);
        match chance.below(100) {
            0 => space -= 1,
            1 => work -= 1,
            _ => {}
        }
        let (number, _) = compare_objects(&damaged, space, work);
        answers[number as usize] += 1;
    }
    let [object, short, no_unit] = answers;
    println!("compile, {DAMAGED_ROWS} damaged rows, same answers and words: {object} objects, {short} short, {no_unit} no unit");
}

/// Seconds for each of `times` calls.
fn seconds(times: usize, call: &mut dyn FnMut()) -> f64 {
    let start = Instant::now();
    for _ in 0..times {
        call();
    }
    start.elapsed().as_secs_f64() / times as f64
}

/// The least and the middle one of some times, as nanoseconds for each of so many words.
fn best_and_median(mut times: Vec<f64>, words: usize) -> [f64; 2] {
    times.sort_by(f64::total_cmp);
    [times[0], times[times.len() / 2]].map(|time| time * 1e9 / words as f64)
}

/// Times calls in turn, and prints the time of each for each of so many words, and how the first one's time compares with it.
fn race(words: usize, calls: &mut [(&str, &mut dyn FnMut())]) {
    let mut runs = vec![];
    for (_, call) in calls.iter_mut() {
        let once = (0..5).map(|_| seconds(1, call)).fold(SECONDS_A_ROUND, f64::min);
        runs.push((SECONDS_A_ROUND / once).ceil() as usize);
    }
    let mut times = vec![vec![]; calls.len()];
    for _ in 0..ROUNDS {
        for (i, (_, call)) in calls.iter_mut().enumerate() {
            times[i].push(seconds(runs[i], call));
        }
    }
    let times: Vec<[f64; 2]> = times.into_iter().map(|times| best_and_median(times, words)).collect();
    println!("  {:24}{:>10}{:>10}{:>20}", "", "best", "median", "ratio of the first");
    for (i, (name, _)) in calls.iter().enumerate() {
        let [best, median] = times[i];
        print!("  {name:24}{best:7.2} ns{median:7.2} ns");
        if i > 0 {
            print!("{:10.2}{:10.2}", times[0][0] / best, times[0][1] / median);
        }
        println!();
    }
}

/// Times both linkers on 256 objects with these names.
fn race_links(what: &str, names: &[u32]) {
    let sizes = Sizes { objects: 256, wants: 64, offers: 8, code: 600 };
    let row = inputs::objects(&mut Chance::new(1), &sizes, names);
    let space = 4 + row.len();
    let (number, size) = compare_links(&row, space);
    assert_eq!(number, 0, "the objects link");
    println!("link, 256 objects with 64 wants each, {what}: {} words of rows, same image of {size} words", row.len());
    let (mut ours, mut theirs) = (vec![FILL; space], vec![FILL; space]);
    race(
        row.len(),
        &mut [
            ("proved", &mut || assert!(proved::link(black_box(&row), black_box(&mut ours)) > 0)),
            ("plain", &mut || assert!(linker::link(black_box(&row), black_box(&mut theirs)).is_ok())),
        ],
    );
}

/// Times the compilers on a unit of many procedures.
fn race_compilers() {
    let row = inputs::unit(&mut Chance::new(5), 64, 256, 90);
    let (space, lent) = compile_space(&row);
    let (number, size) = compare_objects(&row, space, lent);
    assert_eq!(number, 0, "the unit compiles");
    println!("compile, a unit of 256 procedures: {} words of rows, same object of {size} words", row.len());
    let (mut object, mut tree_object) = (vec![FILL; space], vec![FILL; space]);
    let mut one_pass = || assert!(is_object(compiler::compile(black_box(&row), black_box(&mut object), lent)));
    let mut tree = || assert!(is_object(tree_compiler::compile(black_box(&row), black_box(&mut tree_object), lent)));
    let (mut ours, mut work) = (vec![FILL; space], vec![FILL; lent]);
    let mut proved = || assert!(proved::compile(black_box(&row), black_box(&mut ours), black_box(&mut work)) > 0);
    race(row.len(), &mut [("proved", &mut proved), ("plain, one pass", &mut one_pass), ("plain, by a tree", &mut tree)]);
}

fn is_object(answer: compiler::Compiled) -> bool {
    matches!(answer, compiler::Compiled::Object(_))
}

fn main() {
    println!("Buffers are allocated and filled once, and not cleared between calls.");
    compare_damaged_links();
    race_links("names at random", &inputs::random_names(&mut Chance::new(2), 256));
    race_links("names 1 to 256", &Vec::from_iter(1..=256));
    race_links("names that differ in their upper half only", &Vec::from_iter((1..=256).map(|n| n << 16)));
    compare_damaged_objects();
    race_compilers();
}
