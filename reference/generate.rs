//! Makes the sets: always the same ones.

mod make;
mod meaning;
mod sets;
mod units;

use make::budgets::{needs, Budget, Program, BUDGETS, MOST_CALLS, MOST_ROOM};
use make::chance::Chance;
use make::draft::{draft, expr, finish, Draft};
use make::misfits::{misfits, MisfitSet, FIRST, SECOND, THIRD};
use make::statistics::{self, Entry};
use make::write::{rows_of, write_sets};
use make::{nests, random, shapes};
use meaning::{fit_together, Misfit, Outcome};
use sets::{read_sets, Set};
use std::path::Path;
use units::{read_unit, Expr, Procedure, Unit, Want, Word};

/// How many sets there are in all, where no more are asked for.
const COUNT: usize = 200;
/// How many sets are of random programs with one budget each, where more are asked for.
const RANDOM: usize = 200;
/// How many of the random programs put out nothing.
const SILENT: usize = 4;
const SEED: u64 = 0x756e_6974_7365_7473;
const STACK_BYTES: usize = 512 << 20;

/// Budgets under which a program that ends is done.
const ENOUGH: [Budget; 4] = [Budget::Ample, Budget::MostCalls, Budget::Exact, Budget::OneMore];
const CUTS: [Budget; 4] =
    [Budget::CallsCut, Budget::RoomCut, Budget::BothAtOneCall, Budget::RoomAtLastCall];
const TOO_LITTLE: [Budget; 7] = [
    Budget::OneCallLess,
    Budget::OneRoomLess,
    Budget::OneOfBothLess,
    Budget::CallsCut,
    Budget::RoomCut,
    Budget::BothAtOneCall,
    Budget::RoomAtLastCall,
];

/// A set with what it was made from.
struct Made {
    title: String,
    program: Program,
    outcome: Outcome,
    set: Set,
}

/// `generate [--more] FOLDER`
fn main() {
    let (options, folders): (Vec<String>, Vec<String>) =
        std::env::args().skip(1).partition(|argument| argument == "--more");
    let more = !options.is_empty();
    let folder = folders.into_iter().next().unwrap_or_else(|| ".".to_string());
    let on_large_stack =
        std::thread::Builder::new().stack_size(STACK_BYTES).spawn(move || work(&folder, more));
    on_large_stack.expect("a thread").join().expect("no panic");
}

fn work(folder: &str, more: bool) {
    let mut contents = String::new();
    for (name, all) in [("sets.txt", random_sets(more)), ("shapes.txt", shaped_sets())] {
        let sets: Vec<Set> = all.iter().map(|made| made.set.clone()).collect();
        let titles: Vec<&str> = all.iter().map(|made| made.title.as_str()).collect();
        contents.push_str(&listed(name, &titles));
        save_sets(folder, name, &sets);
        let entries: Vec<Entry> = all
            .iter()
            .map(|made| Entry { set: &made.set, program: &made.program, outcome: &made.outcome })
            .collect();
        println!("\n{}", statistics::text(&entries));
    }
    let (sets, titles) = misfit_sets(more);
    let titles: Vec<&str> = titles.iter().map(String::as_str).collect();
    contents.push_str(&listed("misfits.txt", &titles));
    save_sets(folder, "misfits.txt", &sets);
    save(folder, "contents.txt", &contents);
}

fn listed(name: &str, titles: &[&str]) -> String {
    let mut text = format!("{name}\n\n");
    for (place, title) in titles.iter().enumerate() {
        text.push_str(&format!("set {}: {title}\n", place + 1));
    }
    text + "\n"
}

fn save_sets(folder: &str, name: &str, sets: &[Set]) {
    let text = write_sets(sets);
    assert_eq!(read_sets(&text).as_deref(), Ok(sets));
    save(folder, name, &text);
}

fn save(folder: &str, name: &str, text: &str) {
    let path = Path::new(folder).join(name);
    std::fs::write(&path, text).unwrap_or_else(|error| panic!("{}: {error}", path.display()));
    println!("{name}: {} bytes", text.len());
}

/// The worked cases, some others, and random sets: as many as make `COUNT` of all, or `RANDOM` where more are asked for.
fn random_sets(more: bool) -> Vec<Made> {
    let mut all = worked_cases();
    all.extend(ended_at_once());
    for (place, &(title, shape)) in nests::NESTS.iter().chain(&nests::CROWDS).enumerate() {
        all.push(shaped(title, shape, &ENOUGH, place as u64));
    }
    for family in 0..4 {
        all.extend(one_program_six_budgets(family));
    }
    let count = if more { RANDOM } else { COUNT - all.len() };
    for number in 0..count {
        all.push(random_set(number as u64, number >= count - SILENT));
    }
    all
}

/// Programs of known shapes: each once with enough of both, if it ends, and once with less.
fn shaped_sets() -> Vec<Made> {
    let mut all = vec![];
    for (place, &(title, shape)) in shapes::ENDING.iter().enumerate() {
        all.push(shaped(title, shape, &ENOUGH, 100 + place as u64));
    }
    for (place, &(title, shape)) in shapes::ENDING.iter().chain(&nests::NESTS).enumerate() {
        all.push(shaped(title, shape, &TOO_LITTLE, 200 + place as u64));
    }
    for (place, &(title, shape)) in shapes::ENDLESS.iter().enumerate() {
        for (turn, budget) in CUTS.into_iter().enumerate() {
            all.push(shaped(title, shape, &[budget], 300 + (10 * place + turn) as u64));
        }
    }
    all
}

fn chance_of(kind: u64, number: u64, attempt: u64) -> Chance {
    Chance::new(SEED ^ (kind << 56) ^ (number << 32) ^ attempt)
}

fn worked_cases() -> Vec<Made> {
    let case = |title: &str, rows: &[&[Word]], room: Word, calls: Word| {
        let units = rows.iter().map(|rows| read_unit(rows).expect("a unit")).collect();
        let program = Program { units, tape: vec![5, 7] };
        made(title, program, room, calls, &mut chance_of(1, u64::from(room), u64::from(calls)))
    };
    vec![
        case("worked case", &[&FIRST, &SECOND], 12, 3),
        case("worked case, 2 calls", &[&FIRST, &SECOND], 12, 2),
        case("worked case, a room of 11", &[&FIRST, &SECOND], 11, 3),
        case("worked case, a third unit between", &[&FIRST, &THIRD, &SECOND], 12, 3),
    ]
}

/// A few programs that put out nothing and end at once.
fn ended_at_once() -> Vec<Made> {
    let mut chance = chance_of(2, 0, 0);
    let mut at_once = |title: &str, body: &str, room: Word, calls: Word| {
        let draft = draft(&[(1, &[(0, body)]), (2, &[(0, "(out w1)")])], &[3]);
        let units = finish(&draft, &mut chance);
        let program = Program { units, tape: draft.tape };
        made(title, program, room, calls, &mut chance)
    };
    vec![
        at_once("at once: only a number, exact budgets", "4294967295", 5, 1),
        at_once("at once: no calls", "(out (1.0))", 100, 0),
        at_once("at once: no room", "(out (1.0))", 0, 9),
        at_once("at once: neither calls nor room", "(out (1.0))", 0, 0),
        at_once("at once: the first frame less 1", "(out (+ take (1.0)))", 5, 2),
        at_once("at once: the first frame only", "(out (+ (out take) (1.0)))", 6, 2),
    ]
}

/// Checks a program, and makes a set of it.
fn made(title: &str, program: Program, room: Word, calls: Word, chance: &mut Chance) -> Made {
    for unit in &program.units {
        assert_eq!(read_unit(&rows_of(unit)).as_ref(), Ok(unit));
    }
    let units: Vec<&Unit> = program.units.iter().collect();
    fit_together(&units).expect("units that fit together");
    let outcome = program.run(room, calls);
    let set = Set {
        units: program.units.iter().map(rows_of).collect(),
        tape: program.tape.clone(),
        room,
        calls,
        orders: orders(units.len(), chance),
        extra: rows_of(&unrelated_unit(&program.units, chance)),
        place: chance.between(1, units.len()),
    };
    Made { title: title.to_string(), program, outcome, set }
}

/// The given order and two others behind the first unit, different ones where there are enough.
fn orders(count: usize, chance: &mut Chance) -> Vec<Vec<usize>> {
    let given: Vec<usize> = (0..count).collect();
    let mut orders = vec![given.clone()];
    let mut attempts = 0;
    while orders.len() < 3 {
        let mut order = given.clone();
        chance.shuffle(&mut order[1..]);
        attempts += 1;
        if !orders.contains(&order) || attempts > 50 {
            orders.push(order);
        }
    }
    orders
}

/// A unit with words and a name of its own. Nobody calls it; it may want what others offer.
fn unrelated_unit(units: &[Unit], chance: &mut Chance) -> Unit {
    let mut name = chance.word();
    let is_used = |name: Word| {
        units
            .iter()
            .any(|unit| unit.name == name || unit.wants.iter().any(|want| want.unit == name))
    };
    while is_used(name) {
        name = name.wrapping_add(1);
    }
    let words = chance.between(1, 40);
    let mut unit = Unit { name, words, wants: vec![], procedures: vec![], offers: vec![] };
    let body = format!("(keep w{} (+ (out w0) {}))", words - 1, chance.word());
    if chance.percent(70) {
        unit.procedures.push(Procedure { arguments: chance.below(4), body: expr(&body) });
        unit.offers.push(0);
    }
    if chance.percent(30) {
        add_want(&mut unit, units, chance);
    }
    unit
}

/// Adds a want of something that is offered, and a procedure that calls it.
fn add_want(unit: &mut Unit, units: &[Unit], chance: &mut Chance) {
    let wanted = &units[chance.below(units.len())];
    if wanted.offers.is_empty() {
        return;
    }
    let procedure = chance.pick(&wanted.offers);
    let arguments = wanted.procedures[procedure].arguments;
    unit.wants.push(Want { unit: wanted.name, procedure: procedure as Word, arguments });
    let given = (0..arguments).map(|number| Expr::Number(number as Word)).collect();
    unit.procedures.push(Procedure { arguments: 0, body: Expr::Call(0, given) });
}

/// Finishes a draft with what changes nothing, and puts the units behind the first in any order.
fn program_of(mut draft: Draft, chance: &mut Chance) -> Program {
    random::decorate(&mut draft, chance);
    let mut units = finish(&draft, chance);
    chance.shuffle(&mut units[1..]);
    Program { units, tape: draft.tape }
}

fn choose_budget(chance: &mut Chance) -> Budget {
    let weights: Vec<usize> = BUDGETS.iter().map(|&(_, weight)| weight).collect();
    BUDGETS[chance.weighted(&weights)].0
}

/// A program of a known shape, with one of some budgets, under which it puts out something.
fn shaped(title: &str, shape: fn(&mut Chance) -> Draft, budgets: &[Budget], number: u64) -> Made {
    for attempt in 0.. {
        let mut chance = chance_of(3, number, attempt);
        let program = program_of(shape(&mut chance), &mut chance);
        let budget = chance.pick(budgets);
        let Some((room, calls)) = budget.choose(&program, &mut chance) else {
            continue;
        };
        let title = format!("{title}; {}", budget.text());
        let made = made(&title, program, room, calls, &mut chance);
        if (1..=300).contains(&made.outcome.out.len()) || attempt > 100 {
            return made;
        }
    }
    unreachable!("attempts without end")
}

fn random_program(chance: &mut Chance) -> Program {
    let draft = random::random(chance);
    program_of(draft, chance)
}

fn rows_text(program: &Program) -> usize {
    let row_text = |row: &Word| row.to_string().len() + 1;
    program.units.iter().flat_map(rows_of).map(|row| row_text(&row)).sum()
}

/// Whether a program is worth a set: it does something, puts out different words, and is not
/// too long.
fn is_lively(program: &Program) -> bool {
    let outcome = program.run(MOST_ROOM, MOST_CALLS);
    let mut different = outcome.out.clone();
    different.sort_unstable();
    different.dedup();
    outcome.counts.calls >= 4
        && outcome.out.len() <= 200
        && different.len() >= 4
        && different.len() * 5 >= outcome.out.len()
        && outcome.counts.expressions <= 400_000
        && rows_text(program) <= 3_500
}

fn random_set(number: u64, silent: bool) -> Made {
    for attempt in 0.. {
        let mut chance = chance_of(4, number, attempt);
        let program = random_program(&mut chance);
        if !is_lively(&program) {
            continue;
        }
        let budget = choose_budget(&mut chance);
        let Some((room, calls)) = budget.choose(&program, &mut chance) else {
            continue;
        };
        let title = format!("random; {}", budget.text());
        let made = made(&title, program, room, calls, &mut chance);
        if made.outcome.out.is_empty() == silent {
            return made;
        }
    }
    unreachable!("attempts without end")
}

/// A random program that ends, with six budgets.
fn one_program_six_budgets(family: u64) -> Vec<Made> {
    let budgets = [
        Budget::Exact,
        Budget::OneMore,
        Budget::OneCallLess,
        Budget::OneRoomLess,
        Budget::BothAtOneCall,
        Budget::RoomAtLastCall,
    ];
    for attempt in 0.. {
        let mut chance = chance_of(5, family, attempt);
        let program = random_program(&mut chance);
        let short = rows_text(&program) <= 1_200 && program.units.len() >= 2;
        if !short || !is_lively(&program) || needs(&program).is_none() {
            continue;
        }
        let mut family_sets = vec![];
        for budget in budgets {
            if let Some((room, calls)) = budget.choose(&program, &mut chance) {
                let title = format!("program {} of six budgets; {}", family + 1, budget.text());
                family_sets.push(made(&title, program.clone(), room, calls, &mut chance));
            }
        }
        if family_sets.len() == budgets.len()
            && family_sets.iter().all(|made| !made.outcome.out.is_empty())
        {
            return family_sets;
        }
    }
    unreachable!("attempts without end")
}

/// The sets that do not fit together, and what is expected of each.
fn misfit_sets(more: bool) -> (Vec<Set>, Vec<String>) {
    let mut chance = chance_of(6, 0, 0);
    let mut sets = vec![];
    let mut titles = vec![];
    for misfit in misfits(more) {
        assert_eq!(refusal(&misfit), misfit.expected, "{}", misfit.title);
        let count = misfit.units.len();
        let words = chance.between(1, 9) as Word;
        sets.push(Set {
            units: misfit.units,
            tape: vec![5, 7],
            room: 1000,
            calls: 100,
            orders: orders(count, &mut chance),
            extra: vec![99, words, 0, 1, 1, 0, 0, 5, 0],
            place: chance.between(1, count),
        });
        titles.push(format!("{}; {}", misfit.title, misfit.expected));
    }
    (sets, titles)
}

fn refusal(misfit: &MisfitSet) -> &'static str {
    let units: Result<Vec<Unit>, String> =
        misfit.units.iter().map(|rows| read_unit(rows)).collect();
    let Ok(units) = units else {
        return "no unit";
    };
    let units: Vec<&Unit> = units.iter().collect();
    match fit_together(&units) {
        Err(Misfit::Twice) => "twice",
        Err(Misfit::Missing) => "missing",
        Ok(()) => "none",
    }
}
