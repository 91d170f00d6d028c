//! Runs the cases of a test: each from a seed of its own, told on a failure together with a small input.
//!
//! KVELDRIM_SEED=n runs other cases, KVELDRIM_REPLAY=n only the case of that seed, KVELDRIM_TRACE=1 tells each seed before
//! its case runs (for a crash that kills the process).

use std::env;

use crate::asker::{Asker, Tally};
use crate::case::Case;
use crate::random::{mix, Random};

/// Calls, each with numbers that it gives, 0 for an answer.
pub type Outcomes<'a> = &'a [(&'static str, &'a [u32])];

/// Compares `cases` cases that `make` makes, and panics at the first difference. Each of the outcomes must come up. Answers
/// who asked and has counted, if all were asked.
pub fn run(
    test: &str,
    cases: u64,
    outcomes: Outcomes,
    make: impl Fn(&mut Random) -> Case,
) -> Option<Asker> {
    let mut asker = Asker::new(0);
    let are_all = each(test, cases, |seed| {
        let case = make(&mut Random::new(seed));
        asker.start(seed);
        if let Err(difference) = case.compare(&mut asker) {
            let seed_words = format!("{test}, seed {seed}");
            panic!("{seed_words}: {}", smallest(seed, case, difference));
        }
    });
    if are_all {
        println!("{test}: {cases} inputs, {}", words(&asker.tally));
        came_up(test, &asker.tally, outcomes);
    }
    are_all.then_some(asker)
}

/// As [`run`], and so many choices of each kind must have to do with encodings in the file.
pub fn run_with_encodings(
    test: &str,
    cases: u64,
    outcomes: Outcomes,
    choices: &[(&str, u64)],
    make: impl Fn(&mut Random) -> Case,
) {
    if let Some(asker) = run(test, cases, outcomes, make) {
        have_encodings(test, &asker, choices);
    }
}

/// Asks that so many choices of each kind, at least one kind, had to do with encodings in the file.
pub fn have_encodings(test: &str, asker: &Asker, choices: &[(&str, u64)]) {
    assert!(!choices.is_empty(), "{test}: no choice is named");
    for (of, least) in choices {
        let counts = asker.encodings.get(of).copied().unwrap_or_default();
        println!("{test}: {of}, {counts:?}");
        assert!(counts.least() >= *least, "{test}: {of}, {counts:?}");
    }
}

/// Runs so many cases, each from a seed of its own, or the one alone that the environment names. Answers whether they were all.
pub fn each(test: &str, cases: u64, mut case: impl FnMut(u64)) -> bool {
    let mut one = |seed| {
        let _told_on_panic = Seed(test, seed);
        if env::var_os("KVELDRIM_TRACE").is_some() {
            eprintln!("{test}: seed {seed}");
        }
        case(seed);
    };
    if let Some(seed) = number("KVELDRIM_REPLAY") {
        one(seed);
        return false;
    }
    let base = number("KVELDRIM_SEED").unwrap_or(1);
    let family = test.bytes().fold(base, |sum, byte| mix(sum, byte.into()));
    (0..cases).for_each(|case| one(mix(family, case)));
    true
}

/// Asks that each of these outcomes, at least one, came up: so no test can grow empty unseen.
pub fn came_up(test: &str, tally: &Tally, outcomes: Outcomes) {
    assert!(!outcomes.is_empty(), "{test}: no outcome is named");
    for (call, numbers) in outcomes {
        for number in *numbers {
            let found = tally.contains_key(&(*call, *number));
            assert!(found, "{test}: {call} never gave {number}");
        }
    }
}

/// How many calls were made.
pub fn calls(tally: &Tally) -> u64 {
    tally.values().sum()
}

/// A number from the environment.
fn number(name: &str) -> Option<u64> {
    let value = env::var(name).ok()?;
    Some(value.parse().expect("a decimal number"))
}

fn words(tally: &Tally) -> String {
    let mut words = format!("{} calls", calls(tally));
    let mut last = "";
    for ((call, number), times) in tally {
        if *call != last {
            words += &format!("; {call}");
            last = call;
        }
        words += &format!(" {number}:{times}");
    }
    words
}

/// Tells the seed if the case panics, wherever that happens.
struct Seed<'a>(&'a str, u64);

impl Drop for Seed<'_> {
    fn drop(&mut self) {
        if std::thread::panicking() {
            let Seed(test, seed) = self;
            eprintln!("replay: KVELDRIM_REPLAY={seed} cargo --config debian.toml test --offline -p kveldrim-compare {test}");
        }
    }
}

/// A difference, with an input as small as can be found quickly.
pub fn smallest(seed: u64, case: Case, mut difference: String) -> String {
    let small = shrink(case, |case| match case.compare(&mut Asker::new(seed)) {
        Ok(()) => false,
        Err(other) => {
            difference = other;
            true
        }
    });
    format!("{difference}\ninput: {}", small.words())
}

/// Leaves out calls that edit or records, then parts of the input, large ones first, as long as the case still fails.
fn shrink(mut case: Case, mut fails: impl FnMut(&Case) -> bool) -> Case {
    let mut number = 0;
    while let Some(fewer) = case.without(number) {
        if fails(&fewer) {
            case = fewer;
        } else {
            number += 1;
        }
    }
    let mut tries = 3_000;
    let mut size = case.bytes().len();
    while size > 0 {
        let mut at = 0;
        while at + size <= case.bytes().len() && tries > 0 {
            tries -= 1;
            let bytes = case.bytes();
            let smaller = case.about([&bytes[..at], &bytes[at + size..]].concat());
            if fails(&smaller) {
                case = smaller;
            } else {
                at += if size > 9 { size } else { 1 };
            }
        }
        size = if size > 9 { size / 2 } else { size - 1 };
    }
    case
}
