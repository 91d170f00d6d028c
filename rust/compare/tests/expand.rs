//! Generated expansions, seeded: the library and the reference must agree on every one. See `compare::run` for replaying.

use compare::asker::Asker;
use compare::case::Case;
use compare::expand::{large_question, of_names, question, Question};
use compare::pieces::SOUND;
use compare::run::{came_up, run, run_with_encodings, Outcomes};

const COMMANDS: u64 = 70_000;
const BROKEN: u64 = 110_000;
const VERY_BROKEN: u64 = 30_000;
const NAMES_AND_ICONS: u64 = 40_000;
const LARGE: u64 = 1_500;

const _: () = assert!(COMMANDS + BROKEN + VERY_BROKEN >= 200_000);

#[test]
fn commands() {
    let outcomes: Outcomes = &[("expand", &[0, 2, 3, 5, 6, 7, 8, 10, 11, 14])];
    run("commands", COMMANDS, outcomes, |random| {
        Case::Expand(Box::new(question(random, SOUND)))
    });
}

/// One fault now and then, in any of the arguments.
#[test]
fn broken_commands() {
    let outcomes: Outcomes = &[("expand", &[0, 2, 3, 4, 5, 6, 7, 8, 9, 10, 11, 14, 15, 16])];
    run("broken_commands", BROKEN, outcomes, |random| {
        Case::Expand(Box::new(question(random, 14)))
    });
}

/// Several faults in most commands: the lowest place is told.
#[test]
fn very_broken_commands() {
    let outcomes: Outcomes = &[("expand", &[0, 7, 8, 9, 10, 11, 14, 15, 16])];
    run("very_broken_commands", VERY_BROKEN, outcomes, |random| {
        Case::Expand(Box::new(question(random, 3)))
    });
}

/// Name and Icon by locale, with encodings in the file.
#[test]
fn names_and_icons() {
    let outcomes: Outcomes = &[("expand", &[0, 7, 8, 10, 11, 14])];
    let choices = [("Name", 500), ("Icon", 500)];
    run_with_encodings(
        "names_and_icons",
        NAMES_AND_ICONS,
        outcomes,
        &choices,
        |random| Case::Expand(Box::new(of_names(random))),
    );
}

#[test]
fn large_expansions() {
    let outcomes: Outcomes = &[("expand", &[0, 1, 7, 8, 9, 10, 11, 14])];
    run("large_expansions", LARGE, outcomes, |random| {
        Case::Expand(Box::new(large_question(random)))
    });
}

/// Every command of up to five of the bytes that decide most, alone and after a program.
#[test]
fn short_commands() {
    let mut asker = Asker::new(1);
    for length in 0..=5 {
        for number in 0..SHORT.len().pow(length) {
            let exec = short(number, length);
            for start in ["", "a "] {
                let file = format!("[Desktop Entry]\nName=n\nIcon=i\nExec={start}{exec}");
                let question = Question::of(file.into_bytes());
                if let Err(difference) = question.compare(&mut asker) {
                    panic!("{start}{exec}: {difference}");
                }
            }
        }
    }
    let outcomes: Outcomes = &[("expand", &[0, 11, 15, 16])];
    came_up("short_commands", &asker.tally, outcomes);
}

/// A backslash is written as an escape, so that it is one byte of the command.
const SHORT: [&str; 8] = ["a", " ", "\"", "\\\\", "%", "f", "F", "="];

fn short(number: usize, length: u32) -> String {
    let piece = |power| SHORT[number / SHORT.len().pow(power) % SHORT.len()];
    (0..length).map(piece).collect()
}
