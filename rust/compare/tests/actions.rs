//! Lists of actions and their expansions (02's A1), generated and seeded: the library and the reference must agree on every one.
//! See `compare::run` for replaying.

use compare::actions::{self, expansion, expansion_of, many, of_file, question, Question};
use compare::asker::Asker;
use compare::case::Case;
use compare::expand;
use compare::pieces::SOUND;
use compare::random::Random;
use compare::run::{came_up, run, run_with_encodings, Outcomes};

const LISTS: u64 = 40_000;
const BROKEN_LISTS: u64 = 40_000;
const COMMANDS: u64 = 40_000;
const BROKEN_COMMANDS: u64 = 60_000;
const HUNDREDS: u64 = 150;
const FULL: u64 = 40;

const _: () = assert!(LISTS + BROKEN_LISTS >= 50_000);
const _: () = assert!(COMMANDS + BROKEN_COMMANDS >= 50_000);

/// Every refusal that a list of actions has, and each cause of a 9.
const ALL_OF_LISTS: Outcomes = &[
    ("actions", &[0, 1, 2, 3, 4, 5, 6, 7, 9, 11]),
    ("actions, none", &[0]),
    ("actions, some", &[0]),
    ("actions, escape of Actions", &[9]),
    ("actions, escape of a label", &[9]),
];

/// Every refusal that an action's expansion has, and each cause of an 8 and of a 9.
const ALL_OF_COMMANDS: Outcomes = &[
    (
        "expand_action",
        &[0, 1, 2, 3, 4, 5, 6, 7, 8, 9, 10, 11, 14, 15, 16],
    ),
    ("expand_action, escape of Actions", &[9]),
    ("expand_action, not listed", &[8]),
    ("expand_action, no Exec", &[8]),
    ("expand_action, escape of Exec", &[9]),
    ("expand_action, no run", &[8]),
    ("expand_action, no Name", &[8]),
    ("expand_action, escape of Name", &[9]),
    ("expand_action, escape of Icon", &[9]),
];

fn listing(question: Question) -> Case {
    Case::Actions(question)
}

fn expanding(question: expand::Question) -> Case {
    Case::Expand(Box::new(question))
}

/// Labels by locale, with encodings in the file.
#[test]
fn lists_of_actions() {
    let outcomes: Outcomes = &[
        ("actions", &[0, 2, 3, 4, 5, 6, 7, 11]),
        ("actions, none", &[0]),
        ("actions, some", &[0]),
    ];
    let choices = [("label", 500)];
    run_with_encodings("lists_of_actions", LISTS, outcomes, &choices, |random| {
        listing(question(random, SOUND))
    });
}

/// One fault now and then, in the list and in the labels.
#[test]
fn broken_lists() {
    run("broken_lists", BROKEN_LISTS, ALL_OF_LISTS, |random| {
        listing(question(random, 14))
    });
}

/// The application's Name and the action's Icon by locale, with encodings in the file.
#[test]
fn commands_of_actions() {
    let outcomes: Outcomes = &[
        ("expand_action", &[0, 2, 3, 4, 5, 6, 7, 8, 10, 11, 14]),
        ("expand_action, not listed", &[8]),
        ("expand_action, no Exec", &[8]),
        ("expand_action, no run", &[8]),
        ("expand_action, no Name", &[8]),
    ];
    let choices = [("Name", 100), ("Icon", 100)];
    let test = "commands_of_actions";
    run_with_encodings(test, COMMANDS, outcomes, &choices, |random| {
        expanding(expansion(random, SOUND))
    });
}

/// One fault now and then, in any of the arguments.
#[test]
fn broken_commands() {
    let test = "broken_commands";
    run(test, BROKEN_COMMANDS, ALL_OF_COMMANDS, |random| {
        expanding(expansion(random, 20))
    });
}

/// A list of so many actions, or the expansion of one of them.
fn of_many(count: usize, random: &mut Random) -> Case {
    let file = many(count, random);
    match random.once_in(3) {
        true => expanding(expansion_of(file, random)),
        false => listing(of_file(file, random)),
    }
}

/// Some hundred actions in one file, of any length up to the bound and over it.
#[test]
fn hundreds_of_actions() {
    let outcomes: Outcomes = &[
        ("actions", &[0, 1, 7, 9, 11]),
        ("actions, 300 or more", &[0]),
        ("actions, escape of Actions", &[9]),
        ("actions, escape of a label", &[9]),
        ("expand_action", &[0, 1, 8, 11]),
    ];
    run("hundreds_of_actions", HUNDREDS, outcomes, |random| {
        of_many(random.within(280, 360), random)
    });
}

/// Nearly as many actions as a file has room for.
#[test]
fn files_full_of_actions() {
    let outcomes: Outcomes = &[
        ("actions", &[0, 1, 11]),
        ("actions, 300 or more", &[0]),
        ("expand_action", &[8]),
    ];
    run("files_full_of_actions", FULL, outcomes, |random| {
        of_many(random.within(500, 750), random)
    });
}

/// Asks for the actions of a file, and for the expansion of one.
fn agrees(file: &[u8], action: &[u8], asker: &mut Asker) {
    let list = Question {
        file: file.to_vec(),
        locale: b"de".to_vec(),
    };
    let mut command = expand::Question::of(file.to_vec());
    command.action = Some(action.to_vec());
    let compared = list.compare(asker).and_then(|()| command.compare(asker));
    if let Err(difference) = compared {
        panic!("{difference}\ninput: {}", file.escape_ascii());
    }
}

/// The groups that the lists here name.
const GROUPS: &str = "[Desktop Action a]\nName=A\nExec=a\n[Desktop Action s]\nName=S\nName[de]=\\;\nExec=s\n\
    [Desktop Action aa]\nName=AA\n[Desktop Action a a]\nName=AsA\nExec=x\n[Desktop Action ]\nName=\nExec=y\n";

/// The bytes that decide what an element is.
const SHORT: [&str; 6] = ["a", "s", ";", "\\", " ", "_"];

/// Every list of up to six of them.
#[test]
fn short_lists() {
    let mut asker = Asker::new(1);
    for length in 0..=6 {
        for number in 0..SHORT.len().pow(length) {
            let piece = |power| SHORT[number / SHORT.len().pow(power) % SHORT.len()];
            let list: String = (0..length).map(piece).collect();
            let file = format!("[Desktop Entry]\nActions={list}\n{GROUPS}");
            let action = ["a", "s", "aa", "a a", ""][number % 5];
            agrees(file.as_bytes(), action.as_bytes(), &mut asker);
        }
    }
    let outcomes: Outcomes = &[
        ("actions", &[0, 9, 11]),
        ("actions, none", &[0]),
        ("actions, some", &[0]),
        ("actions, escape of Actions", &[9]),
        ("actions, escape of a label", &[9]),
        ("expand_action", &[0, 8, 9, 11]),
        ("expand_action, not listed", &[8]),
        ("expand_action, no Exec", &[8]),
        ("expand_action, escape of Actions", &[9]),
    ];
    came_up("short_lists", &asker.tally, outcomes);
}

/// Every byte in an identifier, in the list and asked for: alone, at the start, in the middle and at the end.
#[test]
fn every_byte_of_an_identifier() {
    let mut asker = Asker::new(2);
    for byte in 0..=255_u8 {
        for identifier in [
            vec![byte],
            vec![byte, b'a'],
            vec![b'a', byte, b'a'],
            vec![b'a', byte],
        ] {
            let fixed = format!("[Desktop Entry]\nActions=a;aa\n{GROUPS}");
            agrees(fixed.as_bytes(), &identifier, &mut asker);
            let escaped: Vec<u8> = match byte {
                b';' | b'\\' => {
                    let at = identifier.iter().position(|other| *other == byte);
                    let (front, back) = identifier.split_at(at.unwrap_or(0));
                    [front, b"\\", back].concat()
                }
                _ => identifier.clone(),
            };
            let start = [&b"[Desktop Entry]\nActions=x;"[..], &escaped, b"\n"].concat();
            let group = [
                &b"[Desktop Action "[..],
                &identifier,
                b"]\nName=B\nExec=b\n",
            ]
            .concat();
            agrees(&[&start[..], &group].concat(), &identifier, &mut asker);
            agrees(&start, &identifier, &mut asker);
        }
    }
    let outcomes: Outcomes = &[
        ("actions", &[0, 2, 11]),
        ("actions, none", &[0]),
        ("actions, some", &[0]),
        ("expand_action", &[0, 2, 8, 11]),
    ];
    came_up("every_byte_of_an_identifier", &asker.tally, outcomes);
}

/// Of the generated files many list several actions, many have a group with a Name that is not listed, and many one without.
#[test]
fn files_with_every_sort_of_group() {
    let mut seen = [0; 3];
    for seed in 1..=2_000 {
        let random = &mut Random::new(seed);
        let file = actions::file(random, SOUND);
        let Ok(listed) = reference::listed(&file) else {
            continue;
        };
        let groups = actions::group_identifiers(&file);
        let has_name = |action: &&Vec<u8>| {
            let group = reference::action_group(action);
            reference::lookup(&file, &group, b"Name").is_ok()
        };
        let named = groups.iter().filter(has_name).count();
        seen[0] += usize::from(listed.len() > 1);
        seen[1] += usize::from(named > listed.len());
        seen[2] += usize::from(groups.len() > named);
    }
    assert!(seen.iter().all(|times| *times > 100), "{seen:?}");
}
