//! Real .desktop files, whole and spoilt: those of the folder KVELDRIM_DESKTOP, else of rust/target/real-files (the script
//! `real-files` puts them there), else of /usr/share/applications.

use std::path::{Path, PathBuf};
use std::{env, fs};

use compare::asker::Asker;
use compare::case::Case;
use compare::random::Random;
use compare::run::{came_up, have_encodings, run, Outcomes};
use compare::{actions, expand, files, lists};
use reference::lines::{read_line, split_lines, Line};

/// Fewer files are not worth a test, nor fewer with actions.
const LEAST: usize = 30;
const LEAST_WITH_ACTIONS: usize = 5;

fn folder() -> PathBuf {
    let fetched = Path::new(env!("CARGO_MANIFEST_DIR")).join("../target/real-files");
    match env::var_os("KVELDRIM_DESKTOP") {
        Some(folder) => folder.into(),
        None if fetched.is_dir() => fetched,
        None => "/usr/share/applications".into(),
    }
}

/// The files of the folder: enough of them, and most of them well formed.
fn real_files() -> Vec<Vec<u8>> {
    let folder = folder();
    let entries = fs::read_dir(&folder).into_iter().flatten().flatten();
    let mut paths: Vec<_> = entries
        .map(|entry| entry.path())
        .filter(|path| path.extension().is_some_and(|end| end == "desktop") && path.is_file())
        .collect();
    paths.sort();
    assert!(
        paths.len() >= LEAST,
        "{} has {} .desktop files, and {LEAST} are needed: rust/compare/real-files fetches real ones",
        folder.display(),
        paths.len()
    );
    let real: Vec<_> = paths.iter().map(|path| fs::read(path).unwrap()).collect();
    most("are well formed", &real, |file| {
        kveldrim::check(file).is_ok()
    });
    real
}

/// Asks that more than half of the files are so.
fn most(what: &str, real: &[Vec<u8>], is_so: impl Fn(&[u8]) -> bool) {
    let (count, all) = (real.iter().filter(|file| is_so(file)).count(), real.len());
    assert!(2 * count > all, "only {count} of {all} real files {what}");
}

/// Compares cases made of real files, so many for each; in one of three, postfixes have other encodings, and one in `spoilt` has
/// something wrong. The outcomes must come up. Answers as [`run`] does.
fn of_files(
    real: &[Vec<u8>],
    test: &str,
    each: u64,
    spoilt: usize,
    outcomes: Outcomes,
    make: impl Fn(Vec<u8>, &mut Random) -> Case,
) -> Option<Asker> {
    run(test, real.len() as u64 * each, outcomes, |random| {
        let mut file = real[random.below(real.len())].clone();
        if random.once_in(3) {
            file = files::recoded(&file, random);
        }
        if random.once_in(spoilt) {
            files::spoil(&mut file, random);
        }
        make(file, random)
    })
}

#[test]
fn real_files_whole_and_spoilt() {
    let outcomes: Outcomes = &[
        ("check", &[0, 2]),
        ("complete", &[0, 2]),
        ("lookup", &[0, 2, 7, 8]),
        ("choose", &[0, 2, 7, 8]),
    ];
    let test = "real_files_whole_and_spoilt";
    let asker = of_files(&real_files(), test, 10, 2, outcomes, |file, random| {
        Case::File(files::asked(file, 4, random))
    });
    if let Some(asker) = asker {
        have_encodings(test, &asker, &[("choose", 1)]);
    }
}

#[test]
fn real_files_edited() {
    let outcomes: Outcomes = &[
        ("set", &[0, 7, 8, 10, 11, 13]),
        ("remove", &[0, 8, 17]),
        ("undo", &[0, 12]),
        ("redo", &[0, 12]),
        ("forget some that stand", &[0]),
        ("forget all that stand", &[0]),
        ("forget more than there are", &[12]),
        ("batch, all done", &[0]),
        ("batch, stopped at once", &[7, 8, 10, 11]),
        ("batch, stopped later", &[7, 8, 10, 11]),
    ];
    let test = "real_files_edited";
    of_files(&real_files(), test, 20, 8, outcomes, |file, random| {
        Case::Edits(lists::started_by_any(&file, 14, random))
    });
}

#[test]
fn real_values() {
    let real = real_files();
    let mut values = Vec::new();
    for file in &real {
        for (start, end) in split_lines(file) {
            let line = &file[start..end];
            if let Line::Entry { value, .. } = read_line(line) {
                values.push(line[value.0..value.1].to_vec());
            }
        }
    }
    let found = values.len();
    assert!(found > 5 * real.len(), "only {found} values");
    let outcomes: Outcomes = &[
        ("read_text", &[0, 11]),
        ("write_text", &[0, 11]),
        ("read_list", &[0, 11]),
    ];
    run("real_values", found as u64, outcomes, |random| {
        Case::Text(values[random.below(found)].clone())
    });
}

#[test]
fn real_commands() {
    let real = real_files();
    most("have a command that expands", &real, |file| {
        kveldrim::expand_args(file, b"", b"", &["a"], 0).is_ok()
    });
    let outcomes: Outcomes = &[("expand", &[0, 2, 7, 8, 10, 11, 14])];
    of_files(&real, "real_commands", 100, 4, outcomes, |file, random| {
        Case::Expand(Box::new(expand::of_file(file, random)))
    });
}

/// The real files that have a list of actions: enough of them, and most list some.
fn with_actions() -> Vec<Vec<u8>> {
    let mut real = real_files();
    real.retain(|file| file.split(|byte| *byte == b'\n').any(is_list_of_actions));
    assert!(
        real.len() >= LEAST_WITH_ACTIONS,
        "{} of the real files have Actions, and {LEAST_WITH_ACTIONS} are needed: rust/compare/real-files fetches such ones",
        real.len()
    );
    most("that have Actions list some", &real, |file| {
        kveldrim::actions_vec(file, b"").is_ok_and(|listed| !listed.is_empty())
    });
    real
}

/// Whether a line is that of the key Actions.
fn is_list_of_actions(line: &[u8]) -> bool {
    let behind = line.strip_prefix(b"Actions").unwrap_or_default();
    behind.trim_ascii_start().starts_with(b"=")
}

#[test]
fn real_actions() {
    let real = with_actions();
    let outcomes: Outcomes = &[
        ("actions", &[0, 2, 7, 11]),
        ("actions, some", &[0]),
        ("expand_action", &[0, 2, 7, 8, 10, 11, 14]),
        ("expand_action, not listed", &[8]),
    ];
    of_files(
        &real,
        "real_actions",
        1_000,
        4,
        outcomes,
        |file, random| match random.once_in(2) {
            true => Case::Actions(actions::of_file(file, random)),
            false => Case::Expand(Box::new(actions::expansion_of(file, random))),
        },
    );
}

/// Every locale that stands in the file, with and without its encoding, and every group of an action.
#[test]
fn real_actions_in_every_language() {
    let mut asker = Asker::new(1);
    let agrees = |told: Result<(), String>, file: &[u8]| {
        if let Err(difference) = told {
            panic!("{difference}\ninput: {}", file.escape_ascii());
        }
    };
    for file in with_actions() {
        let entries = files::entries(&file).into_iter();
        let postfixes = entries.filter_map(|entry| entry.postfix);
        let mut locales: Vec<Vec<u8>> = postfixes
            .flat_map(|postfix| [reference::strip_encoding(&postfix), postfix])
            .chain([Vec::new()])
            .collect();
        locales.sort();
        locales.dedup();
        for locale in locales {
            let list = actions::Question {
                file: file.clone(),
                locale: locale.clone(),
            };
            agrees(list.compare(&mut asker), &file);
            for action in actions::group_identifiers(&file) {
                let mut command = expand::Question::of(file.clone());
                command.action = Some(action);
                command.locale = locale.clone();
                agrees(command.compare(&mut asker), &file);
            }
        }
    }
    let outcomes: Outcomes = &[
        ("actions", &[0, 11]),
        ("actions, some", &[0]),
        ("expand_action", &[0, 11]),
    ];
    came_up("real_actions_in_every_language", &asker.tally, outcomes);
    println!("real_actions_in_every_language: {:?}", asker.tally);
}
