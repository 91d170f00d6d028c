//! The person of a record, asked in generated journals, seeded: the library, its bindings and the reference must agree. And
//! what 02's A9 says of persons and kinds of records over a list of calls, tried on the library. See `compare::run` for replaying.

use compare::asker::Asker;
use compare::case::Case;
use compare::edits::{with_buffers, Kind};
use compare::persons::{proved, Question};
use compare::random::Random;
use compare::run::{came_up, each, run, Outcomes};
use compare::{files, journals, lists};
use kveldrim::{Edits, Person};
use reference::{RecordKind, State};

const WORKED: u64 = 40_000;
const FOREIGN: u64 = 40_000;
const DAMAGED: u64 = 60_000;
const LISTS: u64 = 30_000;
const ONE_KIND: u64 = 4_000;

const _: () = assert!(WORKED + FOREIGN + DAMAGED >= 50_000);

/// What questions with wrong lengths or damaged journals give, beside answers.
const ALL: Outcomes = &[("person", &[0, 12, 14]), ("person by wrong lengths", &[14])];

#[test]
fn journals_that_calls_left() {
    let outcomes: Outcomes = &[("person", &[0, 12])];
    let test = "journals_that_calls_left";
    let cases = lists::cases(lists::worked_journal, lists::person_in);
    run(test, WORKED, outcomes, cases);
}

#[test]
fn foreign_journals() {
    let outcomes: Outcomes = &[("person", &[0, 12]), ("person by wrong lengths", &[14])];
    let test = "foreign_journals";
    let cases = lists::cases(lists::foreign_journal, lists::person_in);
    run(test, FOREIGN, outcomes, cases);
}

#[test]
fn damaged_journals_and_wrong_numbers() {
    let test = "damaged_journals_and_wrong_numbers";
    let cases = lists::cases(lists::damaged_journal, lists::person_in);
    run(test, DAMAGED, ALL, cases);
}

#[test]
fn records_of_every_kind_and_length() {
    let mut asker = Asker::new(5);
    for (journal, used) in lists::single_records() {
        for n in [0, 1] {
            let question = Question {
                journal: journal.clone(),
                used,
                standing: 0,
                n,
            };
            if let Err(difference) = asker.person(&question, &proved) {
                panic!("{difference}\ninput: {}", Case::Person(question).words());
            }
        }
    }
    let outcomes: Outcomes = &[("person", &[0, 12, 14])];
    came_up("records_of_every_kind_and_length", &asker.tally, outcomes);
}

/// With a record left out, a question is still about the same one, or about the one after: so a failure can be made small.
#[test]
fn questions_with_a_record_less() {
    let record = |person| journals::record(RecordKind::Four(person), 18, b"a", b"bc");
    let records = [1, 2, 3].map(record).concat();
    for standing in journals::records(&records) {
        let question = Question {
            journal: [&records[..], b"behind"].concat(),
            used: records.len() as u64,
            standing: standing as u64,
            n: 1,
        };
        for (left_out, told) in [(0, 2), (1, 3), (2, 2)] {
            let Question {
                journal,
                used,
                standing,
                n,
            } = question.without(left_out).unwrap();
            assert_eq!(reference::person(&journal, used, standing, n), Ok(told));
            assert_eq!(journal[used as usize..], *b"behind");
        }
        assert!(question.without(3).is_none());
    }
}

/// How often each came up.
#[derive(Debug, Default)]
struct Counts {
    told: u64,
    waiting: u64,
    /// In journals with records of both kinds.
    mixed: u64,
    after_undo_or_redo: u64,
    after_forgetting: u64,
    /// Records that batches made.
    by_batches: u64,
}

/// The person told of a record is the one that was given to the call that made it; no undo or redo changes one. Where edits are
/// forgotten, the others keep theirs.
#[test]
fn the_person_told_is_the_one_given() {
    let mut counts = Counts::default();
    let are_all = each("the_person_told_is_the_one_given", LISTS, |seed| {
        let random = &mut Random::new(seed);
        let file = files::sound(random, 3, 4);
        let list = lists::started_by_any(&file, 14, random);
        assert!(!list.calls.is_empty());
        let mut left = list.left();
        let count = |bytes: u64| Edits::new(&left.journal[..bytes as usize]).count();
        let (mut old_records, mut standing) = (count(left.used), count(left.standing));
        let mut given = vec![Person::NOBODY; old_records];
        with_buffers(&mut left, |buffers| {
            for call in &list.calls {
                let (told, done) = call.counted_on_buffers(buffers);
                let accepted = told.is_ok();
                let done = match call.kind {
                    Kind::Set | Kind::Remove => u64::from(accepted),
                    _ => done.unwrap_or(0),
                };
                if done > 0 {
                    given.truncate(standing);
                    old_records = old_records.min(standing);
                    given.extend(vec![Person(call.record.person()); done as usize]);
                    standing += done as usize;
                }
                match call.kind {
                    Kind::Set | Kind::Remove | Kind::Batch => {}
                    _ if !accepted => {}
                    Kind::Undo => standing -= 1,
                    Kind::Redo => standing += 1,
                    Kind::Forget(k) => {
                        given.drain(..k as usize);
                        old_records = old_records.saturating_sub(k as usize);
                        standing -= k as usize;
                    }
                }
                for (n, person) in given.iter().enumerate() {
                    assert_eq!(buffers.person(n as u64), Ok(*person));
                }
                let behind = buffers.person(given.len() as u64).unwrap_err();
                assert_eq!((behind.kind, behind.place), (kveldrim::Kind::Nothing, 0));
                let used = &buffers.journal[..buffers.numbers.used as usize];
                assert_eq!(Edits::new(used).count(), given.len());
                let told = given.len() as u64;
                counts.told += told;
                counts.waiting += told - standing as u64;
                let is_mixed = 0 < old_records && old_records < given.len();
                counts.mixed += told * u64::from(is_mixed);
                match call.kind {
                    Kind::Batch => counts.by_batches += done,
                    Kind::Undo | Kind::Redo if accepted => counts.after_undo_or_redo += told,
                    Kind::Forget(1..) if accepted => counts.after_forgetting += told,
                    _ => {}
                }
            }
        });
    });
    println!("{counts:?}");
    if are_all {
        let Counts {
            told,
            waiting,
            mixed,
            after_undo_or_redo,
            after_forgetting,
            by_batches,
        } = counts;
        assert!(
            told > 100_000 && waiting > 10_000 && mixed > 10_000 && after_undo_or_redo > 10_000
        );
        assert!(after_forgetting > 1_000 && by_batches > 1_000);
    }
}

/// How many records fill a state's used journal bytes; all are of this kind.
fn records_of_kind(kind: u16, state: &State) -> usize {
    let used = &state.journal[..state.used as usize];
    let starts = journals::records(used);
    let (end, starts) = starts.split_last().unwrap();
    assert_eq!(*end, used.len());
    for start in starts {
        assert_eq!(used[start + 4..start + 6], kind.to_le_bytes());
    }
    starts.len()
}

/// From an empty journal, calls by persons leave records of the kind 4 alone, and 01's calls records of the kind 1. The library has
/// no set and remove of 01's: the reference makes these, and the library the steps between them.
#[test]
fn calls_of_one_kind_leave_records_of_one_kind() {
    let (mut by_persons, mut old, mut old_steps) = (0, 0, 0);
    let test = "calls_of_one_kind_leave_records_of_one_kind";
    let are_all = each(test, ONE_KIND, |seed| {
        let random = &mut Random::new(seed);
        let file = files::sound(random, 3, 4);
        let list = lists::started(&file, 14, random);
        let mut state = list.start.clone();
        let mut old_state = list.start;
        for call in list.calls {
            let on_library =
                |state: &mut State| with_buffers(state, |buffers| call.on_buffers(buffers)).is_ok();
            on_library(&mut state);
            by_persons += records_of_kind(4, &state);
            match call.kind {
                Kind::Set | Kind::Remove => {
                    let _ = call.old().on_state(&mut old_state);
                }
                // 01 has none.
                Kind::Batch => {}
                _ => old_steps += u64::from(on_library(&mut old_state)),
            }
            old += records_of_kind(1, &old_state);
        }
    });
    println!("seen {by_persons} records of the kind 4, {old} of the kind 1; {old_steps} steps over the latter");
    if are_all {
        assert!(by_persons > 10_000 && old > 10_000 && old_steps > 1_000);
    }
}
