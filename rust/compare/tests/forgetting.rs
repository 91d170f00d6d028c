//! Edits forgotten by single calls in generated journals, seeded: the library, its bindings and the reference must agree. And what
//! 02's A10 says of forgetting beside the other calls, tried on the library. See `compare::run` for replaying.

use compare::asker::Asker;
use compare::case::Case;
use compare::edits::{with_buffers, Call, Kind, List};
use compare::random::Random;
use compare::run::{came_up, each, run, Outcomes};
use compare::{files, journals, lists};
use kveldrim::{Document, Person, Refusal, JOURNAL_BOUND};
use reference::{RecordKind, State};

const WORKED: u64 = 40_000;
const FOREIGN: u64 = 40_000;
const DAMAGED: u64 = 60_000;
const TWICE: u64 = 30_000;
const LISTS: u64 = 10_000;

const _: () = assert!(WORKED + FOREIGN + DAMAGED >= 50_000);

/// What sound journals give.
const SOUND: Outcomes = &[
    ("forget none", &[0]),
    ("forget some that stand", &[0]),
    ("forget all that stand", &[0]),
    ("forget some that wait", &[12]),
    ("forget more than there are", &[12]),
];

/// What damaged journals and wrong numbers give.
const WRONG: Outcomes = &[
    ("forget, used over the room", &[14]),
    ("forget, standing over used", &[14]),
    ("forget, damaged records", &[14]),
    ("forget, standing inside a record", &[14]),
];

#[test]
fn journals_that_calls_left() {
    let test = "journals_that_calls_left";
    let cases = lists::cases(lists::worked_journal, lists::forget_in);
    run(test, WORKED, SOUND, cases);
}

#[test]
fn foreign_journals() {
    let bound: Outcomes = &[("forget, used over the bound", &[14])];
    let outcomes = [SOUND, bound].concat();
    let cases = lists::cases(lists::foreign_journal, lists::forget_in);
    run("foreign_journals", FOREIGN, &outcomes, cases);
}

#[test]
fn damaged_journals_and_wrong_numbers() {
    let test = "damaged_journals_and_wrong_numbers";
    let cases = lists::cases(lists::damaged_journal, lists::forget_in);
    run(test, DAMAGED, &[SOUND, WRONG].concat(), cases);
}

/// Both numbers from 0 to more than the records have, with room for less than these, for just these and for more.
#[test]
fn numbers_of_every_size() {
    let records = [RecordKind::One, RecordKind::Four(7), RecordKind::One]
        .map(|kind| journals::record(kind, 18, b"a", b"bc"));
    let records = records.concat();
    let more = records.len() + 3;
    let mut asker = Asker::new(8);
    for room in [records.len() - 1, records.len(), more] {
        for used in 0..=more as u64 {
            for standing in 0..=more as u64 {
                for k in [0, 1, 2, 3, 4, u64::MAX] {
                    let mut start = journals::buffers(lists::SINGLE, 0, room, &mut Random::new(8));
                    let length = room.min(records.len());
                    start.journal[..length].copy_from_slice(&records[..length]);
                    (start.used, start.standing) = (used, standing);
                    let case = Case::Edits(List {
                        start,
                        old_calls: Vec::new(),
                        calls: vec![Call::step(Kind::Forget(k))],
                    });
                    if let Err(difference) = case.compare(&mut asker) {
                        panic!("{difference}\ninput: {}", case.words());
                    }
                }
            }
        }
    }
    let outcomes = [SOUND, WRONG].concat();
    came_up("numbers_of_every_size", &asker.tally, &outcomes);
}

/// A call and then records can be left out of a list: so a failure can be made small.
#[test]
fn lists_with_a_call_or_a_record_less() {
    let [first, second] =
        [1, 2].map(|person| journals::record(RecordKind::Four(person), 18, b"a", b"bc"));
    let mut start = journals::buffers(lists::SINGLE, 0, 0, &mut Random::new(9));
    start.journal = [&first[..], &second, b"behind"].concat();
    (start.used, start.standing) = (46, 23);
    let list = List {
        start,
        old_calls: Vec::new(),
        calls: vec![Call::step(Kind::Forget(1))],
    };
    assert!(list.without(0).unwrap().calls.is_empty());
    for (number, kept, standing) in [(1, second, 0), (2, first, 23)] {
        let State {
            journal,
            used,
            standing: stands,
            ..
        } = list.without(number).unwrap().start;
        assert_eq!((used, stands), (23, standing));
        assert_eq!(journal, [&kept[..], b"behind"].concat());
    }
    assert!(list.without(3).is_none());
}

/// A call of the library on a copy of a state: what it told, and what it left.
fn made(state: &State, call: &Call) -> (Result<(), Refusal>, State) {
    let mut left = state.clone();
    let told = with_buffers(&mut left, |buffers| call.on_buffers(buffers));
    let may_change = told.is_ok() || call.kind == Kind::Batch;
    assert!(may_change || left == *state, "{}", call.name());
    (told, left)
}

fn step(state: &State, kind: Kind) -> (Result<(), Refusal>, State) {
    made(state, &Call::step(kind))
}

/// To forget some edits and then some more is to forget all of them at once, whatever is refused.
#[test]
fn twice_is_once() {
    let (mut same, mut too_many, mut refused) = (0, 0, 0);
    let are_all = each("twice_is_once", TWICE, |seed| {
        let random = &mut Random::new(seed);
        let state = match seed % 4 {
            0 => lists::damaged_journal(random),
            1 => lists::foreign_journal(random),
            _ => lists::worked_journal(random),
        };
        let most = journals::count(&state.journal, state.standing) + 2;
        let first = random.number() % most;
        let more = random.number() % (most - first);
        let (told, left) = step(&state, Kind::Forget(first));
        let (told_at_once, left_at_once) = step(&state, Kind::Forget(first + more));
        if told.is_err() {
            assert_eq!(told, told_at_once);
            refused += 1;
            return;
        }
        let (told, left) = step(&left, Kind::Forget(more));
        assert_eq!(told, told_at_once);
        if told.is_ok() {
            assert_eq!(left, left_at_once);
            same += u64::from(first > 0 && more > 0);
        } else {
            too_many += 1;
        }
    });
    println!("{same} the same with some in both steps, {too_many} refused in the second, {refused} in the first");
    if are_all {
        assert!(same > 1_000 && too_many > 1_000 && refused > 1_000);
    }
}

/// How often each came up.
#[derive(Debug, Default)]
struct Counts {
    undone: u64,
    /// An undo that finds nothing where all that stood was forgotten.
    at_the_start: u64,
    redone: u64,
    steps_refused: u64,
    persons: u64,
    edits: u64,
    /// Edits that were refused with 13 before and are accepted now.
    made_room: u64,
    still_full: u64,
    otherwise_refused: u64,
}

impl Counts {
    /// The laws of undo, redo and persons, after so many edits were forgotten.
    fn steps(&mut self, state: &State, k: u64, forgot: &State) {
        let stand = journals::count(&state.journal, state.standing);
        for kind in [Kind::Undo, Kind::Redo] {
            let (told, left) = step(state, kind);
            let (told_after, left_after) = step(forgot, kind);
            if kind == Kind::Undo && k == stand {
                assert_eq!(
                    told_after.map_err(|refusal| refusal.kind),
                    Err(kveldrim::Kind::Nothing)
                );
                self.at_the_start += u64::from(k > 0);
                continue;
            }
            assert_eq!(told_after, told);
            if told.is_err() {
                self.steps_refused += 1;
                continue;
            }
            let in_other_order = step(&left, Kind::Forget(k));
            assert_eq!((Ok(()), left_after), in_other_order);
            match kind {
                Kind::Undo => self.undone += u64::from(k > 0),
                _ => self.redone += u64::from(k > 0),
            }
        }
        let persons = |state: &State| {
            let used = &state.journal[..state.used as usize];
            let document = Document::with_journal(b"", used, state.standing);
            let all = journals::count(&state.journal, state.used) + 1;
            (0..all)
                .map(move |n| document.person(n))
                .collect::<Vec<Result<Person, Refusal>>>()
        };
        let (before, after) = (persons(state), persons(forgot));
        assert_eq!(before[k as usize..], after);
        self.persons += after.len() as u64 - 1;
    }

    /// The law of a set or remove: it is made as before; if there was no room for its record, as soon as there is.
    fn edit(&mut self, call: &Call, state: &State, forgot: &State) {
        let (told, left) = made(state, call);
        let (told_after, left_after) = made(forgot, call);
        match told.map_err(|refusal| refusal.kind) {
            Ok(()) => {
                assert_eq!(told_after, Ok(()));
                assert_eq!(file(&left_after), file(&left));
                self.edits += 1;
            }
            Err(kveldrim::Kind::JournalFull) => {
                let alone = State {
                    journal: vec![0; JOURNAL_BOUND],
                    used: 0,
                    standing: 0,
                    ..state.clone()
                };
                let (told_alone, left_alone) = made(&alone, call);
                assert_eq!(told_alone, Ok(()));
                let room = forgot.journal.len().min(JOURNAL_BOUND) as u64;
                if forgot.standing + left_alone.standing <= room {
                    assert_eq!(told_after, Ok(()));
                    assert_eq!(file(&left_after), file(&left_alone));
                    self.made_room += 1;
                } else {
                    assert_eq!(told_after, told);
                    self.still_full += 1;
                }
            }
            Err(_) => {
                assert_eq!(told_after, told);
                self.otherwise_refused += 1;
            }
        }
    }
}

/// A state's file with its buffer.
fn file(state: &State) -> (u64, &[u8]) {
    (state.file_len, &state.file)
}

/// After edits are forgotten, undo, redo, persons and later edits are as they were, but that undo ends sooner and that there is
/// more room. Asked of every number of edits that stand, after each call of a list and in foreign journals.
#[test]
fn forgetting_beside_the_other_calls() {
    let mut counts = Counts::default();
    let are_all = each("forgetting_beside_the_other_calls", LISTS, |seed| {
        let random = &mut Random::new(seed);
        let start = files::sound(random, 3, 4);
        let list = lists::started_by_any(&start, 14, random);
        assert!(!list.calls.is_empty());
        let mut state = list.left();
        for call in &list.calls {
            for (k, forgot) in forgotten(&state) {
                counts.steps(&state, k, &forgot);
                if matches!(call.kind, Kind::Set | Kind::Remove) {
                    counts.edit(call, &state, &forgot);
                }
            }
            state = made(&state, call).1;
        }
        let foreign = lists::foreign_journal(random);
        for (k, forgot) in forgotten(&foreign) {
            counts.steps(&foreign, k, &forgot);
        }
    });
    println!("{counts:?}");
    if are_all {
        let Counts {
            undone,
            at_the_start,
            redone,
            steps_refused,
            persons,
            edits,
            made_room,
            still_full,
            otherwise_refused,
        } = counts;
        assert!(undone > 1_000 && at_the_start > 1_000 && redone > 1_000 && steps_refused > 1_000);
        assert!(persons > 10_000 && edits > 10_000 && otherwise_refused > 1_000);
        assert!(made_room > 500 && still_full > 500);
    }
}

/// What is left of a state after each number of the edits that stand is forgotten; none where the journal is not sound.
fn forgotten(state: &State) -> Vec<(u64, State)> {
    let stand = journals::count(&state.journal, state.standing);
    let counts = (0..=stand).map(|k| (k, step(state, Kind::Forget(k))));
    counts
        .filter_map(|(k, (told, left))| told.is_ok().then_some((k, left)))
        .collect()
}
