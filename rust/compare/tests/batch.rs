//! Batches by single calls in generated buffers, seeded: the library, its bindings and the reference must agree. And what 02's A4 says
//! of a batch and its single calls, tried on the library. See `compare::run` for replaying.

use compare::asker::Asker;
use compare::batches;
use compare::case::Case;
use compare::edits::{list_of, with_buffers, Call, Kind, List};
use compare::random::Random;
use compare::run::{came_up, each, run, Outcomes};
use compare::{files, journals, lists, singles};
use kveldrim::{Person, Refusal, Request};
use reference::{RecordKind, State};

const WORKED: u64 = 20_000;
const FOREIGN: u64 = 15_000;
const DAMAGED: u64 = 25_000;
const SPOILT: u64 = 30_000;
const BAD_FILES: u64 = 15_000;
const TIGHT: u64 = 20_000;
const LONG: u64 = 600;
const NEAR_FILE_BOUND: u64 = 600;
const LAWS: u64 = 30_000;

const _: () = assert!(WORKED + FOREIGN + DAMAGED + SPOILT + BAD_FILES + TIGHT >= 50_000);

/// What right lists give on sound states.
const RIGHT: Outcomes = &[
    ("batch, empty", &[0]),
    ("batch, all done", &[0]),
    ("batch, stopped at once", &[6, 7, 8, 10, 11, 13, 17]),
    ("batch, stopped later", &[6, 7, 8, 10, 11, 13, 17]),
];

/// What wrong lists give.
const WRONG: Outcomes = &[
    ("batch, list over the bound", &[14]),
    ("batch, list not filled", &[14]),
    ("batch, another kind", &[14]),
    ("batch, inner lengths", &[14]),
    ("batch, inner lengths that wrap", &[14]),
];

#[test]
fn journals_that_calls_left() {
    let test = "journals_that_calls_left";
    let cases = lists::cases(lists::worked_journal, batches::batch_in);
    run(test, WORKED, RIGHT, cases);
}

#[test]
fn foreign_journals() {
    let bound: Outcomes = &[("batch, used over the bound", &[14])];
    let outcomes = [RIGHT, bound].concat();
    let cases = lists::cases(lists::foreign_journal, batches::batch_in);
    run("foreign_journals", FOREIGN, &outcomes, cases);
}

#[test]
fn damaged_journals_and_wrong_numbers() {
    let outcomes: Outcomes = &[
        ("batch, all done", &[0]),
        ("batch, file over the room", &[14]),
        ("batch, used over the room", &[14]),
        ("batch, standing over used", &[14]),
        ("batch, damaged records", &[14]),
        ("batch, standing inside a record", &[14]),
        ("batch on a bad file", &[2, 3]),
    ];
    let test = "damaged_journals_and_wrong_numbers";
    let cases = lists::cases(lists::damaged_journal, batches::batch_in);
    run(test, DAMAGED, outcomes, cases);
}

#[test]
fn spoilt_lists() {
    let cases = lists::cases(lists::worked_journal, batches::spoilt_batch_in);
    run("spoilt_lists", SPOILT, WRONG, cases);
}

#[test]
fn bad_files() {
    let outcomes: Outcomes = &[
        ("batch on a bad file", &[2, 3, 4, 5, 6]),
        ("batch, empty on a bad file", &[2, 3, 4, 5, 6]),
    ];
    run("bad_files", BAD_FILES, outcomes, batches::on_bad_file);
}

#[test]
fn tight_buffers() {
    let outcomes: Outcomes = &[
        ("batch, all done", &[0]),
        ("batch, stopped at once", &[11, 13]),
        ("batch, stopped later", &[6, 7, 8, 10, 11, 13, 17]),
    ];
    run("tight_buffers", TIGHT, outcomes, batches::tight);
}

#[test]
fn long_lists() {
    let outcomes: Outcomes = &[
        ("batch, all done", &[0]),
        ("batch, stopped later", &[8, 11, 13]),
        ("batch, list over the bound", &[14]),
    ];
    run("long_lists", LONG, outcomes, batches::long);
}

#[test]
fn files_near_the_bound() {
    let outcomes: Outcomes = &[
        ("batch on a bad file", &[1]),
        ("batch, empty on a bad file", &[1]),
        ("batch, all done", &[0]),
        ("batch, stopped at once", &[11]),
        ("batch, stopped later", &[11]),
    ];
    let test = "files_near_the_bound";
    run(test, NEAR_FILE_BOUND, outcomes, batches::near_file_bound);
}

fn agrees(case: &Case, asker: &mut Asker) {
    if let Err(difference) = case.compare(asker) {
        panic!("{difference}\ninput: {}", case.words());
    }
}

const T: &[u8] = b"[Desktop Entry]\nType=Application\nName=Lesen\nName[fr]=Lire\nExec=view %F\n";

/// A remove in the group Desktop Entry by person 7.
fn remove(key: &str) -> Call {
    let mut remove = Call::set(key, b"");
    remove.kind = Kind::Remove;
    remove
}

/// Each size of the journal and of the room behind the file, from nothing to more than the edits need.
#[test]
fn buffers_of_every_size() {
    let lists = [
        vec![
            Call::set("Icon", b"a"),
            Call::set("Name", b" Lesung"),
            Call::set("Icon[de]", b""),
        ],
        vec![remove("Exec"), Call::set("Exec", b"x"), remove("Name[fr]")],
        vec![Call::set("Name", b"0123456789"), remove("Icon")],
    ];
    let mut asker = Asker::new(10);
    let mut random = Random::new(10);
    for singles in lists {
        let batch = Call::batch(0x1234, list_of(&singles));
        let before = Call::set("Type", b"Link");
        for (old_calls, calls) in [
            (vec![], vec![batch.clone()]),
            (vec![], vec![before.clone(), batch.clone()]),
            (vec![before.old()], vec![batch]),
        ] {
            for case in lists::every_size(T, &old_calls, &calls, 3, &mut random) {
                agrees(&case, &mut asker);
            }
        }
    }
    let outcomes: Outcomes = &[
        ("batch, all done", &[0]),
        ("batch, stopped at once", &[11, 13]),
        ("batch, stopped later", &[8, 11, 13]),
    ];
    came_up("buffers_of_every_size", &asker.tally, outcomes);
}

/// Every length of a list up to more than its records, each of its bytes changed in each bit, and every kind.
#[test]
fn lists_of_every_length_byte_and_kind() {
    let list = list_of(&[Call::set("A", b"x"), remove("B"), Call::set("A", b"")]);
    let longer = [&list[..], &list[..], &[0; 9]].concat();
    let lengths = (0..=longer.len()).map(|length| longer[..length].to_vec());
    let bits = (0..8 * list.len()).map(|at| {
        let mut other = list.clone();
        other[at / 8] ^= 1 << (at % 8);
        other
    });
    let kinds = (0..=0xFFFF_u16).map(|kind| {
        let mut other = list.clone();
        other[4..6].copy_from_slice(&kind.to_le_bytes());
        other
    });
    let mut asker = Asker::new(11);
    let start = journals::buffers(b"[Desktop Entry]\nA=1\nB=2", 9, 200, &mut Random::new(11));
    for requests in lengths.chain(bits).chain(kinds) {
        let list = List {
            start: start.clone(),
            old_calls: Vec::new(),
            calls: vec![Call::batch(7, requests)],
        };
        agrees(&Case::Edits(list), &mut asker);
    }
    let outcomes: Outcomes = &[
        ("batch, empty", &[0]),
        ("batch, all done", &[0]),
        ("batch, stopped at once", &[7, 8]),
        ("batch, list not filled", &[14]),
        ("batch, another kind", &[14]),
        ("batch, inner lengths", &[14]),
    ];
    came_up(
        "lists_of_every_length_byte_and_kind",
        &asker.tally,
        outcomes,
    );
}

/// Calls, then requests of batches, then records can be left out of a list: so a failure can be made small.
#[test]
fn lists_with_a_call_or_a_request_less() {
    let singles = [Call::set("A", b"x"), remove("B"), Call::set("C", b"y")];
    let list = List {
        start: journals::buffers(T, 0, 0, &mut Random::new(12)),
        old_calls: Vec::new(),
        calls: vec![
            Call::batch(1, list_of(&singles[..1])),
            Call::step(Kind::Undo),
            Call::batch(2, list_of(&singles[1..])),
        ],
    };
    let names = |list: &List| {
        let batches = list.calls.iter().filter_map(Call::singles).flatten();
        batches
            .map(|single| single.key)
            .collect::<Vec<_>>()
            .concat()
    };
    for (number, calls, left) in [
        (0, 2, "BC"),
        (1, 2, "ABC"),
        (2, 2, "A"),
        (3, 3, "BC"),
        (4, 3, "AC"),
        (5, 3, "AB"),
    ] {
        let fewer = list.without(number).unwrap();
        assert_eq!((fewer.calls.len(), names(&fewer)), (calls, left.into()));
    }
    assert!(list.without(6).is_none());
}

/// A call of the library on a copy of a state: what it told, what of a batch was done, and what it left.
fn made(state: &State, call: &Call) -> (Result<(), Refusal>, u64, State) {
    let mut left = state.clone();
    let (told, done) = with_buffers(&mut left, |buffers| call.counted_on_buffers(buffers));
    (told, done.unwrap_or(0), left)
}

/// What single calls of the library tell and leave, up to the first that is refused, with how many were done.
fn in_turn(state: &State, singles: &[Call]) -> (Result<(), Refusal>, u64, State) {
    let mut left = state.clone();
    for (done, single) in (0..).zip(singles) {
        let (told, _, next) = made(&left, single);
        left = next;
        if told.is_err() {
            return (told, done, left);
        }
    }
    (Ok(()), singles.len() as u64, left)
}

/// How often each came up.
#[derive(Debug, Default)]
struct Counts {
    all_done: u64,
    /// Refused behind at least one edit.
    stopped: u64,
    /// Refused for lengths or a damaged journal.
    damaged: u64,
    empty: u64,
    edits: u64,
    /// Done as two batches.
    in_two: u64,
}

impl Counts {
    /// A batch tells and leaves what its single calls do. By so many as were done the records that stand have grown.
    fn as_singles(&mut self, state: &State, batch: &Call, singles: &[Call]) {
        let (told, done, left) = made(state, batch);
        if singles.is_empty() {
            assert_eq!((done, &left), (0, state));
            self.empty += u64::from(told.is_ok());
            return;
        }
        assert_eq!((told, done, left.clone()), in_turn(state, singles));
        let stand = |state: &State| journals::count(&state.journal, state.standing);
        assert_eq!(stand(&left), stand(state) + done);
        match told.map_err(|refusal| refusal.kind) {
            Ok(()) => self.all_done += 1,
            Err(kveldrim::Kind::Damaged) => self.damaged += 1,
            Err(_) => self.stopped += u64::from(done > 0),
        }
        self.edits += done;
    }

    /// Two batches, one behind the other, are one; also where the first is stopped, and the second is not made.
    fn in_two(&mut self, state: &State, batch: &Call, singles: &[Call], at: usize) {
        let [first, second] = [&singles[..at], &singles[at..]]
            .map(|singles| Call::batch(batch.record.person(), list_of(singles)));
        let mut answer = made(state, &first);
        if answer.0.is_ok() {
            let (told, done, left) = made(&answer.2, &second);
            self.in_two += u64::from(answer.1 > 0 && done > 0);
            answer = (told, answer.1 + done, left);
        }
        assert_eq!(answer, made(state, batch));
    }
}

/// The file of a state, as far as the buffer has it.
fn file(state: &State) -> &[u8] {
    &state.file[..state.file.len().min(state.file_len as usize)]
}

/// What was done is undone one at a time, and redone; its records have the batch's person.
fn is_undone(state: &State, batch: &Call) {
    let (_, done, left) = made(state, batch);
    let steps = |from: &State, kind| {
        let steps = vec![Call::step(kind); done as usize];
        let (told, _, to) = in_turn(from, &steps);
        assert_eq!(told, Ok(()));
        to
    };
    let back = steps(&left, Kind::Undo);
    assert_eq!((file(&back), back.standing), (file(state), state.standing));
    let again = steps(&back, Kind::Redo);
    assert_eq!((file(&again), again.standing), (file(&left), left.standing));
    let stand = journals::count(&left.journal, left.standing);
    with_buffers(&mut left.clone(), |buffers| {
        for n in stand - done..stand {
            assert_eq!(buffers.person(n), Ok(Person(batch.record.person())));
        }
    });
}

/// A set or a remove as a request of the bindings.
fn request(single: &Call) -> Request<'_> {
    let (group, key, text) = (&single.group, &single.key, &single.text);
    match single.kind {
        Kind::Set => Request::Set { group, key, text },
        _ => Request::Remove { group, key },
    }
}

#[test]
fn a_batch_and_its_single_calls() {
    let mut counts = Counts::default();
    let are_all = each("a_batch_and_its_single_calls", LAWS, |seed| {
        let random = &mut Random::new(seed);
        let state = match seed % 6 {
            0 => lists::damaged_journal(random),
            1 => lists::foreign_journal(random),
            _ => lists::worked_journal(random),
        };
        let asks: Vec<_> = (0..3).map(|_| files::ask(file(&state), random)).collect();
        let person = singles::person(random);
        let mut singles: Vec<Call> = (0..random.within(0, 7))
            .map(|_| singles::single(&asks, random))
            .collect();
        for single in &mut singles {
            single.record = RecordKind::Four(person);
        }
        let requests: Vec<Request> = singles.iter().map(request).collect();
        let batch = Call::batch(person, kveldrim::requests_of(&requests));
        assert_eq!(batch.requests, list_of(&singles));
        counts.as_singles(&state, &batch, &singles);
        counts.in_two(&state, &batch, &singles, random.within(0, singles.len()));
        is_undone(&state, &batch);
    });
    println!("{counts:?}");
    if are_all {
        let Counts {
            all_done,
            stopped,
            damaged,
            empty,
            edits,
            in_two,
        } = counts;
        assert!(all_done > 1_000 && stopped > 1_000 && damaged > 1_000 && empty > 1_000);
        assert!(edits > 10_000 && in_two > 1_000);
    }
}
