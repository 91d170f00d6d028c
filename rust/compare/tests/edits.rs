//! Generated lists of calls that edit, seeded: after every call the library, its bindings, the reference's journal and, from
//! a sound start, its book must agree. See `compare::run` for replaying.

use compare::asker::Asker;
use compare::case::Case;
use compare::edits::{Call, Kind, List};
use compare::random::Random;
use compare::run::{calls, came_up, run, Outcomes};
use compare::{files, journals, lists};
use reference::RecordKind;

const SOUND: u64 = 60_000;
const OLD: u64 = 40_000;
const SPOILT: u64 = 20_000;
const DAMAGED: u64 = 30_000;
const FOREIGN: u64 = 30_000;
const LONGER: u64 = 1_000;
const NEAR_FILE_BOUND: u64 = 400;
const NEAR_JOURNAL_BOUND: u64 = 400;

const _: () = assert!(SOUND + OLD + SPOILT + DAMAGED + FOREIGN >= 50_000);

/// What calls from a sound start give.
const FROM_SOUND: Outcomes = &[
    ("set", &[0, 6, 7, 8, 10, 11, 13]),
    ("remove", &[0, 7, 8, 13, 17]),
    ("undo", &[0, 12]),
    ("redo", &[0, 12]),
    ("forget none", &[0]),
    ("forget some that stand", &[0]),
    ("forget all that stand", &[0]),
    ("forget some that wait", &[12]),
    ("forget more than there are", &[12]),
    ("batch, empty", &[0]),
    ("batch, all done", &[0]),
    ("batch, stopped at once", &[6, 7, 8, 10, 11, 13, 17]),
    ("batch, stopped later", &[7, 8, 10, 11, 13, 17]),
    ("batch, list not filled", &[14]),
    ("batch, another kind", &[14]),
    ("batch, inner lengths", &[14]),
];

#[test]
fn sound_starts() {
    run("sound_starts", SOUND, FROM_SOUND, |random| {
        let file = files::sound(random, 3, 4);
        Case::Edits(lists::started(&file, 12, random))
    });
}

/// Lists that go on where 01's calls stopped, in the same buffers.
#[test]
fn old_starts() {
    let old: Outcomes = &[("undo of kind 1", &[0]), ("redo of kind 1", &[0])];
    let outcomes = [FROM_SOUND, old].concat();
    run("old_starts", OLD, &outcomes, |random| {
        let file = files::sound(random, 3, 4);
        let list = lists::started_by_old_calls(&file, 14, random);
        assert!(!list.old_calls.is_empty() && !list.calls.is_empty());
        Case::Edits(list)
    });
}

#[test]
fn spoilt_starts() {
    let file: &[u32] = &[0, 2, 3, 4, 5, 6];
    let outcomes: Outcomes = &[
        ("set", file),
        ("remove", file),
        ("undo", file),
        ("redo", file),
        ("batch on a bad file", &[2, 3, 4, 5, 6]),
        ("batch, empty on a bad file", &[2, 3, 4, 5, 6]),
        // The file is not asked.
        ("forget none", &[0]),
        ("forget all that stand", &[0]),
        ("forget more than there are", &[12]),
    ];
    run("spoilt_starts", SPOILT, outcomes, |random| {
        let mut file = files::sound(random, 3, 4);
        files::spoil(&mut file, random);
        Case::Edits(lists::started(&file, 6, random))
    });
}

#[test]
fn damaged_journals_and_wrong_numbers() {
    let outcomes: Outcomes = &[
        ("set", &[0, 2, 8, 11, 13, 14]),
        ("remove", &[0, 2, 8, 13, 14]),
        ("undo", &[0, 2, 12, 14]),
        ("redo", &[0, 2, 12, 14]),
        ("forget some that stand", &[0]),
        ("forget some that wait", &[12]),
        ("forget, used over the room", &[14]),
        ("forget, standing over used", &[14]),
        ("forget, damaged records", &[14]),
        ("forget, standing inside a record", &[14]),
        ("batch, all done", &[0]),
        ("batch, file over the room", &[14]),
        ("batch, used over the room", &[14]),
        ("batch, standing over used", &[14]),
        ("batch, damaged records", &[14]),
        ("batch, standing inside a record", &[14]),
    ];
    let test = "damaged_journals_and_wrong_numbers";
    run(test, DAMAGED, outcomes, lists::damaged);
}

#[test]
fn foreign_journals() {
    let outcomes: Outcomes = &[
        ("undo", &[0, 11, 12, 14]),
        ("redo", &[0, 11, 12, 14]),
        ("forget some that stand", &[0]),
        ("forget all that stand", &[0]),
        ("forget some that wait", &[12]),
        ("batch, all done", &[0]),
        ("batch, stopped later", &[8, 11, 13]),
    ];
    run("foreign_journals", FOREIGN, outcomes, lists::foreign);
}

#[test]
fn longer_starts() {
    run("longer_starts", LONGER, FROM_SOUND, |random| {
        let file = files::sound(random, 20, 30);
        Case::Edits(lists::started(&file, 12, random))
    });
}

#[test]
fn files_near_the_bound() {
    let outcomes: Outcomes = &[("set", &[0, 1, 11]), ("undo", &[0])];
    let test = "files_near_the_bound";
    run(test, NEAR_FILE_BOUND, outcomes, lists::near_file_bound);
}

#[test]
fn journals_near_the_bound() {
    let outcomes: Outcomes = &[
        ("set", &[0, 13]),
        ("undo", &[0]),
        ("redo", &[0, 12]),
        ("forget some that stand", &[0]),
        ("forget all that stand", &[0]),
    ];
    let test = "journals_near_the_bound";
    run(
        test,
        NEAR_JOURNAL_BOUND,
        outcomes,
        lists::near_journal_bound,
    );
}

/// Each size of the journal and of the room behind the file, from nothing to more than the call needs.
#[test]
fn buffers_of_every_size() {
    let files: [&[u8]; 3] = [
        b"[Desktop Entry]\nType=Application\nName=Lesen\nName[fr]=Lire\nExec=view %F\n",
        b"[Desktop Entry]\nName=  \n[X]\nExec=1",
        b"[Desktop Entry]",
    ];
    let mut asker = Asker::new(3);
    let mut random = Random::new(3);
    for file in files {
        for kind in [Kind::Set, Kind::Remove] {
            for key in ["Name", "Name[fr]", "Exec", "Icon"] {
                for (group, text) in [("Desktop Entry", " Les\n"), ("X", "1"), ("X", "")] {
                    let call = Call {
                        record: RecordKind::Four(0x1234),
                        group: group.into(),
                        key: key.into(),
                        text: text.into(),
                        ..Call::step(kind)
                    };
                    let before = || Call::set("Exec", b"x");
                    for (old_calls, calls) in [
                        (vec![], vec![call.clone()]),
                        (vec![], vec![before(), call.clone()]),
                        (vec![before().old()], vec![call]),
                    ] {
                        for case in lists::every_size(file, &old_calls, &calls, 3, &mut random) {
                            agrees(&case, &mut asker);
                        }
                    }
                }
            }
        }
    }
    let outcomes: Outcomes = &[
        ("set", &[0, 11, 13]),
        ("remove", &[0, 13]),
        ("forget some that stand", &[0]),
        ("forget all that stand", &[0]),
        ("forget more than there are", &[12]),
    ];
    came_up("buffers_of_every_size", &asker.tally, outcomes);
}

/// Each call on a journal of one record.
#[test]
fn records_of_every_kind_and_length() {
    let mut remove = Call::set("A", b"");
    remove.kind = Kind::Remove;
    let calls = [
        Call::set("A", b"x"),
        remove,
        Call::step(Kind::Undo),
        Call::step(Kind::Redo),
        Call::step(Kind::Forget(1)),
    ];
    let mut asker = Asker::new(6);
    let mut random = Random::new(6);
    for (journal, used) in lists::single_records() {
        for call in &calls {
            let mut start = journals::buffers(lists::SINGLE, 10, 0, &mut random);
            (start.journal, start.used) = (journal.clone(), used);
            if matches!(call.kind, Kind::Undo | Kind::Forget(_)) {
                start.standing = used;
            }
            let list = List {
                start,
                old_calls: Vec::new(),
                calls: vec![call.clone()],
            };
            agrees(&Case::Edits(list), &mut asker);
        }
    }
    let outcomes: Outcomes = &[
        ("set", &[0, 14]),
        ("remove", &[0, 14]),
        ("undo", &[0, 12, 14]),
        ("redo", &[0, 12, 14]),
        ("undo of kind 1", &[0]),
        ("redo of kind 1", &[0]),
        ("forget all that stand", &[0]),
        ("forget more than there are", &[12]),
        ("forget, damaged records", &[14]),
    ];
    came_up("records_of_every_kind_and_length", &asker.tally, outcomes);
}

/// What the reference tells of each call from an empty journal on, once all agree on it. The first so many are 01's.
fn told(file: &[u8], rooms: (usize, usize), mut calls: Vec<Call>, old: usize) -> Vec<u32> {
    let mut random = Random::new(4);
    let start = journals::buffers(file, rooms.0 - file.len(), rooms.1, &mut random);
    let old_calls: Vec<Call> = calls.drain(..old).map(Call::old).collect();
    let mut state = start.clone();
    let all = old_calls.iter().chain(&calls);
    let told = all.map(|call| match call.on_state(&mut state) {
        Ok(()) => 0,
        Err(refusal) => refusal.number,
    });
    let told = told.collect();
    let list = List {
        start,
        old_calls,
        calls,
    };
    agrees(&Case::Edits(list), &mut Asker::new(4));
    told
}

fn agrees(case: &Case, asker: &mut Asker) {
    if let Err(difference) = case.compare(asker) {
        panic!("{difference}\ninput: {}", case.words());
    }
}

/// Just 32,768 bytes of a file, and one more; the buffer as large, or larger.
#[test]
fn the_bound_of_a_file() {
    let text = |length: usize| vec![b'v'; length];
    let file = |length: usize| [b"[Desktop Entry]\nA=1\nL=", &text(length - 22)[..]].concat();
    let undo = || Call::step(Kind::Undo);
    let redo = || Call::step(Kind::Redo);
    for room in [32_768, 32_769, 40_000] {
        let calls = || {
            let grown = Call::set("A", b"12");
            vec![
                Call::set("A", b"2"),
                undo(),
                grown,
                redo(),
                undo(),
                Call::set("A", b""),
            ]
        };
        let rooms = (room, 65_536);
        for old in 0..3 {
            assert_eq!(
                told(&file(32_768), rooms, calls(), old),
                [0, 0, 11, 0, 0, 0]
            );
            assert_eq!(
                told(&file(32_767), rooms, calls(), old),
                [0, 0, 0, 12, 0, 0]
            );
        }
        let over = (room.max(32_769), 65_536);
        assert_eq!(told(&file(32_769), over, calls(), 0), [1; 6]);
    }
}

/// Just 65,536 bytes of a journal, and one more; the buffer as large, or larger.
#[test]
fn the_bound_of_a_journal() {
    let text = |length: usize| vec![b'v'; length];
    let file = b"[Desktop Entry]\nA=\n";
    for (room, old) in [(65_536, 0), (65_537, 1), (80_000, 2)] {
        // Three records: 20 + 20,000, then 20 + 20,000 + 1, then 20 + 1 and what is left. Those of 01's calls have 2 less.
        let left = 65_536 - (20_020 + 20_021 + 21) + 2 * old;
        for (more, last) in [(0, 0), (1, 13), (2, 13)] {
            let calls = vec![
                Call::set("A", &text(20_000)),
                Call::set("A", b"1"),
                Call::set("A", &text(left + more)),
                Call::step(Kind::Undo),
                Call::step(Kind::Redo),
            ];
            assert_eq!(told(file, (32_768, room), calls, old), [0, 0, last, 0, 0]);
        }
    }
}

/// Half a million calls in long lists: cargo test --release -p kveldrim-compare --test edits -- --ignored --nocapture
#[test]
#[ignore = "run it where edits are changed"]
fn half_a_million_calls() {
    let asker = run("half_a_million_calls", 24_000, FROM_SOUND, |random| {
        let file = files::sound(random, 4, 6);
        Case::Edits(lists::started_by_any(&file, 60, random))
    });
    if let Some(asker) = asker {
        assert!(calls(&asker.tally) >= 500_000);
    }
}
