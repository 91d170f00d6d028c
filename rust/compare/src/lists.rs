//! Makes lists of calls that edit: sound starts, worked journals, damaged and foreign ones, and those near the bounds. The same
//! journals serve where the person of a record is asked for, where edits are forgotten, and for single batches.

use reference::{RecordKind, State};

use crate::batches;
use crate::bounds::{FILE_BOUND, JOURNAL_BOUND};
use crate::case::Case;
use crate::edits::{Call, Kind, List};
use crate::files;
use crate::journals::{buffers, count, record, records};
use crate::persons::Question;
use crate::pieces::{self, BORDERS};
use crate::random::Random;
use crate::singles::{call, person, single};

/// A file in a buffer with little room or enough, and a journal for none, a few or many records.
fn roomy(file: &[u8], random: &mut Random) -> State {
    let file_more = match random.below(6) {
        0 => 0,
        1 | 2 => random.within(0, 60),
        _ => random.within(60, 600),
    };
    let journal_room = match random.below(20) {
        0 => JOURNAL_BOUND + random.below(3),
        1..=3 => random.within(0, 40),
        4..=10 => random.within(40, 400),
        _ => random.within(400, 2_000),
    };
    buffers(file, file_more, journal_room, random)
}

/// A list from a file with an empty journal. Its calls share a few names, most of which the file has.
pub fn started(file: &[u8], most: usize, random: &mut Random) -> List {
    let start = roomy(file, random);
    continued(start, 0, random.within(1, most), random)
}

/// As [`started`], but the first calls are 01's; at least one is, and at least one is not.
pub fn started_by_old_calls(file: &[u8], most: usize, random: &mut Random) -> List {
    let start = roomy(file, random);
    let count = random.within(2, most);
    let old_calls = random.within(1, count - 1);
    continued(start, old_calls, count - old_calls, random)
}

/// As [`started`], or in half of the cases as [`started_by_old_calls`].
pub fn started_by_any(file: &[u8], most: usize, random: &mut Random) -> List {
    match random.once_in(2) {
        true => started(file, most, random),
        false => started_by_old_calls(file, most, random),
    }
}

/// So many of 01's calls from a start on, and so many calls behind these.
fn continued(start: State, old_calls: usize, calls: usize, random: &mut Random) -> List {
    let mut state = start.clone();
    let mut list = List {
        start,
        old_calls: Vec::new(),
        calls: Vec::new(),
    };
    let asks: Vec<_> = (0..random.within(1, 5))
        .map(|_| files::ask(list.file(), random))
        .collect();
    for number in 0..old_calls + calls {
        let is_old = number < old_calls;
        // 01 has no forget and no batch.
        let mut made = match random.below(if is_old { 20 } else { 26 }) {
            0..=11 => single(&asks, random),
            12..=16 => Call::step(Kind::Undo),
            17..=19 => Call::step(Kind::Redo),
            20..=22 => Call::step(Kind::Forget(how_many(&state, random))),
            _ => batches::of_names(&asks, 8, random),
        };
        if is_old {
            made = made.old();
        }
        put(&mut list, &mut state, made);
    }
    list
}

/// Puts a call at the end of a list, or of 01's calls if it is one, and makes it on the state that the list has come to.
fn put(list: &mut List, state: &mut State, made: Call) {
    let _ = made.on_state(state);
    match made.record {
        RecordKind::One => list.old_calls.push(made),
        RecordKind::Four(_) => list.calls.push(made),
    }
}

/// How many edits of a state to forget: none, one, some or all that stand, more than stand or are there, a very large number.
fn how_many(state: &State, random: &mut Random) -> u64 {
    let stand = count(&state.journal, state.standing);
    match random.below(12) {
        0 => 0,
        1..=3 => 1,
        4 => stand,
        5 => stand + 1,
        6 => stand.saturating_sub(1),
        7 => count(&state.journal, state.used),
        8 => count(&state.journal, state.used) + 1,
        9 => u64::MAX - random.number() % 3,
        10 => (1 << 32) + random.number() % (stand + 1),
        _ => random.number() % (stand + 1),
    }
}

/// A state with edits of up to so many calls in its journal, some of them undone, some of 01's calls.
fn worked(most: usize, random: &mut Random) -> State {
    let file = files::sound(random, 3, 4);
    let list = started_by_any(&file, most, random);
    let mut state = list.left();
    for call in &list.calls {
        let _ = call.on_state(&mut state);
    }
    state
}

/// A list from a state with something wrong in it: a number, a byte of the journal or of the file, a buffer cut short.
pub fn damaged(random: &mut Random) -> Case {
    let state = damaged_after(8, random);
    Case::Edits(continued(state, 0, random.within(1, 4), random))
}

/// As [`worked`], with something wrong in it.
fn damaged_after(most: usize, random: &mut Random) -> State {
    let mut state = worked(most, random);
    for _ in 0..random.within(1, 2) {
        damage(&mut state, random);
    }
    state
}

fn damage(state: &mut State, random: &mut Random) {
    let used = state.journal.len().min(state.used as usize);
    let starts = records(&state.journal[..used]);
    let start = starts[random.below(starts.len())];
    match random.below(17) {
        0 => state.file_len = odd(state.file_len, state.file.len(), random),
        1 => state.used = odd(state.used, state.journal.len(), random),
        2 => state.standing = odd(state.standing, used, random),
        3 => state.standing = start as u64,
        4 => state.used = start as u64,
        5 if used > 0 => state.journal[random.below(used)] = random.number() as u8,
        6 if used > 0 => state.journal[random.below(used)] ^= 1 << random.below(8),
        7 if used > start + 20 => {
            let at = start + random.below(20);
            state.journal[at] = random.byte_of(&[0, 1, 2, 4, 17, 18, 19, 20, 21, 255]);
        }
        8 if used > 0 => {
            let noise = pieces::wild(random, used.min(30));
            let at = random.below(used - noise.len() + 1);
            state.journal[at..at + noise.len()].copy_from_slice(&noise);
        }
        9 if !state.file.is_empty() => {
            let at = random.below(state.file.len());
            state.file[at] = random.byte_of(BORDERS);
        }
        10 => state.file.truncate(random.within(0, state.file.len())),
        // Another kind; the length may be that of its kind or not.
        11 if used > start + 5 => {
            let kind: u16 = [0, 1, 2, 3, 4, 5, 0x101, 0x104, 0x400][random.below(9)];
            state.journal[start + 4..start + 6].copy_from_slice(&kind.to_le_bytes());
        }
        // Cut in the numbers of a record, the person's bytes among them.
        12 => {
            state.used = (start + random.within(1, 21)) as u64;
            state.standing = state.standing.min(start as u64);
        }
        13 | 14 => {
            let record = misfit(random);
            let end = start + record.len();
            if end <= state.journal.len() {
                state.journal[start..end].copy_from_slice(&record);
                state.used = end as u64;
                state.standing = state.standing.min(start as u64);
            }
        }
        // Between two records.
        15 => state.journal.truncate(start),
        _ => state
            .journal
            .truncate(random.within(0, state.journal.len())),
    }
}

/// A number close to the right one, to the room or to a bound, or a very large one.
fn odd(right: u64, room: usize, random: &mut Random) -> u64 {
    let near = match random.below(7) {
        0 => return u64::MAX - random.number() % 3,
        1 => 1 << 32,
        2 => JOURNAL_BOUND as u64,
        3 => FILE_BOUND as u64,
        4 => room as u64,
        _ => right,
    };
    near.wrapping_add(random.number() % 5).wrapping_sub(2)
}

/// The kind of a record, with any person.
fn any_kind(random: &mut Random) -> RecordKind {
    match random.once_in(3) {
        true => RecordKind::One,
        false => RecordKind::Four(person(random)),
    }
}

/// A record that mostly has not the length of its kind: often that of the other kind, or one too short for its numbers.
fn misfit(random: &mut Random) -> Vec<u8> {
    let [old, new] = [(); 2].map(|()| pieces::wild(random, 4));
    let mut record = record(any_kind(random), random.below(30), &old, &new);
    let length = match random.below(4) {
        0 => record.len() + random.within(1, 2),
        1 => record.len() - random.within(1, 2),
        2 => random.within(0, 20),
        _ => record.len() + 2,
    };
    record.resize(length.max(4), 0);
    record[..4].copy_from_slice(&(length as u32).to_le_bytes());
    record
}

/// A list from a foreign journal.
pub fn foreign(random: &mut Random) -> Case {
    let mut state = foreign_state(random);
    if random.once_in(8) {
        damage(&mut state, random);
    }
    Case::Edits(continued(state, 0, random.within(1, 5), random))
}

/// A state whose journal no call wrote: its records are sound and of both kinds, but what they say of the file is anything.
fn foreign_state(random: &mut Random) -> State {
    let file = files::sound(random, 2, 3);
    let mut state = roomy(&file, random);
    let records = random.within(1, 4);
    let standing = random.within(0, records);
    let mut journal = Vec::new();
    for number in 0..records {
        if number == standing {
            state.standing = journal.len() as u64;
        }
        let place = random.within(0, state.file.len().min(file.len() + 3));
        let end = random.within(place, state.file.len().min(place + 12));
        let there = &state.file[place..end];
        let other = match random.below(4) {
            0 => Vec::new(),
            1 => pieces::wild(random, 8),
            2 => pieces::letters(random),
            _ => file[random.below(file.len())..]
                .iter()
                .take(20)
                .copied()
                .collect(),
        };
        let kind = any_kind(random);
        journal.extend(match number < standing {
            true => record(kind, place, &other, there),
            false => record(kind, place, there, &other),
        });
    }
    if standing == records {
        state.standing = journal.len() as u64;
    }
    state.used = journal.len() as u64;
    let room = state.journal.len().max(journal.len());
    state.journal.resize(room, 0x5A);
    state.journal[..journal.len()].copy_from_slice(&journal);
    state
}

/// A state whose journal calls left.
pub fn worked_journal(random: &mut Random) -> State {
    worked(20, random)
}

/// A state with something wrong in its journal.
pub fn damaged_journal(random: &mut Random) -> State {
    damaged_after(20, random)
}

/// A state with a foreign journal, now and then with used bytes at the bound.
pub fn foreign_journal(random: &mut Random) -> State {
    let mut state = foreign_state(random);
    if random.once_in(20) {
        let used = state.used as usize;
        let kind = any_kind(random);
        let left = JOURNAL_BOUND - used - record(kind, 0, b"", b"").len() + random.below(2);
        let last = record(kind, 0, b"", &vec![b'v'; left]);
        state.journal.truncate(used);
        state.journal.extend(last);
        state.used = state.journal.len() as u64;
    }
    state
}

/// Cases about journals.
pub fn cases(
    journal: fn(&mut Random) -> State,
    case: fn(State, &mut Random) -> Case,
) -> impl Fn(&mut Random) -> Case {
    move |random| {
        let state = journal(random);
        case(state, random)
    }
}

/// Some edits of a state are to be forgotten.
pub fn forget_in(state: State, random: &mut Random) -> Case {
    let forget = Call::step(Kind::Forget(how_many(&state, random)));
    Case::Edits(List {
        start: state,
        old_calls: Vec::new(),
        calls: vec![forget],
    })
}

/// The person of a record of a state's journal: mostly one that is there, else one behind the last or of a very large number.
pub fn person_in(state: State, random: &mut Random) -> Case {
    let State {
        journal,
        used,
        standing,
        ..
    } = state;
    let count = count(&journal, used) as usize;
    let n = match random.below(12) {
        0 => count,
        1 => count + random.within(1, 3),
        2 => usize::MAX - random.below(3),
        3 => (1 << 32) + random.below(count + 1),
        _ => random.below(count.max(1)),
    };
    Case::Person(Question {
        journal,
        used,
        standing,
        n: n as u64,
    })
}

/// A file that the edits of [`single_records`] fit.
pub const SINGLE: &[u8] = b"[Desktop Entry]\nA=abcde\n";

/// Journals of one record, each with how many of its bytes are used: of each kind up to 6 and of some larger, with and without a
/// person, telling every length up to 30, and with every number of used bytes up to 30.
pub fn single_records() -> Vec<(Vec<u8>, u64)> {
    let edits: [(&[u8], &[u8]); 4] = [(b"", b""), (b"a", b""), (b"", b"ab"), (b"abc", b"abcde")];
    let mut journals = Vec::new();
    let layouts = [RecordKind::One, RecordKind::Four(0x0201)];
    let kinds = (0..=6).chain([0x101, 0x104, 0x400, 0xFFFF]);
    for (kind, layout) in kinds.flat_map(|kind| layouts.map(|layout| (kind, layout))) {
        for (old, new) in edits {
            let mut journal = record(layout, 18, old, new);
            journal.resize(60, 0);
            journal[4..6].copy_from_slice(&u16::to_le_bytes(kind));
            for length in 0..=30 {
                journal[0] = length;
                journals.extend((0..=30).map(|used| (journal.clone(), used)));
            }
        }
    }
    journals
}

/// A list from a file whose length is at the bound or close to it, in a buffer close to it or larger.
pub fn near_file_bound(random: &mut Random) -> Case {
    let file = files::near_bound(random);
    let most = FILE_BOUND + 5 - FILE_BOUND.min(file.len());
    let file_more = match random.below(3) {
        0 => random.below(most),
        1 => most + 100,
        _ => most - 5,
    };
    let start = buffers(&file, file_more, JOURNAL_BOUND, random);
    Case::Edits(continued(start, 0, random.within(1, 5), random))
}

/// A list of long texts, which fill a journal up to the bound.
pub fn near_journal_bound(random: &mut Random) -> Case {
    let file = b"[Desktop Entry]\nName=a\nName[de]=b\n[X]\nName=c";
    let room = match random.below(3) {
        0 => JOURNAL_BOUND,
        1 => JOURNAL_BOUND + random.within(1, 40_000),
        _ => JOURNAL_BOUND - random.within(1, 2_000),
    };
    let mut list = List {
        start: buffers(file, FILE_BOUND - file.len(), room, random),
        old_calls: Vec::new(),
        calls: Vec::new(),
    };
    let mut state = list.start.clone();
    let old_calls = random.below(4);
    for number in 0..random.within(4, 12) {
        let is_old = number < old_calls;
        let (group, key): (&[u8], &[u8]) = [
            (&b"Desktop Entry"[..], &b"Name"[..]),
            (b"Desktop Entry", b"Name[de]"),
            (b"X", b"Name"),
        ][random.below(3)];
        let kind = match random.below(if is_old { 6 } else { 7 }) {
            0 => Kind::Undo,
            1 => Kind::Redo,
            6 => Kind::Forget(how_many(&state, random)),
            _ => Kind::Set,
        };
        let mut made = call(kind, group, key, random);
        if is_old {
            made = made.old();
        }
        if kind == Kind::Set {
            // Now and then just as much as there is room for, or a byte more.
            let file = &state.file[..state.file_len as usize];
            let (from, to) = reference::lookup(file, group, key).unwrap();
            let taken = state.standing as usize + made.record.head() + (to - from);
            let left = room.min(JOURNAL_BOUND).saturating_sub(taken);
            let length = match left {
                0..=10_500 if random.once_in(2) => left + random.below(3),
                _ => random.within(1, 10_500),
            };
            made.text = vec![random.byte_of(b"abc"); length];
        }
        put(&mut list, &mut state, made);
    }
    Case::Edits(list)
}

/// Calls on a file, the first of them 01's, with each size of a buffer, from nothing to `more` bytes over what they need, then an
/// undo, a redo, a forget and one more undo.
pub fn every_size(
    file: &[u8],
    old_calls: &[Call],
    calls: &[Call],
    more: usize,
    random: &mut Random,
) -> Vec<Case> {
    let mut done = buffers(file, 1_000, 1_000, random);
    let mut longest = file.len();
    for call in old_calls.iter().chain(calls) {
        let _ = call.on_state(&mut done);
        longest = longest.max(done.file_len as usize);
    }
    let (grown, used) = (longest - file.len(), done.used as usize);
    let steps = [Kind::Undo, Kind::Redo, Kind::Forget(1), Kind::Undo].map(Call::step);
    let journals = (0..=used + more).map(|room| (grown + more, room));
    let files = (0..=grown + more).map(|room| (room, used));
    journals
        .chain(files)
        .map(|(file_more, journal_room)| {
            Case::Edits(List {
                start: buffers(file, file_more, journal_room, random),
                old_calls: old_calls.to_vec(),
                calls: [calls, &steps].concat(),
            })
        })
        .collect()
}
