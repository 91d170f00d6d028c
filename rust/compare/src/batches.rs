//! Makes batches, with right lists and with wrong ones: of some names, and alone on a state.

use reference::State;

use crate::bounds::{FILE_BOUND, JOURNAL_BOUND, LIST_BOUND};
use crate::case::Case;
use crate::edits::{list_of, Call, List};
use crate::files::{self, Ask};
use crate::journals;
use crate::pieces;
use crate::random::Random;
use crate::requests::{first_record, record};
use crate::singles;

/// The file of [`long`].
const SHORT_FILE: &[u8] = b"[Desktop Entry]\nName=a\nName[de]=b\n[X]\nName=c";

/// A batch of a few requests or none, which share these names; once in `spoilt` there is something wrong with its list.
pub fn of_names(asks: &[Ask], spoilt: usize, random: &mut Random) -> Call {
    let count = match random.below(8) {
        0 => 0,
        1..=4 => random.within(1, 3),
        _ => random.within(2, 8),
    };
    let singles: Vec<Call> = (0..count).map(|_| singles::single(asks, random)).collect();
    let mut requests = list_of(&singles);
    if random.once_in(spoilt) {
        spoil(&mut requests, random);
    }
    Call::batch(singles::person(random), requests)
}

/// A single batch on a state, with names of its file.
fn on_state(state: State, spoilt: usize, random: &mut Random) -> Case {
    let room = state.file.len().min(state.file_len as usize);
    let asks: Vec<Ask> = (0..random.within(1, 5))
        .map(|_| files::ask(&state.file[..room], random))
        .collect();
    let batch = of_names(&asks, spoilt, random);
    alone(state, batch)
}

fn alone(start: State, call: Call) -> Case {
    Case::Edits(List {
        start,
        old_calls: Vec::new(),
        calls: vec![call],
    })
}

/// A batch on a state; its list is mostly right.
pub fn batch_in(state: State, random: &mut Random) -> Case {
    on_state(state, 10, random)
}

/// A batch on a state; its list is mostly wrong.
pub fn spoilt_batch_in(state: State, random: &mut Random) -> Case {
    on_state(state, 1, random)
}

/// A batch on a file with something wrong in it.
pub fn on_bad_file(random: &mut Random) -> Case {
    let mut file = files::sound(random, 3, 4);
    files::spoil(&mut file, random);
    let more = random.within(0, 60);
    let start = journals::buffers(&file, more, 200, random);
    on_state(start, 4, random)
}

/// A batch on a file whose length is at the bound or close to it.
pub fn near_file_bound(random: &mut Random) -> Case {
    let file = files::near_bound(random);
    let more = random.below(40);
    let start = journals::buffers(&file, more, JOURNAL_BOUND, random);
    on_state(start, 10, random)
}

/// A batch whose edits have room, but for a byte or two, or for some of them, in one buffer or in both.
pub fn tight(random: &mut Random) -> Case {
    let file = files::sound(random, 3, 4);
    let asks: Vec<Ask> = (0..4).map(|_| files::ask(&file, random)).collect();
    let singles: Vec<Call> = (0..random.within(2, 8))
        .map(|_| singles::single(&asks, random))
        .collect();
    let mut roomy = journals::buffers(&file, 10_000, 20_000, random);
    let mut longest = 0;
    for single in &singles {
        if single.on_state(&mut roomy).is_err() {
            break;
        }
        longest = longest.max((roomy.file_len as usize).saturating_sub(file.len()));
    }
    let mut room = |needed: usize| match random.below(4) {
        0 => random.within(0, needed),
        1 => needed.saturating_sub(random.within(1, 2)),
        _ => needed + random.below(3),
    };
    let rooms = (room(longest), room(roomy.used as usize));
    let start = journals::buffers(&file, rooms.0, rooms.1, random);
    let person = singles::person(random);
    alone(start, Call::batch(person, list_of(&singles)))
}

/// A batch with a list of almost 65,536 bytes, of just so many or of more, in buffers with room for all edits or for some.
pub fn long(random: &mut Random) -> Case {
    let length = match random.below(3) {
        0 => random.within(60_000, LIST_BOUND),
        _ => random.within(LIST_BOUND - 2, LIST_BOUND + 2),
    };
    let rooms = [
        (FILE_BOUND, JOURNAL_BOUND),
        (FILE_BOUND, 90_000),
        (2_000, JOURNAL_BOUND),
        (9_000, 30_000),
    ];
    let (file_room, journal_room) = rooms[random.below(rooms.len())];
    let more = file_room - SHORT_FILE.len();
    let mut start = journals::buffers(SHORT_FILE, more, journal_room, random);
    // From here on there is no book, which would take long.
    let _ = Call::set("Name", b"b").on_state(&mut start);
    let list = list_of_length(length, random);
    alone(start, Call::batch(singles::person(random), list))
}

/// A list of so many bytes, of short requests or of long ones; now and then one that is refused is among them.
fn list_of_length(length: usize, random: &mut Random) -> Vec<u8> {
    let longest = [6, 60, 600, 600, 6_000, 6_000][random.below(6)];
    let requests = length / (longest + 40);
    let names: [[&[u8]; 2]; 3] = [
        [b"Desktop Entry", b"Name"],
        [b"Desktop Entry", b"Name[de]"],
        [b"X", b"Name"],
    ];
    let mut list = Vec::new();
    while length - list.len() > 2 * longest + 100 {
        let [group, key] = names[random.below(3)];
        let text = vec![random.byte_of(b"abc"); random.within(0, longest)];
        list.extend(match random.once_in(4 * requests) {
            true => record(6, &[group, b"Icon"]),
            false => record(5, &[group, key, &text]),
        });
    }
    let last = |text: &[u8]| record(5, &[b"X", b"Name", text]);
    let left = length - list.len() - last(b"").len();
    list.extend(last(&vec![b'd'; left]));
    list
}

/// Puts something wrong into a list: a byte, a kind, one length or two, a wrong record, bytes too many or too few.
fn spoil(list: &mut Vec<u8>, random: &mut Random) {
    let starts = journals::records(list);
    let start = starts[random.below(starts.len())];
    let lengths = lengths(list, start);
    match random.below(12) {
        0 => list.truncate(random.within(0, list.len())),
        1 if random.once_in(2) => list.extend(vec![0; random.within(1, 12)]),
        1 => list.extend(pieces::wild(random, 8)),
        2 if !list.is_empty() => {
            let at = random.below(list.len());
            list[at] = random.number() as u8;
        }
        3 | 4 if !lengths.is_empty() => {
            let kind = any_kind(random);
            list[start + 4..start + 6].copy_from_slice(&kind.to_le_bytes());
        }
        5..=7 if !lengths.is_empty() => {
            let at = lengths[random.below(lengths.len())];
            change(list, at, |right| odd(right, random));
        }
        // Their sum stays, or wraps.
        8 if lengths.len() > 1 => {
            let [one, two] = [(); 2].map(|()| lengths[random.below(lengths.len())]);
            let by = odd(0, random);
            change(list, one, |length| length.wrapping_add(by));
            change(list, two, |length| length.wrapping_sub(by));
        }
        9 if random.once_in(20) => {
            let text = vec![b'x'; LIST_BOUND - random.below(60)];
            list.extend(record(5, &[b"Desktop Entry", b"Name", &text]));
        }
        10 => drop(list.splice(start..start, wrapped(random))),
        _ => {
            let fields: [&[u8]; 4] = [b"Desktop Entry", b"Name", b"a", b""];
            let other = record(any_kind(random), &fields[..random.within(0, 4)]);
            list.splice(start..start, other);
        }
    }
}

/// A kind of a record, seldom one of a request.
fn any_kind(random: &mut Random) -> u16 {
    [0, 1, 2, 3, 4, 5, 6, 7, 0x105, 0x106, 0x500, 0x600][random.below(12)]
}

/// A length that is wrong by a little or by much.
fn odd(right: u32, random: &mut Random) -> u32 {
    let by = random.within(1, 40) as u32;
    match random.below(6) {
        0 => random.below(40) as u32,
        1 => u32::MAX - random.below(40) as u32,
        2 => 1 << [8, 16, 24, 31][random.below(4)],
        3 => right.wrapping_sub(by),
        _ => right.wrapping_add(by),
    }
}

/// Where the lengths of a record stand: its own and those of its fields, as far as they lead. None at the end of the list.
fn lengths(list: &[u8], start: usize) -> Vec<usize> {
    let Some(record) = first_record(&list[start..]) else {
        return Vec::new();
    };
    let mut lengths = vec![start];
    let mut at = 6;
    while at + 4 <= record.len() {
        lengths.push(start + at);
        at += 4 + four(record, at) as usize;
    }
    lengths
}

fn four(list: &[u8], at: usize) -> u32 {
    let bytes = list[at..].first_chunk();
    bytes.map_or(0, |bytes| u32::from_le_bytes(*bytes))
}

fn change(list: &mut [u8], at: usize, other: impl FnOnce(u32) -> u32) {
    let other = other(four(list, at));
    list[at..at + 4].copy_from_slice(&other.to_le_bytes());
}

/// A record of the kind 5 whose key has a length that leads back into the group, for one who reckons with 4 bytes; there stands
/// a length that fits.
fn wrapped(random: &mut Random) -> Vec<u8> {
    let group = vec![0; random.within(4, 20)];
    let mut wrapped = record(5, &[&group, &pieces::wild(random, 9)]);
    let key = 10 + group.len();
    let back = 10 + random.below(group.len() - 3);
    let left = (wrapped.len() - back - 4) as u32;
    change(&mut wrapped, key, |_| {
        (back as u32).wrapping_sub(key as u32 + 4)
    });
    change(&mut wrapped, back, |_| left);
    wrapped
}
