//! Journals: buffers with an empty one, and records as bytes.

use reference::{RecordKind, State};

use crate::random::Random;

/// A file with room behind it and an empty journal; what is not the file holds a pattern.
pub fn buffers(file: &[u8], file_more: usize, journal_room: usize, random: &mut Random) -> State {
    let first = random.below(256);
    let pattern = |length: usize| (0..length).map(move |at| (first + at * 167) as u8);
    State {
        file: file.iter().copied().chain(pattern(file_more)).collect(),
        file_len: file.len() as u64,
        journal: pattern(journal_room).collect(),
        used: 0,
        standing: 0,
    }
}

/// Where the records of journal bytes start, by their lengths, and where the last ends.
pub fn records(used: &[u8]) -> Vec<usize> {
    let mut starts = vec![0];
    let mut at = 0;
    while let Some(length) = used[at..].first_chunk() {
        let length = u32::from_le_bytes(*length) as usize;
        if length == 0 || length > used.len() - at {
            break;
        }
        at += length;
        starts.push(at);
    }
    starts
}

/// How many records these first bytes of a journal have, by their lengths.
pub fn count(journal: &[u8], bytes: u64) -> u64 {
    let bytes = journal.len().min(bytes as usize);
    records(&journal[..bytes]).len() as u64 - 1
}

/// A journal's record.
pub fn record(kind: RecordKind, place: usize, old: &[u8], new: &[u8]) -> Vec<u8> {
    let front = match kind {
        RecordKind::One => vec![1, 0],
        RecordKind::Four(person) => [[4, 0], person.to_le_bytes()].concat(),
    };
    let length = 16 + front.len() + old.len() + new.len();
    let four = |number: usize| (number as u32).to_le_bytes();
    let head = [four(place), four(old.len()), four(new.len())];
    [&four(length)[..], &front, &head.concat(), old, new].concat()
}
