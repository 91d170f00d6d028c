//! Paper 01, "Edits and the journal": set, remove, undo and redo over the lent buffers. Paper 02, A4: many requests at once; A9:
//! who made an edit; A10: forgetting the oldest edits.

use crate::edit::{edit_within, replace};
use crate::file::check;
use crate::records::{read_journal, write_journal_record, Record, RecordKind};
use crate::refusal::{Refusal, FILE_BOUND, RECORDS_BOUND};
use crate::requests::{read_requests, Request};

/// The two lent buffers, the file's length, and the journal's two numbers: bytes used and bytes standing.
#[derive(Debug, Clone, PartialEq, Eq)]
pub struct State {
    pub file: Vec<u8>,
    pub file_len: u64,
    pub journal: Vec<u8>,
    pub used: u64,
    pub standing: u64,
}

/// Set: the value of a key with its postfix becomes the text. The record is of this kind: 1 in 01's calls, 4 in A9's.
pub fn set(
    s: &mut State,
    kind: RecordKind,
    group: &[u8],
    key: &[u8],
    text: &[u8],
) -> Result<(), Refusal> {
    let request = Request::Set {
        group: group.to_vec(),
        key: key.to_vec(),
        text: text.to_vec(),
    };
    perform(s, kind, &request)
}

/// Remove: the line of a key with its postfix goes. The record is of this kind, as in [`set`].
pub fn remove(s: &mut State, kind: RecordKind, group: &[u8], key: &[u8]) -> Result<(), Refusal> {
    let request = Request::Remove {
        group: group.to_vec(),
        key: key.to_vec(),
    };
    perform(s, kind, &request)
}

/// "The answer tells how many were done", and a refusal is "reported with the number done".
#[derive(Debug, Clone, Copy, PartialEq, Eq)]
pub struct Batch {
    pub done: u64,
    pub stopped: Option<Refusal>,
}

/// "One call shall take a list of set and remove requests and do exactly what the single calls would do in turn, stopping at the
/// first refused one"; "a batch one [person] for all".
pub fn batch(s: &mut State, person: u16, list: &[u8]) -> Batch {
    let mut done = 0;
    let told = in_turn(s, RecordKind::Four(person), list, &mut done);
    Batch {
        done,
        stopped: told.err(),
    }
}

/// "Faults of lengths, file, journal and list (14) come first, even for an empty list, with nothing done; else the stopped
/// request's own."
fn in_turn(s: &mut State, kind: RecordKind, list: &[u8], done: &mut u64) -> Result<(), Refusal> {
    sound(s)?;
    for request in read_requests(list).ok_or(Refusal::new(14))? {
        perform(s, kind, &request)?;
        *done += 1;
    }
    Ok(())
}

/// "A set or remove writes at standing; both numbers are then its record's end."
fn perform(s: &mut State, kind: RecordKind, request: &Request) -> Result<(), Refusal> {
    let (file, _) = sound(s)?;
    let (file_room, journal_room) = (s.file.len(), s.journal.len());
    let edit = edit_within(file, kind, request, file_room, journal_room, s.standing)?;
    let result = edit.apply(file);
    let record = write_journal_record(kind, edit.place as u32, &edit.old, &edit.new);
    let start = s.standing as usize;
    let end = start + record.len();
    s.journal[start..end].copy_from_slice(&record);
    s.used = end as u64;
    s.standing = end as u64;
    put_file(s, &result);
    Ok(())
}

/// Undo: the record that ends at standing, its new bytes replaced by its old; 12 if nothing stands.
pub fn undo(s: &mut State) -> Result<(), Refusal> {
    let (file, records) = sound(s)?;
    let ends_there = |record: &&Record| record.end as u64 == s.standing;
    let record = records.iter().find(ends_there).ok_or(Refusal::new(12))?;
    let result = exchange(file, record.place, record.new, record.old, s.file.len())?;
    s.standing = record.start as u64;
    put_file(s, &result);
    Ok(())
}

/// Redo: the record that starts at standing, its old bytes replaced by its new; 12 if nothing waits.
pub fn redo(s: &mut State) -> Result<(), Refusal> {
    let (file, records) = sound(s)?;
    let starts_there = |record: &&Record| record.start as u64 == s.standing;
    let record = records.iter().find(starts_there).ok_or(Refusal::new(12))?;
    let result = exchange(file, record.place, record.old, record.new, s.file.len())?;
    s.standing = record.end as u64;
    put_file(s, &result);
    Ok(())
}

/// "A call tells the person of record n, from 0, standing or waiting; without such a record it is 12."
pub fn person(journal: &[u8], used: u64, standing: u64, n: u64) -> Result<u16, Refusal> {
    lengths_fit(journal, used, standing)?;
    let records = sound_records(journal, used, standing)?;
    let nth = usize::try_from(n).ok().and_then(|n| records.get(n));
    nth.map(|record| record.kind.person())
        .ok_or(Refusal::new(12))
}

/// "A call shall forget the oldest k standing edits"; "k above the number standing is 12".
pub fn forget(
    journal: &mut [u8],
    used: &mut u64,
    standing: &mut u64,
    k: u64,
) -> Result<(), Refusal> {
    lengths_fit(journal, *used, *standing)?;
    let records = sound_records(journal, *used, *standing)?;
    let stands = |record: &&Record| record.end as u64 <= *standing;
    if k > records.iter().filter(stands).count() as u64 {
        return Err(Refusal::new(12));
    }
    // "Their records go, the others move to the front unchanged": these are written once more, one behind another.
    let others = records[k as usize..].iter();
    let others = others.flat_map(|record| {
        write_journal_record(record.kind, record.place as u32, record.old, record.new)
    });
    let others: Vec<u8> = others.collect();
    // "Freed places up to the old used length become zero."
    let (front, freed) = journal[..*used as usize].split_at_mut(others.len());
    front.copy_from_slice(&others);
    freed.fill(0);
    *used -= freed.len() as u64;
    *standing -= freed.len() as u64;
    Ok(())
}

/// The file and the records, after "lengths (14)", 1 to 6 of the file, and the "journal (14)".
fn sound(s: &State) -> Result<(&[u8], Vec<Record<'_>>), Refusal> {
    if s.file_len > s.file.len() as u64 {
        return Err(Refusal::new(14));
    }
    lengths_fit(&s.journal, s.used, s.standing)?;
    let file = &s.file[..s.file_len as usize];
    check(file)?;
    Ok((file, sound_records(&s.journal, s.used, s.standing)?))
}

/// "Lengths (14)", those of the journal.
fn lengths_fit(journal: &[u8], used: u64, standing: u64) -> Result<(), Refusal> {
    if used > journal.len() as u64 || used > RECORDS_BOUND || used < standing {
        return Err(Refusal::new(14));
    }
    Ok(())
}

/// The records of a journal whose lengths fit; "journal (14)".
fn sound_records(journal: &[u8], used: u64, standing: u64) -> Result<Vec<Record<'_>>, Refusal> {
    let records = read_journal(&journal[..used as usize]).ok_or(Refusal::new(14))?;
    let boundary = |record: &Record| record.end as u64 == standing;
    if standing != 0 && !records.iter().any(boundary) {
        return Err(Refusal::new(14));
    }
    Ok(records)
}

/// Undo and redo "ask in turn": the bytes at the place (14), room (11), the result well formed (14).
fn exchange(
    file: &[u8],
    place: u64,
    from: &[u8],
    to: &[u8],
    room: usize,
) -> Result<Vec<u8>, Refusal> {
    if place + from.len() as u64 > file.len() as u64 {
        return Err(Refusal::new(14));
    }
    let place = place as usize;
    if &file[place..place + from.len()] != from {
        return Err(Refusal::new(14));
    }
    let result = replace(file, place, from.len(), to);
    if result.len() as u64 > FILE_BOUND.min(room as u64) {
        return Err(Refusal::new(11));
    }
    if check(&result).is_err() {
        return Err(Refusal::new(14));
    }
    Ok(result)
}

/// "A file that shrinks has zeros up to its old length; bytes past both lengths keep theirs."
fn put_file(s: &mut State, result: &[u8]) {
    let old_length = s.file_len as usize;
    s.file[..result.len()].copy_from_slice(result);
    if result.len() < old_length {
        s.file[result.len()..old_length].fill(0);
    }
    s.file_len = result.len() as u64;
}
