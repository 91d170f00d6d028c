//! Paper 01, "Building a command" (records of kinds 2 and 3) and "Edits and the journal" (of kind 1); paper 02, A9 (of kind 4).

use crate::refusal::{Refusal, RECORDS_BOUND};

/// Length and kind, before the bytes of a record.
const HEAD: usize = 6;

/// The kind of a journal record: 1, as 01's calls write it, or 4, which "carries a person number".
#[derive(Debug, Clone, Copy, PartialEq, Eq)]
pub enum RecordKind {
    One,
    Four(u16),
}

impl RecordKind {
    /// "20 plus both lengths" for kind 4, 18 for kind 1: the bytes that are neither old nor new.
    pub fn head(self) -> usize {
        match self {
            RecordKind::One => 18,
            RecordKind::Four(_) => 20,
        }
    }

    /// "Old journals with kind 1 stay readable as person 0."
    pub fn person(self) -> u16 {
        match self {
            RecordKind::One => 0,
            RecordKind::Four(person) => person,
        }
    }
}

/// A journal record: its two ends in the journal, its kind, the place in the file, and the old and new bytes.
pub struct Record<'a> {
    pub start: usize,
    pub end: usize,
    pub kind: RecordKind,
    pub place: u64,
    pub old: &'a [u8],
    pub new: &'a [u8],
}

/// A little-endian number of 2 bytes.
fn read_2(bytes: &[u8], at: usize) -> Option<u16> {
    let part = bytes.get(at..)?.first_chunk::<2>()?;
    Some(u16::from_le_bytes(*part))
}

/// A little-endian number of 4 bytes.
pub fn read_4(bytes: &[u8], at: usize) -> Option<u32> {
    let part = bytes.get(at..)?.first_chunk::<4>()?;
    Some(u32::from_le_bytes(*part))
}

/// "Length of the whole (4), kind 2 (2), then the bytes", filling the list; none if it is damaged.
pub fn read_records(list: &[u8], kind: u16) -> Option<Vec<&[u8]>> {
    let of_kind = |(other, bytes)| (other == kind).then_some(bytes);
    split_list(list)?.into_iter().map(of_kind).collect()
}

/// The kind and the bytes of each record of a list. "A list over 65,536 bytes or not filled exactly by its records is damaged":
/// then none.
pub fn split_list(list: &[u8]) -> Option<Vec<(u16, &[u8])>> {
    if list.len() as u64 > RECORDS_BOUND {
        return None;
    }
    let mut records = Vec::new();
    let mut rest = list;
    while !rest.is_empty() {
        let length = usize::try_from(read_4(rest, 0)?).ok()?;
        let kind = read_2(rest, 4)?;
        if length < HEAD || length > rest.len() {
            return None;
        }
        records.push((kind, &rest[HEAD..length]));
        rest = &rest[length..];
    }
    Some(records)
}

/// Records of one kind, "one after another from the start of the lent output"; 11 if they do not fit.
pub fn write_records(kind: u16, items: &[Vec<u8>], out: &mut [u8]) -> Result<usize, Refusal> {
    let mut total: u128 = 0;
    for item in items {
        let length = item.len() as u128 + HEAD as u128;
        if length > u128::from(u32::MAX) {
            return Err(Refusal::new(11));
        }
        total += length;
    }
    if total > out.len() as u128 {
        return Err(Refusal::new(11));
    }
    let mut at = 0;
    for item in items {
        let end = at + HEAD + item.len();
        let record = &mut out[at..end];
        record[..4].copy_from_slice(&((end - at) as u32).to_le_bytes());
        record[4..HEAD].copy_from_slice(&kind.to_le_bytes());
        record[HEAD..].copy_from_slice(item);
        at = end;
    }
    Ok(at)
}

/// The records of the used journal bytes, in order; none if it "is damaged (14)", but for the standing number.
pub fn read_journal(used: &[u8]) -> Option<Vec<Record<'_>>> {
    let mut records = Vec::new();
    let mut start = 0;
    while start < used.len() {
        let rest = &used[start..];
        let length = u64::from(read_4(rest, 0)?);
        let kind = match read_2(rest, 4)? {
            1 => RecordKind::One,
            4 => RecordKind::Four(read_2(rest, 6)?),
            _ => return None,
        };
        let head = kind.head();
        let place = u64::from(read_4(rest, head - 12)?);
        let old_length = u64::from(read_4(rest, head - 8)?);
        let new_length = u64::from(read_4(rest, head - 4)?);
        if length != head as u64 + old_length + new_length || length > rest.len() as u64 {
            return None;
        }
        let middle = head + old_length as usize;
        let length = length as usize;
        records.push(Record {
            start,
            end: start + length,
            kind,
            place,
            old: &rest[head..middle],
            new: &rest[middle..length],
        });
        start += length;
    }
    Some(records)
}

/// "A record: length of the whole record, kind 1, place in the file, old length, new length …"; in kind 4 the person is
/// "two bytes between kind and place".
pub fn write_journal_record(kind: RecordKind, place: u32, old: &[u8], new: &[u8]) -> Vec<u8> {
    let length = kind.head() + old.len() + new.len();
    let mut record = Vec::new();
    record.extend((length as u32).to_le_bytes());
    match kind {
        RecordKind::One => record.extend(1u16.to_le_bytes()),
        RecordKind::Four(person) => {
            record.extend(4u16.to_le_bytes());
            record.extend(person.to_le_bytes());
        }
    }
    record.extend(place.to_le_bytes());
    record.extend((old.len() as u32).to_le_bytes());
    record.extend((new.len() as u32).to_le_bytes());
    record.extend(old);
    record.extend(new);
    record
}
