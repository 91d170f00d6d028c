//! Paper 01, "Edits and the journal", its first paragraph: the edit that a set or remove makes.

use crate::file::{find_asked, find_entry, find_group, read_groups, Entry};
use crate::lines::{is_group, split_key};
use crate::records::RecordKind;
use crate::refusal::{Refusal, FILE_BOUND, RECORDS_BOUND};
use crate::requests::Request;
use crate::text::escape;

/// "The old and new bytes are those replaced, inserted or removed", at a place in the file.
#[derive(Debug, Clone, PartialEq, Eq)]
pub struct Edit {
    pub place: usize,
    pub old: Vec<u8>,
    pub new: Vec<u8>,
}

impl Edit {
    /// The length of the edit's journal record, if that is of this kind.
    pub fn record_length(&self, kind: RecordKind) -> u64 {
        (kind.head() + self.old.len() + self.new.len()) as u64
    }

    /// The file after the edit.
    pub fn apply(&self, file: &[u8]) -> Vec<u8> {
        replace(file, self.place, self.old.len(), &self.new)
    }
}

/// The file with the bytes at a place, so many of them, replaced by others.
pub fn replace(file: &[u8], place: usize, length: usize, new: &[u8]) -> Vec<u8> {
    [&file[..place], new, &file[place + length..]].concat()
}

/// The edit a request makes with a record of this kind: 7, 10, 8, 6 for a set, 17, then 11 and 13 by the room there is.
pub fn edit_within(
    file: &[u8],
    kind: RecordKind,
    request: &Request,
    file_room: usize,
    journal_room: usize,
    standing: u64,
) -> Result<Edit, Refusal> {
    let edit = edit(file, request)?;
    let length = file.len() as u64 - edit.old.len() as u64 + edit.new.len() as u64;
    if length > FILE_BOUND.min(file_room as u64) {
        return Err(Refusal::new(11));
    }
    let standing = u128::from(standing) + u128::from(edit.record_length(kind));
    if standing > u128::from(RECORDS_BOUND.min(journal_room as u64)) {
        return Err(Refusal::new(13));
    }
    Ok(edit)
}

/// The edit a request makes in a file, whatever room there is: 7, 10, 8, 6 for a set, 17.
pub fn edit(file: &[u8], request: &Request) -> Result<Edit, Refusal> {
    match request {
        Request::Set { group, key, text } => set_edit(file, group, key, text),
        Request::Remove { group, key } => remove_edit(file, group, key),
    }
}

/// "Set, entry present: only the value bytes are replaced"; absent: `Key=value` goes in as a line of its group.
fn set_edit(file: &[u8], group: &[u8], key: &[u8], text: &[u8]) -> Result<Edit, Refusal> {
    if !is_group(group) {
        return Err(Refusal::new(7));
    }
    let (plain, postfix) = split_key(key).ok_or(Refusal::new(7))?;
    let value = escape(text)?;
    let groups = read_groups(file);
    let group = find_group(&groups, group).ok_or(Refusal::new(8))?;
    if postfix.is_some() && find_entry(group, plain, None).is_none() {
        return Err(Refusal::new(6));
    }
    if let Some(entry) = find_entry(group, plain, postfix) {
        return Ok(Edit {
            place: entry.value.0,
            old: file[entry.value.0..entry.value.1].to_vec(),
            new: value,
        });
    }
    // "After the LF of the group's last entry, or of its header."
    let end = match group.entries.last() {
        Some(entry) => entry.line.1,
        None => group.header.1,
    };
    if end < file.len() {
        return Ok(Edit {
            place: end + 1,
            old: Vec::new(),
            new: [key, b"=", &value, b"\n"].concat(),
        });
    }
    // "If that LF isn't there, LF and `Key=value` go in."
    Ok(Edit {
        place: file.len(),
        old: Vec::new(),
        new: [b"\n", key, b"=", &value].concat(),
    })
}

/// "Remove: the line goes with its LF; a last line without LF goes with the LF before it."
fn remove_edit(file: &[u8], group: &[u8], key: &[u8]) -> Result<Edit, Refusal> {
    let groups = read_groups(file);
    let (group, entry) = find_asked(&groups, group, key)?;
    let postfixed = |other: &Entry| other.key == entry.key && other.postfix.is_some();
    if entry.postfix.is_none() && group.entries.iter().any(postfixed) {
        return Err(Refusal::new(17));
    }
    // An entry stands below its header, so a line comes before it.
    let (start, end) = if entry.line.1 < file.len() {
        (entry.line.0, entry.line.1 + 1)
    } else {
        (entry.line.0.saturating_sub(1), entry.line.1)
    };
    Ok(Edit {
        place: start,
        old: file[start..end].to_vec(),
        new: Vec::new(),
    })
}
