//! Many edits in one call: the requests, their list, and what the call answers.

use crate::records::{four, put};
use crate::Refusal;

/// The most bytes that a list of requests may have.
pub const LIST_BOUND: usize = 65_536;

/// An edit that is asked for. The key is asked with its postfix (`Name` or `Name[de]`).
#[derive(Debug, Clone, Copy, PartialEq, Eq)]
pub enum Request<'a> {
    Set {
        group: &'a [u8],
        key: &'a [u8],
        text: &'a [u8],
    },
    Remove {
        group: &'a [u8],
        key: &'a [u8],
    },
}

/// How many requests were done, and the refusal of the one that stopped the rest, or of the file, the journal or the list, with
/// none done.
#[derive(Debug, Clone, Copy, PartialEq, Eq)]
pub struct Batch {
    pub done: u64,
    pub stopped: Option<Refusal>,
}

/// The list that [`crate::Buffers::batch`] takes: a record of the kind 5 for each set and of the kind 6 for each remove, with
/// group, key and text each behind its length (4 bytes, little-endian). One over [`LIST_BOUND`] is refused (14).
pub fn requests_of(requests: &[Request<'_>]) -> Vec<u8> {
    let mut list = Vec::new();
    for request in requests {
        match request {
            Request::Set { group, key, text } => put(&mut list, 5, &fields(&[group, key, text])),
            Request::Remove { group, key } => put(&mut list, 6, &fields(&[group, key])),
        }
    }
    list
}

/// Each field behind its length.
fn fields(fields: &[&[u8]]) -> Vec<u8> {
    let mut bytes = Vec::new();
    for field in fields {
        bytes.extend(four(field.len()));
        bytes.extend(*field);
    }
    bytes
}
