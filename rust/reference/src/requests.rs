//! Paper 01, "Edits and the journal": what a set or remove asks for. Paper 02, A4: lists of such requests, in records of kinds
//! 5 and 6.

use crate::records::{read_4, split_list};

/// "A set with group, key and text, a remove with group and key."
#[derive(Debug, Clone, PartialEq, Eq)]
pub enum Request {
    Set {
        group: Vec<u8>,
        key: Vec<u8>,
        text: Vec<u8>,
    },
    Remove {
        group: Vec<u8>,
        key: Vec<u8>,
    },
}

/// The requests of a list, "(5 set, 6 remove)"; none if it is damaged.
pub fn read_requests(list: &[u8]) -> Option<Vec<Request>> {
    let request = |(kind, bytes)| read_request(kind, bytes);
    split_list(list)?.into_iter().map(request).collect()
}

/// "Then group, key with postfix and, for 5, the text, each after its own 4-byte length."
fn read_request(kind: u16, mut rest: &[u8]) -> Option<Request> {
    let mut fields = Vec::new();
    while !rest.is_empty() {
        let length = usize::try_from(read_4(rest, 0)?).ok()?;
        let field = rest[4..].get(..length)?;
        fields.push(field.to_vec());
        rest = &rest[4 + length..];
    }
    match (kind, &fields[..]) {
        (5, [group, key, text]) => Some(Request::Set {
            group: group.clone(),
            key: key.clone(),
            text: text.clone(),
        }),
        (6, [group, key]) => Some(Request::Remove {
            group: group.clone(),
            key: key.clone(),
        }),
        _ => None,
    }
}
