//! The names under which forgets and batches are counted: what is wrong with the state or with the list, and of a forget how
//! many are to go.

use reference::State;

use crate::bounds::{JOURNAL_BOUND, LIST_BOUND};
use crate::journals;
use crate::requests::{ends, fills_by_4_bytes, first_record};

/// What is wrong with the numbers of a journal, or with its records.
enum Wrong {
    UsedOverRoom,
    UsedOverBound,
    StandingOverUsed,
    Records,
    StandingInside,
}

impl Wrong {
    /// What is wrong with the journal of a state.
    fn of(state: &State) -> Option<Wrong> {
        let (used, standing) = (state.used, state.standing);
        let is_14 = |standing| {
            let told = reference::person(&state.journal, used, standing, 0);
            told.is_err_and(|refusal| refusal.number == 14)
        };
        if used > state.journal.len() as u64 {
            return Some(Wrong::UsedOverRoom);
        }
        if used > JOURNAL_BOUND as u64 {
            return Some(Wrong::UsedOverBound);
        }
        if standing > used {
            return Some(Wrong::StandingOverUsed);
        }
        if is_14(0) {
            return Some(Wrong::Records);
        }
        is_14(standing).then_some(Wrong::StandingInside)
    }
}

/// The name under which a forget on such a state is counted: what is wrong with the state, or how many are to go.
pub(crate) fn forget_of(k: u64, state: &State) -> &'static str {
    if let Some(wrong) = Wrong::of(state) {
        return match wrong {
            Wrong::UsedOverRoom => "forget, used over the room",
            Wrong::UsedOverBound => "forget, used over the bound",
            Wrong::StandingOverUsed => "forget, standing over used",
            Wrong::Records => "forget, damaged records",
            Wrong::StandingInside => "forget, standing inside a record",
        };
    }
    let (used, standing) = (state.used, state.standing);
    let count = |bytes| journals::count(&state.journal, bytes);
    match (k, count(standing)) {
        (0, _) => "forget none",
        (k, _) if k > count(used) => "forget more than there are",
        (k, stand) if k > stand => "forget some that wait",
        (k, stand) if k == stand => "forget all that stand",
        _ => "forget some that stand",
    }
}

/// The name under which a batch is counted that is refused for the state or the list, with nothing done.
pub(crate) fn fault_of(state: &State, list: &[u8]) -> Option<&'static str> {
    if state.file_len > state.file.len() as u64 {
        return Some("batch, file over the room");
    }
    let wrong = match Wrong::of(state) {
        Some(Wrong::UsedOverRoom) => return Some("batch, used over the room"),
        Some(Wrong::UsedOverBound) => return Some("batch, used over the bound"),
        Some(Wrong::StandingOverUsed) => return Some("batch, standing over used"),
        Some(Wrong::Records) => Some("batch, damaged records"),
        Some(Wrong::StandingInside) => Some("batch, standing inside a record"),
        None => None,
    };
    if reference::check(&state.file[..state.file_len as usize]).is_err() {
        return Some(match list {
            [] => "batch, empty on a bad file",
            _ => "batch on a bad file",
        });
    }
    wrong.or_else(|| list_fault(list))
}

/// The name of a list's first fault.
fn list_fault(list: &[u8]) -> Option<&'static str> {
    if list.len() > LIST_BOUND {
        return Some("batch, list over the bound");
    }
    let mut rest = list;
    while !rest.is_empty() {
        let Some(record) = first_record(rest) else {
            return Some("batch, list not filled");
        };
        let fields = match u16::from_le_bytes([record[4], record[5]]) {
            5 => 3,
            6 => 2,
            _ => return Some("batch, another kind"),
        };
        if ends(record, fields) != Some(record.len() as u64) {
            return Some(match fills_by_4_bytes(record, fields) {
                true => "batch, inner lengths that wrap",
                false => "batch, inner lengths",
            });
        }
        rest = &rest[record.len()..];
    }
    None
}
