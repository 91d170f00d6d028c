//! A second, independent reading of paper 01, and of A1, A3, A4, A6, A9 and A10 of paper 02, in plain Rust, to compare answers
//! with. It follows the sentences of the papers one by one and does not try to be fast.

#![forbid(unsafe_code)]

mod actions;
mod book;
mod choice;
mod classes;
mod edit;
mod exec;
mod file;
mod journal;
pub mod lines;
mod locale;
mod records;
mod refusal;
mod requests;
pub mod text;

pub use actions::{action_group, action_runs, actions, expand_action, listed};
pub use book::Book;
pub use choice::{candidates, choose, strip_encoding};
pub use exec::{expand, runs};
pub use file::{check, complete, lookup};
pub use journal::{batch, forget, person, redo, remove, set, undo, Batch, State};
pub use records::RecordKind;
pub use refusal::Refusal;
pub use requests::{read_requests, Request};
pub use text::{read_list, read_text, write_text};
