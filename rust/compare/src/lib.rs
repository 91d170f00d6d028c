//! Compares the proved library with `reference`, the second implementation: the same questions, the same answers, byte
//! for byte. `tests/` says which questions are asked and how many; this is what those tests share.

pub mod actions;
pub mod asker;
pub mod batches;
pub mod bounds;
pub mod calls;
pub mod case;
pub mod edits;
pub mod encodings;
pub mod expand;
pub mod files;
pub mod journals;
pub mod lent;
pub mod lists;
pub mod outcomes;
pub mod persons;
pub mod pieces;
pub mod random;
pub mod requests;
pub mod run;
pub mod singles;
