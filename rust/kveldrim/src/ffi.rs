//! The C interface, as `include/kveldrim.h` declares it. The safe functions of this crate stand over it.
//!
//! Every call: the result is the refusal's number, 0 if accepted; `place` and `byte` are always written, each other number
//! only if accepted; no lent byte changes on a refusal. [`kveldrim_batch`] alone does otherwise: its numbers are always
//! written, and a refusal may leave earlier edits done. An empty slice may have any pointer.

pub use crate::expand::{kveldrim_expand, kveldrim_expand_action};

/// The number of the C interface that is declared here; [`kveldrim_abi`] tells that of the library.
pub const ABI: u32 = 5;

/// A call that asks of a file: the file, its length, place, byte.
pub type FileCall = unsafe extern "C" fn(*const u8, usize, *mut u64, *mut u64) -> u32;

/// A call that reads bytes and writes others: input, its length, output, its length, place, bytes written.
pub type OutputCall =
    unsafe extern "C" fn(*const u8, usize, *mut u8, usize, *mut u64, *mut u64) -> u32;

extern "C" {
    pub fn kveldrim_abi() -> u32;

    pub fn kveldrim_check(file: *const u8, file_len: usize, place: *mut u64, byte: *mut u64)
        -> u32;

    pub fn kveldrim_complete(
        file: *const u8,
        file_len: usize,
        place: *mut u64,
        byte: *mut u64,
    ) -> u32;

    pub fn kveldrim_lookup(
        file: *const u8,
        file_len: usize,
        group: *const u8,
        group_len: usize,
        key: *const u8,
        key_len: usize,
        place: *mut u64,
        byte: *mut u64,
        from: *mut u64,
        to: *mut u64,
    ) -> u32;

    pub fn kveldrim_choose(
        file: *const u8,
        file_len: usize,
        group: *const u8,
        group_len: usize,
        key: *const u8,
        key_len: usize,
        locale: *const u8,
        locale_len: usize,
        place: *mut u64,
        byte: *mut u64,
        from: *mut u64,
        to: *mut u64,
    ) -> u32;

    pub fn kveldrim_actions(
        file: *const u8,
        file_len: usize,
        locale: *const u8,
        locale_len: usize,
        out: *mut u8,
        out_len: usize,
        place: *mut u64,
        byte: *mut u64,
        written: *mut u64,
    ) -> u32;

    pub fn kveldrim_person(
        journal: *const u8,
        journal_room: usize,
        used: u64,
        standing: u64,
        n: u64,
        place: *mut u64,
        person: *mut u16,
    ) -> u32;

    pub fn kveldrim_forget(
        journal: *mut u8,
        journal_room: usize,
        used: *mut u64,
        standing: *mut u64,
        k: u64,
        place: *mut u64,
    ) -> u32;
}

/// Declares calls of the type [`OutputCall`].
macro_rules! output_calls {
    ($($name:ident)*) => {
        extern "C" {
            $(pub fn $name(
                input: *const u8,
                input_len: usize,
                out: *mut u8,
                out_len: usize,
                place: *mut u64,
                written: *mut u64,
            ) -> u32;)*
        }
    };
}

output_calls! { kveldrim_read_text kveldrim_write_text kveldrim_read_list }

/// Declares calls that edit: the two buffers with their numbers, which go in and come out, the arguments, place, byte, and a
/// further number if there is one.
macro_rules! edit_calls {
    ($($name:ident($($argument:ident: $type:ty),* $(; $number:ident)?))*) => {
        extern "C" {
            $(pub fn $name(
                file: *mut u8,
                file_room: usize,
                file_len: *mut u64,
                journal: *mut u8,
                journal_room: usize,
                used: *mut u64,
                standing: *mut u64,
                $($argument: $type,)*
                place: *mut u64,
                byte: *mut u64,
                $($number: *mut u64,)?
            ) -> u32;)*
        }
    };
}

edit_calls! {
    kveldrim_set(
        person: u16,
        group: *const u8,
        group_len: usize,
        key: *const u8,
        key_len: usize,
        text: *const u8,
        text_len: usize
    )
    kveldrim_remove(person: u16, group: *const u8, group_len: usize, key: *const u8, key_len: usize)
    kveldrim_undo()
    kveldrim_redo()
    kveldrim_batch(person: u16, requests: *const u8, requests_len: usize; done)
}
