//! Safe bindings over Kveldrim, the proved core for `.desktop` files (Desktop Entry Specification 1.5).
//!
//! A file is a slice of bytes; nothing is kept between calls. Every call gives its answer or a [`Refusal`], and a
//! refusal changes no byte of an output. [`Document`] edits a file with undo, makes many edits at once, tells who made an edit,
//! and forgets the oldest.
//!
//! ```
//! let file = b"[Desktop Entry]\nType=Application\nName=Read\nName[fr]=Lire\nExec=view %F\n";
//! assert_eq!(kveldrim::check(file), Ok(()));
//! assert_eq!(kveldrim::choose(file, kveldrim::DESKTOP_ENTRY, b"Name", b"fr_CA.UTF-8"), Ok(&b"Lire"[..]));
//! let refusal = kveldrim::check(b"[Desktop Entry]\nName\n").unwrap_err();
//! assert_eq!((refusal.kind, refusal.place, refusal.byte), (kveldrim::Kind::BadLine, 2, 4));
//! ```

mod actions;
mod batch;
mod edit;
mod expand;
pub mod ffi;
mod records;
mod refusal;

use std::ops::Range;

pub use actions::{actions, actions_vec, Action};
pub use batch::{requests_of, Batch, Request, LIST_BOUND};
pub use edit::{Buffers, Document, Edit, Edits, Numbers, Person, JOURNAL_BOUND};
pub use expand::{
    action_runs, expand, expand_action, expand_action_args, expand_args, list_of, runs, Arguments,
};
pub use refusal::{Kind, Place, Refusal};

/// The most bytes that a file may have.
pub const FILE_BOUND: usize = 32_768;

/// The group that every file starts with.
pub const DESKTOP_ENTRY: &[u8] = b"Desktop Entry";

/// What a call tells: its result is the refusal's number, and it writes place and byte where it is shown.
fn told(call: impl FnOnce(&mut u64, &mut u64) -> u32) -> Result<(), Refusal> {
    let (mut place, mut byte) = (0, 0);
    match call(&mut place, &mut byte) {
        0 => Ok(()),
        number => Err(Refusal {
            kind: Kind::of(number).expect("a refusal of the library's table"),
            place,
            byte,
        }),
    }
}

/// As [`told`], of a call that also tells how many bytes it wrote.
fn written(call: impl FnOnce([&mut u64; 3]) -> u32) -> Result<usize, Refusal> {
    let mut written = 0;
    told(|place, byte| call([place, byte, &mut written]))?;
    Ok(written as usize)
}

/// Whether the file is well formed: 1 to 6.
pub fn check(file: &[u8]) -> Result<(), Refusal> {
    checked(ffi::kveldrim_check, file)
}

/// Whether the file is well formed and has what a desktop entry needs: 1 to 6, 18.
pub fn complete(file: &[u8]) -> Result<(), Refusal> {
    checked(ffi::kveldrim_complete, file)
}

fn checked(call: ffi::FileCall, file: &[u8]) -> Result<(), Refusal> {
    // SAFETY: the slice and the numbers are lent for this call only.
    told(|place, byte| unsafe { call(file.as_ptr(), file.len(), place, byte) })
}

/// The raw value of a key, asked with its postfix (`Name` or `Name[de]`): 1 to 8.
pub fn lookup<'a>(file: &'a [u8], group: &[u8], key: &[u8]) -> Result<&'a [u8], Refusal> {
    lookup_ends(file, group, key).map(|ends| &file[ends])
}

/// As [`lookup`], answered by where the value stands in the file.
pub fn lookup_ends(file: &[u8], group: &[u8], key: &[u8]) -> Result<Range<usize>, Refusal> {
    // SAFETY: the slices and the numbers are lent for this call only.
    ends(
        [file, group, key],
        |[(file, f), (group, g), (key, k)], [place, byte, from, to]| unsafe {
            ffi::kveldrim_lookup(file, f, group, g, key, k, place, byte, from, to)
        },
    )
}

/// The raw value of a plain key that suits the locale best (`""`, `C` and `POSIX`: the plain one): 1 to 8. Encodings do not
/// count, of the locale or of a postfix; where postfixes are equal without them, the earlier line is taken.
pub fn choose<'a>(
    file: &'a [u8],
    group: &[u8],
    key: &[u8],
    locale: &[u8],
) -> Result<&'a [u8], Refusal> {
    choose_ends(file, group, key, locale).map(|ends| &file[ends])
}

/// As [`choose`], answered by where the value stands in the file.
pub fn choose_ends(
    file: &[u8],
    group: &[u8],
    key: &[u8],
    locale: &[u8],
) -> Result<Range<usize>, Refusal> {
    // SAFETY: the slices and the numbers are lent for this call only.
    ends(
        [file, group, key, locale],
        |[(file, f), (group, g), (key, k), (locale, l)], [place, byte, from, to]| unsafe {
            ffi::kveldrim_choose(file, f, group, g, key, k, locale, l, place, byte, from, to)
        },
    )
}

/// A call that finds a value. It gets the slices by pointer and length, and writes its place and byte and the two ends.
fn ends<const N: usize>(
    slices: [&[u8]; N],
    call: impl Fn([(*const u8, usize); N], [&mut u64; 4]) -> u32,
) -> Result<Range<usize>, Refusal> {
    let (mut from, mut to) = (0, 0);
    let lent = slices.map(|slice| (slice.as_ptr(), slice.len()));
    told(|place, byte| call(lent, [place, byte, &mut from, &mut to]))?;
    Ok(from as usize..to as usize)
}

/// Reads the escapes of a raw value into the start of `out`, and answers how many bytes it wrote: 9, 11.
pub fn read_text(raw: &[u8], out: &mut [u8]) -> Result<usize, Refusal> {
    output(ffi::kveldrim_read_text, raw, out)
}

/// Writes text as a raw value to the start of `out`, and answers how many bytes it wrote: 10, 11.
pub fn write_text(text: &[u8], out: &mut [u8]) -> Result<usize, Refusal> {
    output(ffi::kveldrim_write_text, text, out)
}

/// Writes the elements of a raw list as records to the start of `out`, and answers how many bytes it wrote: 9, 11.
/// [`Elements`] reads them.
pub fn read_list(raw: &[u8], out: &mut [u8]) -> Result<usize, Refusal> {
    output(ffi::kveldrim_read_list, raw, out)
}

fn output(call: ffi::OutputCall, input: &[u8], out: &mut [u8]) -> Result<usize, Refusal> {
    // SAFETY: the slices and the numbers are lent for this call only; `input` and `out` cannot overlap.
    written(|[place, _, written]| unsafe {
        call(
            input.as_ptr(),
            input.len(),
            out.as_mut_ptr(),
            out.len(),
            place,
            written,
        )
    })
}

/// As [`read_text`], into a vector: 9.
pub fn read_text_vec(raw: &[u8]) -> Result<Vec<u8>, Refusal> {
    grown(raw.len(), |out| read_text(raw, out))
}

/// As [`write_text`], into a vector: 10.
pub fn write_text_vec(text: &[u8]) -> Result<Vec<u8>, Refusal> {
    grown(text.len().saturating_mul(2), |out| write_text(text, out))
}

/// As [`read_list`], into one vector for each element: 9, and 11 for an element of 4 GiB.
pub fn read_list_vec(raw: &[u8]) -> Result<Vec<Vec<u8>>, Refusal> {
    let most = raw.len().saturating_mul(6).saturating_add(1);
    let records = grown(most, |out| read_list(raw, out))?;
    Ok(Elements::new(&records).map(<[u8]>::to_vec).collect())
}

/// What a call writes, into a buffer that grows up to `most` bytes while the call finds no room (11).
fn grown(
    most: usize,
    call: impl Fn(&mut [u8]) -> Result<usize, Refusal>,
) -> Result<Vec<u8>, Refusal> {
    let mut out = vec![0; most.min(4096)];
    loop {
        match call(&mut out) {
            Ok(written) => {
                out.truncate(written);
                return Ok(out);
            }
            Err(refusal) if refusal.kind == Kind::NoRoom && out.len() < most => {
                out.resize(most.min(out.len().saturating_mul(2)), 0);
            }
            Err(refusal) => return Err(refusal),
        }
    }
}

/// The elements that [`read_list`] or [`actions`] wrote: records of their whole length (4 bytes, little-endian), the kind 2
/// (2 bytes) and the element. Ends early at bytes that are no such record.
pub struct Elements<'a> {
    rest: &'a [u8],
}

impl<'a> Elements<'a> {
    /// The elements of the bytes written.
    pub fn new(written: &'a [u8]) -> Elements<'a> {
        Elements { rest: written }
    }
}

impl<'a> Iterator for Elements<'a> {
    type Item = &'a [u8];

    fn next(&mut self) -> Option<&'a [u8]> {
        let (length, rest) = self.rest.split_first_chunk()?;
        let length = u32::from_le_bytes(*length) as usize;
        if !rest.starts_with(&[2, 0]) {
            return None;
        }
        let element = self.rest.get(6..length)?;
        self.rest = &self.rest[length..];
        Some(element)
    }
}
