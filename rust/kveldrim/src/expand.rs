//! Expands the Exec of a file, or of one of its actions, into the arguments of one run. Nothing is started.

use crate::records::{put, HEAD};
use crate::{grown, written, Kind, Refusal};

/// Declares the expansions of the C interface, as `include/kveldrim.h` declares them.
macro_rules! expand_calls {
    ($($name:ident($($slice:ident $length:ident)?))*) => {
        extern "C" {
            $(pub fn $name(
                file: *const u8,
                file_len: usize,
                $($slice: *const u8, $length: usize,)?
                locale: *const u8,
                locale_len: usize,
                location: *const u8,
                location_len: usize,
                list: *const u8,
                list_len: usize,
                run: u64,
                out: *mut u8,
                out_len: usize,
                place: *mut u64,
                byte: *mut u64,
                written: *mut u64,
            ) -> u32;)*
        }
    };
}

expand_calls! {
    kveldrim_expand()
    kveldrim_expand_action(action action_len)
}

/// Makes a call of the C interface with the slices, the run and the output, and tells how many bytes it wrote.
macro_rules! expanded {
    ($call:path; $($slice:expr),*; $run:expr, $out:expr) => {
        // SAFETY: the slices and the numbers are lent for this call only; the output overlaps none of the others.
        written(|[place, byte, written]| unsafe {
            $call(
                $($slice.as_ptr(), $slice.len(),)*
                $run,
                $out.as_mut_ptr(),
                $out.len(),
                place,
                byte,
                written,
            )
        })
    };
}

/// Writes the arguments of a run as records to the start of `out`, and answers how many bytes it wrote: 1 to 11, 14,
/// 15, 16. [`list_of`] makes the list, [`Arguments`] reads the records.
pub fn expand(
    file: &[u8],
    locale: &[u8],
    location: &[u8],
    list: &[u8],
    run: u64,
    out: &mut [u8],
) -> Result<usize, Refusal> {
    expanded!(kveldrim_expand; file, locale, location, list; run, out)
}

/// As [`expand`], of the Exec and Icon of an action's group. The identifier may be any bytes; one that [`crate::actions`]
/// does not list is refused with 8.
pub fn expand_action(
    file: &[u8],
    action: &[u8],
    locale: &[u8],
    location: &[u8],
    list: &[u8],
    run: u64,
    out: &mut [u8],
) -> Result<usize, Refusal> {
    expanded!(kveldrim_expand_action; file, action, locale, location, list; run, out)
}

/// As [`expand`], from items and into one vector for each argument: 1 to 10, 14, 15, 16.
///
/// ```
/// let file = b"[Desktop Entry]\nName=Read\nExec=view --title %c %F\n";
/// let arguments = kveldrim::expand_args(file, b"", b"", &["a b.txt", "c%f.txt"], 0).unwrap();
/// assert_eq!(arguments, [&b"view"[..], b"--title", b"Read", b"a b.txt", b"c%f.txt"]);
/// ```
pub fn expand_args(
    file: &[u8],
    locale: &[u8],
    location: &[u8],
    items: &[impl AsRef<[u8]>],
    run: u64,
) -> Result<Vec<Vec<u8>>, Refusal> {
    let most = most_written(file, location);
    args(most, items, |list, out| {
        expand(file, locale, location, list, run, out)
    })
}

/// As [`expand_action`], from items and into one vector for each argument: 1 to 10, 14, 15, 16.
///
/// ```
/// let file = b"[Desktop Entry]\nName=Read\nActions=new\n[Desktop Action new]\nName=New window\nExec=view -n %c %F\n";
/// let arguments = kveldrim::expand_action_args(file, b"new", b"", b"", &["a b.txt"], 0).unwrap();
/// assert_eq!(arguments, [&b"view"[..], b"-n", b"Read", b"a b.txt"]);
/// ```
pub fn expand_action_args(
    file: &[u8],
    action: &[u8],
    locale: &[u8],
    location: &[u8],
    items: &[impl AsRef<[u8]>],
    run: u64,
) -> Result<Vec<Vec<u8>>, Refusal> {
    let most = most_written(file, location);
    args(most, items, |list, out| {
        expand_action(file, action, locale, location, list, run, out)
    })
}

/// The arguments that an expansion writes: at most so many bytes, and the list once.
fn args(
    most: usize,
    items: &[impl AsRef<[u8]>],
    expand: impl Fn(&[u8], &mut [u8]) -> Result<usize, Refusal>,
) -> Result<Vec<Vec<u8>>, Refusal> {
    let list = list_of(items);
    let records = grown(most.saturating_add(list.len()), |out| expand(&list, out))?;
    Ok(Arguments::new(&records).map(<[u8]>::to_vec).collect())
}

/// How many runs there are: one for each item if Exec has `%f` or `%u`, at least one; refused as [`expand_args`] is for
/// run 0.
pub fn runs(
    file: &[u8],
    locale: &[u8],
    location: &[u8],
    items: &[impl AsRef<[u8]>],
) -> Result<u64, Refusal> {
    count(items, |list, run| {
        expand(file, locale, location, list, run, &mut [])
    })
}

/// As [`runs`], of an action; refused as [`expand_action_args`] is for run 0.
pub fn action_runs(
    file: &[u8],
    action: &[u8],
    locale: &[u8],
    location: &[u8],
    items: &[impl AsRef<[u8]>],
) -> Result<u64, Refusal> {
    count(items, |list, run| {
        expand_action(file, action, locale, location, list, run, &mut [])
    })
}

/// How many runs an expansion has. It is made without room: there is always a program to write, so the last refusal of all
/// is told, 11, where there is no other.
fn count(
    items: &[impl AsRef<[u8]>],
    expand: impl Fn(&[u8], u64) -> Result<usize, Refusal>,
) -> Result<u64, Refusal> {
    let list = list_of(items);
    let refused = |run| match expand(&list, run) {
        Err(refusal) if refusal.kind != Kind::NoRoom => Err(refusal),
        _ => Ok(()),
    };
    refused(0)?;
    let each_its_own = items.len() > 1 && refused(1).is_ok();
    Ok(if each_its_own { items.len() as u64 } else { 1 })
}

/// The list that [`expand`] and [`expand_action`] take: a record of kind 2 for each item.
pub fn list_of(items: &[impl AsRef<[u8]>]) -> Vec<u8> {
    let mut list = Vec::new();
    for item in items {
        put(&mut list, 2, item.as_ref());
    }
    list
}

/// No run writes more, without its list: each byte of Exec brings less than a record of the whole file or of the location.
fn most_written(file: &[u8], location: &[u8]) -> usize {
    let longest = file.len().max(location.len()) + HEAD;
    file.len().saturating_mul(longest)
}

/// The arguments that [`expand`] or [`expand_action`] wrote: records of their whole length (4 bytes, little-endian), the
/// kind 3 (2 bytes) and the argument. Ends early at bytes that are no such record.
pub struct Arguments<'a> {
    rest: &'a [u8],
}

impl<'a> Arguments<'a> {
    /// The arguments of the bytes written.
    pub fn new(written: &'a [u8]) -> Arguments<'a> {
        Arguments { rest: written }
    }
}

impl<'a> Iterator for Arguments<'a> {
    type Item = &'a [u8];

    fn next(&mut self) -> Option<&'a [u8]> {
        let (length, rest) = self.rest.split_first_chunk()?;
        let length = u32::from_le_bytes(*length) as usize;
        if !rest.starts_with(&[3, 0]) {
            return None;
        }
        let argument = self.rest.get(HEAD..length)?;
        self.rest = &self.rest[length..];
        Some(argument)
    }
}
