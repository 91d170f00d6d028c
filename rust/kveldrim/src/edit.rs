//! Set, remove, undo and redo, many edits at once, who made an edit, and forgetting the oldest: over two lent buffers, and over
//! a document that owns them.

use crate::batch::{requests_of, Batch, Request};
use crate::{ffi, told, Refusal, FILE_BOUND};

/// The most bytes that a journal may use.
pub const JOURNAL_BOUND: usize = 65_536;

/// Who makes an edit, by a number of two bytes.
#[derive(Debug, Clone, Copy, PartialEq, Eq, PartialOrd, Ord, Hash, Default)]
pub struct Person(pub u16);

impl Person {
    /// Nobody named, as is told of records of the kind 1.
    pub const NOBODY: Person = Person(0);
}

/// The numbers of two buffers: the file's bytes, the journal's bytes that are used, and how many of these stand.
#[derive(Debug, Clone, Copy, PartialEq, Eq, Default)]
pub struct Numbers {
    pub file_len: u64,
    pub used: u64,
    pub standing: u64,
}

/// A file and its journal, each in a buffer with room. A refused call changes neither a byte nor a number; only of
/// [`Buffers::batch`] the edits before the refused one stay done.
#[derive(Debug)]
pub struct Buffers<'a> {
    pub file: &'a mut [u8],
    pub journal: &'a mut [u8],
    pub numbers: &'a mut Numbers,
}

/// Makes a call of the C interface with both buffers, their numbers, the person, the slices and perhaps one more number, and
/// tells what it answered.
macro_rules! edited {
    ($call:path, $buffers:expr $(; $person:expr $(, $slice:expr)* $(; $number:expr)?)?) => {{
        let Buffers {
            file,
            journal,
            numbers,
        } = $buffers;
        // SAFETY: the slices and the numbers are lent for this call only, and no buffer overlaps another slice.
        told(|place, byte| unsafe {
            $call(
                file.as_mut_ptr(),
                file.len(),
                &mut numbers.file_len,
                journal.as_mut_ptr(),
                journal.len(),
                &mut numbers.used,
                &mut numbers.standing,
                $($person.0, $($slice.as_ptr(), $slice.len(),)*)?
                place,
                byte,
                $($(&mut $number,)?)?
            )
        })
    }};
}

impl Buffers<'_> {
    /// Sets a key, asked with its postfix (`Name` or `Name[de]`), to a text: 14, 1 to 6, 14, 7, 10, 8, 6, 11, 13.
    pub fn set(
        &mut self,
        person: Person,
        group: &[u8],
        key: &[u8],
        text: &[u8],
    ) -> Result<(), Refusal> {
        edited!(ffi::kveldrim_set, self; person, group, key, text)
    }

    /// Removes a key, asked with its postfix: 14, 1 to 6, 14, 7, 8, 17, 13.
    pub fn remove(&mut self, person: Person, group: &[u8], key: &[u8]) -> Result<(), Refusal> {
        edited!(ffi::kveldrim_remove, self; person, group, key)
    }

    /// Takes back the latest edit that stands: 14, 1 to 6, 14, 12, 14, 11, 14.
    pub fn undo(&mut self) -> Result<(), Refusal> {
        edited!(ffi::kveldrim_undo, self)
    }

    /// Makes the next edit that waits once more: 14, 1 to 6, 14, 12, 14, 11, 14.
    pub fn redo(&mut self) -> Result<(), Refusal> {
        edited!(ffi::kveldrim_redo, self)
    }

    /// Makes the edits of a list in turn, as [`Buffers::set`] and [`Buffers::remove`] make them, and stops at the first that is
    /// refused. Those before it stand and can be undone one at a time. [`requests_of`] makes the list: 14, 1 to 6, 14 of the
    /// journal and of the list, with none done; then 7, 10, 8, 6, 17, 11, 13 of one request.
    pub fn batch(&mut self, person: Person, requests: &[u8]) -> Batch {
        let mut done = 0;
        let told = edited!(ffi::kveldrim_batch, self; person, requests; done);
        Batch {
            done,
            stopped: told.err(),
        }
    }

    /// The person of the journal's record of this number, from 0; the records that wait count too: 14, 12.
    pub fn person(&self, n: u64) -> Result<Person, Refusal> {
        person_of(self.journal, *self.numbers, n)
    }

    /// Forgets the oldest `k` edits that stand, so that their room in the journal serves later ones: 14, 12. All other records
    /// are kept, those that wait too, and move to the start; the file is not touched.
    pub fn forget(&mut self, k: u64) -> Result<(), Refusal> {
        let Numbers { used, standing, .. } = &mut *self.numbers;
        let (journal, room) = (self.journal.as_mut_ptr(), self.journal.len());
        // SAFETY: the slice and the numbers are lent for this call only.
        told(|place, _| unsafe { ffi::kveldrim_forget(journal, room, used, standing, k, place) })
    }
}

fn person_of(journal: &[u8], numbers: Numbers, n: u64) -> Result<Person, Refusal> {
    let mut person = Person::NOBODY;
    // SAFETY: the slice and the numbers are lent for this call only.
    told(|place, _| unsafe {
        ffi::kveldrim_person(
            journal.as_ptr(),
            journal.len(),
            numbers.used,
            numbers.standing,
            n,
            place,
            &mut person.0,
        )
    })?;
    Ok(person)
}

/// A file and its journal, with all the room that the rules allow.
///
/// ```
/// use kveldrim::{Document, Person, DESKTOP_ENTRY};
///
/// let mut document = Document::new(b"[Desktop Entry]\nName=Read\n");
/// document.set(Person(7), DESKTOP_ENTRY, b"Name", b"Lire").unwrap();
/// assert_eq!(document.file(), b"[Desktop Entry]\nName=Lire\n");
/// document.undo().unwrap();
/// assert_eq!(document.file(), b"[Desktop Entry]\nName=Read\n");
/// assert_eq!(document.person(0), Ok(Person(7)));
/// ```
#[derive(Debug, Clone)]
pub struct Document {
    file: Vec<u8>,
    journal: Vec<u8>,
    numbers: Numbers,
}

impl Document {
    /// A file with an empty journal. Whether the file is well formed is asked by each call.
    pub fn new(file: &[u8]) -> Document {
        Document::with_journal(file, &[], 0)
    }

    /// A file with the used bytes of its journal, of which so many stand. The calls refuse a pair that does not fit.
    pub fn with_journal(file: &[u8], used: &[u8], standing: u64) -> Document {
        Document {
            file: with_room(file, FILE_BOUND),
            journal: with_room(used, JOURNAL_BOUND),
            numbers: Numbers {
                file_len: file.len() as u64,
                used: used.len() as u64,
                standing,
            },
        }
    }

    /// The file's bytes.
    pub fn file(&self) -> &[u8] {
        &self.file[..self.numbers.file_len as usize]
    }

    /// The journal's used bytes.
    pub fn journal(&self) -> &[u8] {
        &self.journal[..self.numbers.used as usize]
    }

    /// How many of the journal's used bytes stand; the records behind them wait for a redo.
    pub fn standing(&self) -> u64 {
        self.numbers.standing
    }

    /// The buffers, for calls that this type has not.
    pub fn buffers(&mut self) -> Buffers<'_> {
        Buffers {
            file: &mut self.file,
            journal: &mut self.journal,
            numbers: &mut self.numbers,
        }
    }

    /// As [`Buffers::set`].
    pub fn set(
        &mut self,
        person: Person,
        group: &[u8],
        key: &[u8],
        text: &[u8],
    ) -> Result<(), Refusal> {
        self.buffers().set(person, group, key, text)
    }

    /// As [`Buffers::remove`].
    pub fn remove(&mut self, person: Person, group: &[u8], key: &[u8]) -> Result<(), Refusal> {
        self.buffers().remove(person, group, key)
    }

    /// As [`Buffers::undo`].
    pub fn undo(&mut self) -> Result<(), Refusal> {
        self.buffers().undo()
    }

    /// As [`Buffers::redo`].
    pub fn redo(&mut self) -> Result<(), Refusal> {
        self.buffers().redo()
    }

    /// As [`Buffers::batch`], from requests.
    ///
    /// ```
    /// use kveldrim::{Document, Kind, Person, Request, DESKTOP_ENTRY};
    ///
    /// let mut document = Document::new(b"[Desktop Entry]\nName=Read\nIcon=a\n");
    /// let name = Request::Set { group: DESKTOP_ENTRY, key: b"Name", text: b"Lire" };
    /// let icon = Request::Remove { group: DESKTOP_ENTRY, key: b"Icon" };
    /// let batch = document.batch(Person(7), &[name, icon, icon, name]);
    /// assert_eq!(batch.done, 2);
    /// assert_eq!(batch.stopped.map(|refusal| refusal.kind), Some(Kind::Missing));
    /// assert_eq!(document.file(), b"[Desktop Entry]\nName=Lire\n");
    /// document.undo().unwrap();
    /// assert_eq!(document.file(), b"[Desktop Entry]\nName=Lire\nIcon=a\n");
    /// ```
    pub fn batch(&mut self, person: Person, requests: &[Request<'_>]) -> Batch {
        self.buffers().batch(person, &requests_of(requests))
    }

    /// As [`Buffers::person`].
    pub fn person(&self, n: u64) -> Result<Person, Refusal> {
        person_of(&self.journal, self.numbers, n)
    }

    /// As [`Buffers::forget`].
    pub fn forget(&mut self, k: u64) -> Result<(), Refusal> {
        self.buffers().forget(k)
    }
}

/// The bytes at the start of a buffer of at least `room` bytes.
fn with_room(bytes: &[u8], room: usize) -> Vec<u8> {
    let mut buffer = bytes.to_vec();
    buffer.resize(room.max(bytes.len()), 0);
    buffer
}

/// An edit as the journal records it: at a place in the file old bytes became new ones. Who made it is told by
/// [`Buffers::person`].
#[derive(Debug, Clone, Copy, PartialEq, Eq)]
pub struct Edit<'a> {
    pub place: usize,
    pub old: &'a [u8],
    pub new: &'a [u8],
}

/// The edits of a journal's used bytes, from the first on: records of their whole length (4 bytes, little-endian), the
/// kind 4 (2 bytes), the person (2 bytes), place, old length and new length (4 bytes each), old bytes, new bytes; or of the
/// kind 1, without the person's bytes. Ends early at bytes that are no such record.
pub struct Edits<'a> {
    rest: &'a [u8],
}

impl<'a> Edits<'a> {
    /// The edits of the used bytes.
    pub fn new(used: &'a [u8]) -> Edits<'a> {
        Edits { rest: used }
    }
}

impl<'a> Iterator for Edits<'a> {
    type Item = Edit<'a>;

    fn next(&mut self) -> Option<Edit<'a>> {
        let mut rest = self.rest;
        let length = four(&mut rest)?;
        rest = match u16::from_le_bytes(first(&mut rest)?) {
            1 => rest,
            4 => rest.get(2..)?,
            _ => return None,
        };
        let place = four(&mut rest)?;
        let (old, new) = (four(&mut rest)?, four(&mut rest)?);
        let (old, rest) = rest.split_at_checked(old)?;
        let (new, rest) = rest.split_at_checked(new)?;
        if length != self.rest.len() - rest.len() {
            return None;
        }
        self.rest = rest;
        Some(Edit { place, old, new })
    }
}

/// Takes the number of 4 bytes that the bytes start with.
fn four(bytes: &mut &[u8]) -> Option<usize> {
    first(bytes).map(|four| u32::from_le_bytes(four) as usize)
}

/// Takes the first bytes.
fn first<const N: usize>(bytes: &mut &[u8]) -> Option<[u8; N]> {
    let (first, rest) = bytes.split_first_chunk()?;
    *bytes = rest;
    Some(*first)
}
