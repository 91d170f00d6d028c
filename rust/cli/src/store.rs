//! A file with its journal, taken from disk and put back together.

use std::ffi::{OsStr, OsString};
use std::fs::{self, File};
use std::io;
use std::time::Duration;

use kveldrim::{Document, Kind, FILE_BOUND};

use crate::disk::{self, Replacement};
use crate::journal::{self, Pair, Unread};
use crate::names::{journals_without_file, Names};
use crate::report::Trouble;

/// How often a reader starts again where the file is replaced while it reads.
const READINGS: u32 = 1_000;

/// A file that is being edited or told about.
pub struct Store {
    given: OsString,
    names: Names,
    /// Locked while it is being edited.
    open: File,
    before: Pair,
    /// The bytes of its journal, if it has one.
    journal: Option<Vec<u8>>,
    discard: bool,
}

impl Store {
    /// Opens a file for an edit, and waits so long for another editor to end. With `discard` its journal is put aside when
    /// the edit is saved, and a new one starts.
    pub fn edit(file: &OsStr, discard: bool, wait: Duration) -> Result<Store, Trouble> {
        let names = Names::of(file).map_err(|error| Trouble::unreadable(file, &error))?;
        let open = disk::lock(&names.file, wait).map_err(|error| uneditable(file, &error))?;
        let foreign = Trouble::foreign(file, &names.journal_name());
        Store::of(file, names, open, discard)?.ok_or(foreign)
    }

    /// Opens a file to tell of it. A reader needs no lock: the journal that is there has always a pair for the file that is
    /// there, and where both were not read at one moment, they are read again. With `discard` it is as if the journal were
    /// put aside.
    pub fn look(file: &OsStr, discard: bool) -> Result<Store, Trouble> {
        for _ in 0..READINGS {
            if let Some(store) = Store::look_once(file, discard)? {
                return Ok(store);
            }
        }
        Err(Trouble::busy(file))
    }

    /// The file as it is; none if an editor has put another in its place meanwhile, and the journal read belongs to that.
    fn look_once(file: &OsStr, discard: bool) -> Result<Option<Store>, Trouble> {
        let unreadable = |error| Trouble::unreadable(file, &error);
        let names = Names::of(file).map_err(unreadable)?;
        let (open, seen) = disk::open(&names.file).map_err(unreadable)?;
        let path = names.file.clone();
        let foreign = Trouble::foreign(file, &names.journal_name());
        match Store::of(file, names, open, discard)? {
            None if disk::stands_still(&path, &seen) => Err(foreign),
            store => Ok(store),
        }
    }

    /// An open file with the journal that is there; none if that is of other bytes.
    fn of(file: &OsStr, names: Names, open: File, discard: bool) -> Result<Option<Store>, Trouble> {
        let unreadable = |error| Trouble::unreadable(file, &error);
        let bytes = disk::content(&open, FILE_BOUND).map_err(unreadable)?;
        let journal = journal_of(&names, &open).map_err(unreadable)?;
        let used = journal.as_deref().filter(|_| !discard);
        let before = belonging(file, &names, bytes, used)?;
        Ok(before.map(|before| Store {
            given: file.into(),
            names,
            open,
            before,
            journal,
            discard,
        }))
    }

    /// The file and its journal, to be edited.
    pub fn document(&self) -> Document {
        let Pair {
            file,
            records,
            standing,
        } = &self.before;
        Document::with_journal(file, records, *standing)
    }

    /// The journal's records are not what they should be.
    pub fn damaged(&self) -> Trouble {
        Trouble::damaged(&self.given, &self.names.journal_name())
    }

    /// Where the file has no journal: one in its folder that belongs to just its bytes and to no other file there. The file
    /// seems to have been renamed.
    pub fn left_behind(&self) -> Option<Trouble> {
        if self.journal.is_some() {
            return None;
        }
        let folder = &self.names.folder;
        let journals = journals_without_file(folder).ok()?;
        let belongs = |name: &OsString| {
            let journal = disk::read_journal(&folder.join(name), journal::MOST);
            let pairs = journal.ok().flatten();
            let pairs = pairs.and_then(|(bytes, _)| journal::read(&bytes).ok());
            pairs.is_some_and(|pairs| pairs.iter().any(|pair| pair.file == self.before.file))
        };
        let journal = folder.join(journals.into_iter().find(belongs)?);
        Some(Trouble::left_behind(
            &self.given,
            &journal,
            &self.names.journal(),
        ))
    }

    /// Puts the edited file and its journal on disk: both, or neither.
    pub fn save(&self, document: &Document) -> Result<(), Trouble> {
        let after = Pair::of(document);
        self.replace(&after, true, Some(&journal::write(&[&after])))
    }

    /// Puts the journal on disk that calls have left, beside the unchanged file. One without a record goes.
    pub fn save_journal(&self, document: &Document) -> Result<(), Trouble> {
        let after = Pair::of(document);
        let journal = (!after.records.is_empty()).then(|| journal::write(&[&after]));
        disk::replace_journal(&self.names, &self.open, &after.file, journal.as_deref())
            .map_err(|error| uneditable(&self.given, &error))
    }

    /// The bytes of the file, as they were read.
    pub fn bytes(&self) -> &[u8] {
        &self.before.file
    }

    /// Whether another name leads to the file.
    pub fn is_named(&self, other: &OsStr) -> bool {
        fs::canonicalize(other).is_ok_and(|path| path == self.names.file)
    }

    /// Puts other bytes on disk that no edit has made, and leaves no journal beside them. One with edits is in the way, unless
    /// it is to be put aside.
    pub fn overwrite(&self, bytes: &[u8]) -> Result<(), Trouble> {
        // Of a longer file not all was read.
        if self.before.file.len() > FILE_BOUND {
            return Err(Trouble::refused(&self.given, Kind::TooLong.words()));
        }
        if !self.before.records.is_empty() {
            let words = "has edits that would no longer belong to the file (--discard-journal puts it aside)";
            let journal = self.names.journal_name();
            return Err(Trouble::in_the_way(&self.given, &journal, words));
        }
        let after = Pair::new(bytes.to_vec());
        self.replace(&after, self.journal.is_some(), None)
    }

    /// Puts a file on disk, and if it is to have a journal, one that belongs to both until the end.
    fn replace(
        &self,
        after: &Pair,
        has_journal: bool,
        settled: Option<&[u8]>,
    ) -> Result<(), Trouble> {
        let journal = journal::write(&[after, &self.before]);
        let replacement = Replacement {
            old: &self.before.file,
            new: &after.file,
            journal: has_journal.then_some(&journal),
            settled,
            old_journal: self.journal.as_deref(),
            aside: self.discard,
        };
        disk::replace(&self.names, &self.open, &replacement)
            .map_err(|error| uneditable(&self.given, &error))
    }
}

/// Makes a file that is not there yet. A journal of its name would not be of it, so there must be none.
pub fn create(file: &OsStr, bytes: &[u8]) -> Result<(), Trouble> {
    let names = Names::of_new(file).map_err(|error| uncreatable(file, &error))?;
    if names.journal().symlink_metadata().is_ok() {
        let words = "is of a file that is no longer there; move it away";
        return Err(Trouble::in_the_way(file, &names.journal_name(), words));
    }
    disk::create(&names, bytes).map_err(|error| uncreatable(file, &error))
}

fn uneditable(file: &OsStr, error: &io::Error) -> Trouble {
    unless_busy(Trouble::uneditable, file, error)
}

fn uncreatable(file: &OsStr, error: &io::Error) -> Trouble {
    unless_busy(Trouble::uncreatable, file, error)
}

/// Another editor is at work, or else what is said of the error.
fn unless_busy(
    said: fn(&OsStr, &io::Error) -> Trouble,
    file: &OsStr,
    error: &io::Error,
) -> Trouble {
    match disk::is_busy(error) {
        true => Trouble::busy(file),
        false => said(file, error),
    }
}

/// The bytes of a file's journal, if it has one. Bytes that are too many for one are left alone, and so is a journal of somebody
/// who may put files into the folder, but may not replace this one.
fn journal_of(names: &Names, open: &File) -> io::Result<Option<Vec<u8>>> {
    let path = names.journal();
    let Some((bytes, like)) = disk::read_journal(&path, journal::MOST)? else {
        return Ok(None);
    };
    let name = disk::name(&path);
    if bytes.len() > journal::MOST {
        let words = format!("{name} beside it is too long for a journal; move it away");
        return Err(io::Error::other(words));
    }
    if !disk::is_believed(&like, &open.metadata()?, &names.folder)? {
        let words = format!("its journal {name} was made by somebody who may not replace the file");
        return Err(io::Error::other(words));
    }
    Ok(Some(bytes))
}

/// The pair of a journal that is of just this file: the newest, if it is of several. Without a journal there are no edits yet.
fn belonging(
    file: &OsStr,
    names: &Names,
    bytes: Vec<u8>,
    journal: Option<&[u8]>,
) -> Result<Option<Pair>, Trouble> {
    let Some(journal) = journal else {
        return Ok(Some(Pair::new(bytes)));
    };
    let pairs = journal::read(journal).map_err(|unread| {
        let trouble = match unread {
            Unread::Damaged => Trouble::damaged,
            Unread::Newer => Trouble::newer,
        };
        trouble(file, &names.journal_name())
    })?;
    Ok(pairs.into_iter().find(|pair| pair.file == bytes))
}

#[cfg(test)]
mod tests {
    use std::sync::atomic::{AtomicBool, Ordering};
    use std::thread;
    use std::time::Instant;

    use kveldrim::Person;

    use super::*;
    use crate::kills::Place;

    const LONG: Duration = Duration::from_secs(60);

    const FILE: &[u8] = b"[Desktop Entry]\n";

    /// Sets a key; the status of what went wrong.
    fn set(place: &Place, key: &str, wait: Duration) -> Result<(), u8> {
        let saved = Store::edit(place.file().as_os_str(), false, wait).and_then(|store| {
            let mut document = store.document();
            document
                .set(Person::NOBODY, b"Desktop Entry", key.as_bytes(), b"x")
                .unwrap();
            store.save(&document)
        });
        saved.map_err(|trouble| trouble.status())
    }

    #[test]
    fn an_editor_waits_as_long_as_it_is_told() {
        let place = Place::new(FILE);
        let open = disk::lock(&place.file(), Duration::ZERO).unwrap();
        let start = Instant::now();
        assert_eq!(set(&place, "A", Duration::ZERO), Err(75));
        let wait = Duration::from_millis(100);
        assert_eq!(set(&place, "A", wait), Err(75));
        assert!(start.elapsed() >= wait);
        let start = Instant::now();
        thread::scope(|scope| {
            scope.spawn(|| {
                thread::sleep(wait);
                drop(open);
            });
            assert_eq!(set(&place, "A", LONG), Ok(()));
            assert!(start.elapsed() >= wait);
        });
        let content = fs::read(place.file()).unwrap();
        assert_eq!(content, b"[Desktop Entry]\nA=x\n");
    }

    #[test]
    fn editors_that_wait_all_come_to_their_turn() {
        let place = Place::new(FILE);
        thread::scope(|scope| {
            for editor in 0..4 {
                let place = &place;
                scope.spawn(move || {
                    for number in 0..12 {
                        let key = format!("X-{editor}-{number}");
                        assert_eq!(set(place, &key, LONG), Ok(()));
                    }
                });
            }
        });
        let store = Store::look(place.file().as_os_str(), false);
        let store = store.unwrap_or_else(|_| panic!("no pair belongs"));
        let document = store.document();
        assert_eq!(kveldrim::Edits::new(document.journal()).count(), 48);
    }

    /// A reader may find the file of before and the journal of after.
    #[test]
    fn readers_find_a_pair_at_any_time() {
        let place = Place::new(FILE);
        let look = || Store::look(place.file().as_os_str(), false);
        let done = AtomicBool::new(false);
        thread::scope(|scope| {
            for _ in 0..3 {
                scope.spawn(|| {
                    while !done.load(Ordering::Relaxed) {
                        assert_eq!(look().err().map(|trouble| trouble.status()), None);
                    }
                });
            }
            for number in 0..150 {
                // Until it starts its program, a child of another test has the locks of this process too.
                let set = set(&place, &format!("X-{number}"), LONG);
                done.store(number == 149 || set.is_err(), Ordering::Relaxed);
                assert_eq!(set, Ok(()));
            }
        });
    }

    #[test]
    fn a_reader_may_pass_over_the_journal() {
        let place = Place::new(FILE);
        assert_eq!(set(&place, "A", Duration::ZERO), Ok(()));
        fs::write(place.file(), b"[Desktop Entry]\n# A\n").unwrap();
        let look = |discard| Store::look(place.file().as_os_str(), discard);
        assert_eq!(look(false).err().map(|trouble| trouble.status()), Some(1));
        let store = look(true).unwrap_or_else(|_| panic!("it is refused"));
        assert_eq!(store.document().file(), b"[Desktop Entry]\n# A\n");
        assert_eq!(store.document().journal(), b"");
    }
}
