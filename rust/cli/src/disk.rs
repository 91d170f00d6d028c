//! What is done on disk: a lock, and bytes that are all there or not at all.

use std::fs::{self, File, Metadata, OpenOptions};
use std::io::{self, ErrorKind, Read, Seek, Write};
use std::os::unix::fs::{MetadataExt, OpenOptionsExt};
use std::path::{Path, PathBuf};
use std::thread;
use std::time::{Duration, Instant};

use nix::unistd::geteuid;
use rustix::fs::{flock, renameat_with, FlockOperation, OFlags, RenameFlags};
use rustix::io::Errno;

use crate::attributes::Attributes;
use crate::names::Names;
use crate::report::shown;

/// A point at which the command may be killed; the tests kill it at each.
#[cfg(not(test))]
pub fn step() {}

#[cfg(test)]
pub use crate::kills::step;

/// How long an editor pauses before it tries a lock again.
const PAUSE: Duration = Duration::from_millis(3);

/// Opens a file and locks it: no other editor has it until it is closed, and a lock ends with its process, however that ends.
/// Where another has the lock, it is tried again for as long as `wait`; the error is then of the kind `WouldBlock`.
pub fn lock(file: &Path, wait: Duration) -> io::Result<File> {
    let start = Instant::now();
    loop {
        match lock_once(file) {
            // Another program has put a new file there between the opening and the locking.
            Ok(None) => {}
            Ok(Some(open)) => return Ok(open),
            Err(error) if is_busy(&error) && start.elapsed() < wait => thread::sleep(PAUSE),
            Err(error) => return Err(error),
        }
    }
}

/// The file, open and locked; none if it is no longer there under its name.
fn lock_once(file: &Path) -> io::Result<Option<File>> {
    // A rename would replace a file that may not be written, so ask.
    let open = open_plain(OpenOptions::new().read(true).write(true), file, "it");
    let open = open.map_err(|error| denied(error, "you may not write it"))?;
    take_lock(&open)?;
    Ok(is_at(&open, file)?.then_some(open))
}

fn take_lock(open: &File) -> io::Result<()> {
    Ok(flock(open, FlockOperation::NonBlockingLockExclusive)?)
}

/// Whether an error says that another has a lock.
pub fn is_busy(error: &io::Error) -> bool {
    error.kind() == ErrorKind::WouldBlock
}

/// Opens a file that must be a plain one. A link is not followed, and nothing is waited for.
fn open_plain(options: &mut OpenOptions, path: &Path, what: &str) -> io::Result<File> {
    let flags = OFlags::NOFOLLOW | OFlags::NONBLOCK;
    let opened = options.custom_flags(flags.bits() as i32).open(path);
    let found = match &opened {
        Ok(open) => open.metadata(),
        Err(_) => fs::symlink_metadata(path),
    };
    match found {
        Ok(found) if !found.is_file() => Err(not_plain(what)),
        _ => opened,
    }
}

/// The error, in other words if something is not allowed.
fn denied(error: io::Error, words: &str) -> io::Error {
    match error.kind() {
        ErrorKind::PermissionDenied => io::Error::other(words),
        _ => error,
    }
}

/// The error, in other words if nothing may be made or removed in the folder.
fn in_folder(error: io::Error) -> io::Error {
    denied(error, "you may not write in its folder")
}

pub fn not_plain(what: &str) -> io::Error {
    io::Error::other(format!("{what} is not a plain file"))
}

/// Whether the open file is the one that the path names.
fn is_at(open: &File, path: &Path) -> io::Result<bool> {
    let open = open.metadata()?;
    match fs::symlink_metadata(path) {
        Ok(named) => Ok((named.dev(), named.ino()) == (open.dev(), open.ino())),
        Err(error) if error.kind() == ErrorKind::NotFound => Ok(false),
        Err(error) => Err(error),
    }
}

/// A file that is open for reading, and what it was like then.
pub fn open(file: &Path) -> io::Result<(File, Metadata)> {
    let open = open_plain(OpenOptions::new().read(true), file, "it")?;
    let seen = open.metadata()?;
    Ok((open, seen))
}

/// A plain file that is open for reading; a link is followed, and nothing is waited for.
pub fn open_followed(file: &Path) -> io::Result<File> {
    let mut options = OpenOptions::new();
    options.custom_flags(OFlags::NONBLOCK.bits() as i32);
    match fs::metadata(file)?.is_file() {
        true => options.read(true).open(file),
        false => Err(not_plain("it")),
    }
}

/// Whether the path names still the file that was like this, and nothing was written to it.
pub fn stands_still(file: &Path, seen: &Metadata) -> bool {
    let state = |of: &Metadata| {
        let written = (of.mtime(), of.mtime_nsec(), of.ctime(), of.ctime_nsec());
        (of.dev(), of.ino(), of.size(), written)
    };
    fs::symlink_metadata(file).is_ok_and(|now| state(&now) == state(seen))
}

/// The bytes of a file, at most one more than `most`.
pub fn read(file: &Path, most: usize) -> io::Result<Vec<u8>> {
    content(&File::open(file)?, most)
}

/// The bytes of an open file, at most one more than `most`.
pub fn content(open: &File, most: usize) -> io::Result<Vec<u8>> {
    let mut bytes = Vec::new();
    open.take(most as u64 + 1).read_to_end(&mut bytes)?;
    Ok(bytes)
}

/// The bytes of a journal, at most one more than `most`, and what it is like; none if it is not there.
pub fn read_journal(journal: &Path, most: usize) -> io::Result<Option<(Vec<u8>, Metadata)>> {
    let what = format!("its journal {}", name(journal));
    match open_plain(OpenOptions::new().read(true), journal, &what) {
        Ok(open) => Ok(Some((content(&open, most)?, open.metadata()?))),
        Err(error) if error.kind() == ErrorKind::NotFound => Ok(None),
        Err(error) => Err(denied(error, &format!("{what} may not be read"))),
    }
}

/// The last part of a path, for a message.
pub fn name(path: &Path) -> String {
    let name = shown(path.file_name().unwrap_or_default());
    String::from_utf8_lossy(&name).into_owned()
}

/// Whether a user who may write in a folder may replace a file there: in a sticky one only the owners of the file and of the
/// folder may, and root.
pub fn may_replace(uid: u32, file: &Metadata, folder: &Path) -> io::Result<bool> {
    const STICKY: u32 = 0o1000;
    let folder = fs::metadata(folder)?;
    let is_sticky = folder.mode() & STICKY != 0;
    Ok(!is_sticky || [0, file.uid(), folder.uid()].contains(&uid))
}

/// Whether a file that lies beside an edited one is believed: it belongs to who runs the command, or to somebody who may replace
/// the edited one.
pub fn is_believed(beside: &Metadata, file: &Metadata, folder: &Path) -> io::Result<bool> {
    let owner = beside.uid();
    Ok(owner == geteuid().as_raw() || may_replace(owner, file, folder)?)
}

/// What is to be put on disk.
pub struct Replacement<'a> {
    /// The bytes that the file has, and those that it is to have.
    pub old: &'a [u8],
    pub new: &'a [u8],
    /// A journal that belongs to both, if there is to be one meanwhile, and one that belongs to the new bytes alone, if there is
    /// to be one at the end.
    pub journal: Option<&'a [u8]>,
    pub settled: Option<&'a [u8]>,
    /// The journal that is there, and whether it is to be kept under another name.
    pub old_journal: Option<&'a [u8]>,
    pub aside: bool,
}

/// Puts new bytes and a new journal in place of the old ones. After an error the old bytes and their journal are there. The
/// open file is the locked one; the new file is locked too before it is there.
pub fn replace(names: &Names, open: &File, with: &Replacement) -> io::Result<()> {
    let like = replaceable(names, open)?;
    let aside = with.old_journal.filter(|_| with.aside);
    let aside = aside.map(|bytes| put_aside(names, bytes, &like));
    let aside = aside.transpose()?;
    let new = Written::new(names.new_file(), with.new, Some(&like))?;
    let put_journal = |bytes: Option<&[u8]>| put_journal(names, bytes, &like, || Ok(()));
    if with.journal.is_some() {
        put_journal(with.journal)?;
    }
    let unchanged = unchanged(names, open, with.old);
    let _locked = match unchanged.and_then(|()| new.rename(names, names.file.clone())) {
        Ok(new) => new,
        Err(error) => {
            // Where this fails, the journal with both pairs serves the old bytes as well.
            if with.journal.is_some() {
                let _ = put_journal(with.old_journal);
            }
            return Err(error);
        }
    };
    // The edit is done. Where this fails, the journal with both pairs serves the new bytes as well.
    if with.journal.is_some() {
        let _ = put_journal(with.settled);
    }
    if let Some(aside) = aside {
        aside.keep();
    }
    Ok(())
}

/// Puts another journal in place of the one that is there, or takes that away. The file stays as it is: it is the open one, is
/// locked and has these bytes.
pub fn replace_journal(
    names: &Names,
    open: &File,
    bytes: &[u8],
    journal: Option<&[u8]>,
) -> io::Result<()> {
    let like = replaceable(names, open)?;
    for path in [names.new_file(), names.new_journal()] {
        remove_left_over(&path)?;
    }
    put_journal(names, journal, &like, || unchanged(names, open, bytes))
}

/// What a file has besides its bytes, if who runs the command may replace it and its journal. These may be of two owners, as
/// who forgets edits of another's file has the journal then.
fn replaceable(names: &Names, open: &File) -> io::Result<Attributes> {
    let journal = names.journal();
    let found = fs::symlink_metadata(&journal).ok();
    let file = (open.metadata()?, "the file".into());
    let journal = found.map(|found| (found, format!("its journal {}", name(&journal))));
    for (found, what) in [file].into_iter().chain(journal) {
        if !may_replace(geteuid().as_raw(), &found, &names.folder)? {
            return Err(io::Error::other(format!(
                "its folder is sticky: only the owners of {what} and of the folder may replace it"
            )));
        }
    }
    Attributes::of(open)
}

/// Writes a journal aside and puts it in its place, or takes away the one that is there. In the last moment before, `may` is
/// asked.
fn put_journal(
    names: &Names,
    bytes: Option<&[u8]>,
    like: &Attributes,
    may: impl FnOnce() -> io::Result<()>,
) -> io::Result<()> {
    let new = bytes.map(|bytes| Written::new(names.new_journal(), bytes, Some(like)));
    let new = new.transpose()?;
    may()?;
    match new {
        Some(new) => new.rename(names, names.journal()).map(drop),
        None => {
            fs::remove_file(names.journal()).map_err(in_folder)?;
            step();
            sync_folder(names);
            Ok(())
        }
    }
}

/// Makes a file that is not there yet, with all its bytes at once and the rights that new files have. Something that has got its
/// name meanwhile stays, and is an Err.
pub fn create(names: &Names, bytes: &[u8]) -> io::Result<()> {
    let new = Written::new(names.new_file(), bytes, None)?;
    new.rename_by(names, names.file.clone(), rename_to_free)?;
    Ok(())
}

/// Renames a file to a name that nothing has. Both paths are absolute.
fn rename_to_free(from: &Path, to: &Path) -> io::Result<()> {
    let folder = File::open("/")?;
    match renameat_with(&folder, from, &folder, to, RenameFlags::NOREPLACE) {
        // A file system that cannot do so has hard links.
        Err(Errno::INVAL | Errno::NOSYS) => {
            fs::hard_link(from, to)?;
            fs::remove_file(from)
        }
        renamed => Ok(renamed?),
    }
}

/// Whether the file is still the one that is locked, with these bytes: the last question before they are replaced.
fn unchanged(names: &Names, mut open: &File, bytes: &[u8]) -> io::Result<()> {
    open.rewind()?;
    match is_at(open, &names.file)? && content(open, bytes.len())? == bytes {
        true => Ok(()),
        false => Err(io::Error::other("another program has just changed it")),
    }
}

/// A copy of an old journal under the first free name.
fn put_aside(names: &Names, bytes: &[u8], like: &Attributes) -> io::Result<Written> {
    for number in 1.. {
        match Written::free(names.aside(number), bytes, Some(like)) {
            Err(error) if error.kind() == ErrorKind::AlreadyExists => {}
            written => return written,
        }
    }
    Err(ErrorKind::AlreadyExists.into())
}

/// A file that was written aside, with all its bytes on disk. It is locked, and goes unless it is renamed or kept.
struct Written {
    open: File,
    path: Option<PathBuf>,
}

impl Written {
    /// Bytes under a name that may be left over from a run that was killed.
    fn new(path: PathBuf, bytes: &[u8], like: Option<&Attributes>) -> io::Result<Written> {
        remove_left_over(&path)?;
        step();
        Written::free(path, bytes, like)
    }

    /// Bytes under a free name, with the access and the attributes of the file, or with those that every new file has.
    fn free(path: PathBuf, bytes: &[u8], like: Option<&Attributes>) -> io::Result<Written> {
        let mut options = OpenOptions::new();
        options.read(true).write(true).create_new(true);
        if like.is_some() {
            options.mode(0o600);
        }
        let open = options.open(&path);
        let open = open.map_err(in_folder)?;
        let mut written = Written {
            open,
            path: Some(path),
        };
        take_lock(&written.open)?;
        step();
        written.open.write_all(bytes)?;
        step();
        if let Some(like) = like {
            like.give(&written.open)?;
        }
        step();
        written.open.sync_all()?;
        step();
        Ok(written)
    }

    fn keep(mut self) {
        self.path = None;
    }

    /// A rename that is on disk before the next one starts, as far as the file system can do so. Answers the locked file.
    fn rename(self, names: &Names, to: PathBuf) -> io::Result<Written> {
        self.rename_by(names, to, |from, to| fs::rename(from, to))
    }

    fn rename_by(
        mut self,
        names: &Names,
        to: PathBuf,
        rename: impl Fn(&Path, &Path) -> io::Result<()>,
    ) -> io::Result<Written> {
        if let Some(path) = &self.path {
            if !is_at(&self.open, path)? {
                return Err(ErrorKind::WouldBlock.into());
            }
            rename(path, &to)?;
            self.path = None;
        }
        step();
        sync_folder(names);
        Ok(self)
    }
}

/// The names in the folder are on disk, as far as the file system can do so.
fn sync_folder(names: &Names) {
    let _ = File::open(&names.folder).and_then(|folder| folder.sync_all());
    step();
}

impl Drop for Written {
    fn drop(&mut self) {
        if let Some(path) = &self.path {
            if is_at(&self.open, path).unwrap_or(false) {
                let _ = fs::remove_file(path);
            }
        }
    }
}

/// Removes a file that a killed run left behind. One that is locked is in use: another program has put a file of its own in
/// place of the one that its editor has locked.
fn remove_left_over(path: &Path) -> io::Result<()> {
    let what = format!("{} beside it", name(path));
    let open = match open_plain(OpenOptions::new().read(true), path, &what) {
        Err(error) if error.kind() == ErrorKind::NotFound => return Ok(()),
        // It may be somebody else's, who was killed before it had its rights.
        Err(error) if error.kind() == ErrorKind::PermissionDenied => None,
        opened => Some(opened?),
    };
    open.as_ref().map_or(Ok(()), take_lock)?;
    fs::remove_file(path).map_err(|error| denied(error, &format!("you may not remove {what}")))
}

#[cfg(test)]
mod tests {
    use std::os::unix::fs::symlink;

    use super::*;
    use crate::kills::Place;

    /// Who has the lock has the file that its name leads to, however often others replace it.
    #[test]
    fn a_lock_is_of_the_file_in_place() {
        let place = Place::new(b"");
        let file = place.file();
        let replace = |new: &Path| {
            let open = loop {
                match lock(&file, Duration::ZERO) {
                    Err(error) if is_busy(&error) => thread::yield_now(),
                    locked => break locked.unwrap(),
                }
            };
            assert!(is_at(&open, &file).unwrap());
            let new_open = File::create_new(new).unwrap();
            take_lock(&new_open).unwrap();
            fs::rename(new, &file).unwrap();
        };
        thread::scope(|scope| {
            for editor in ["a", "b", "c"] {
                let (place, replace) = (&place, &replace);
                scope.spawn(move || (0..1_000).for_each(|_| replace(&place.0.join(editor))));
            }
        });
    }

    /// What has got the name of a new file meanwhile stays, a link to nothing too.
    #[test]
    fn a_new_file_replaces_nothing() {
        let place = Place::new(b"old");
        let link = place.0.join("link");
        symlink("none", &link).unwrap();
        for path in [place.file(), link] {
            let names = Names::of_new(path.as_os_str()).unwrap();
            let error = create(&names, b"new").unwrap_err();
            assert_eq!(error.kind(), ErrorKind::AlreadyExists);
        }
        assert_eq!(fs::read(place.file()).unwrap(), b"old");
        assert_eq!(fs::read_dir(&place.0).unwrap().count(), 2);
    }
}
