//! Where a file lies, and the names beside it that are the command's own (docs/JOURNAL.md).

use std::collections::HashSet;
use std::ffi::{OsStr, OsString};
use std::fs;
use std::io;
use std::os::unix::ffi::OsStrExt;
use std::path::{Path, PathBuf};

use sha2::{Digest, Sha256};

use crate::disk::not_plain;

const JOURNAL: &str = "journal";

/// The longest name that stands whole in the names beside its file, which have at most 255 bytes, and what is kept of a
/// longer one.
const WHOLE: usize = 230;
const KEPT: usize = 100;

/// A file, links followed, and the names beside it.
pub struct Names {
    pub file: PathBuf,
    pub folder: PathBuf,
    name: OsString,
}

impl Names {
    pub fn of(file: &OsStr) -> io::Result<Names> {
        let file = fs::canonicalize(file)?;
        match (file.parent(), file.file_name()) {
            (Some(folder), Some(name)) if file.is_file() => Ok(Names {
                folder: folder.into(),
                name: name.into(),
                file,
            }),
            _ => Err(not_plain("it")),
        }
    }

    /// A file that is not there yet, in a folder that is.
    pub fn of_new(file: &OsStr) -> io::Result<Names> {
        let path = Path::new(file);
        let name = path
            .file_name()
            .filter(|_| !file.as_bytes().ends_with(b"/"));
        let name = name.ok_or_else(|| not_plain("it"))?;
        let folder = path.parent().filter(|folder| *folder != Path::new(""));
        let folder = fs::canonicalize(folder.unwrap_or(Path::new(".")))?;
        Ok(Names {
            file: folder.join(name),
            folder,
            name: name.into(),
        })
    }

    fn beside(&self, end: &str) -> PathBuf {
        self.folder.join(own(&self.name, end))
    }

    /// The journal's name without its folder.
    pub fn journal_name(&self) -> OsString {
        own(&self.name, JOURNAL)
    }

    pub fn journal(&self) -> PathBuf {
        self.beside(JOURNAL)
    }

    pub fn new_file(&self) -> PathBuf {
        self.beside("new")
    }

    pub fn new_journal(&self) -> PathBuf {
        self.beside("journal-new")
    }

    /// The number-th journal that was put aside.
    pub fn aside(&self, number: u32) -> PathBuf {
        self.beside(&format!("journal-{number}"))
    }
}

/// `.NAME.kveldrim-END`, the name that is a file's own for this end.
fn own(name: &OsStr, end: &str) -> OsString {
    let mut own = OsString::from(".");
    own.push(shortened(name));
    own.push(".kveldrim-");
    own.push(end);
    own
}

/// A name, or the start of a long one with `~` and the SHA-256 of the whole. A character of UTF-8 is not cut.
fn shortened(name: &OsStr) -> OsString {
    let bytes = name.as_bytes();
    if bytes.len() <= WHOLE {
        return name.into();
    }
    let starts = |at: &usize| name.to_str().is_none_or(|text| text.is_char_boundary(*at));
    let cut = (0..=KEPT).rev().find(starts).unwrap_or_default();
    let mut short = OsStr::from_bytes(&bytes[..cut]).to_owned();
    short.push(format!("~{:x}", Sha256::digest(bytes)));
    short
}

/// The journals in a folder that are of no file there, sorted by name.
pub fn journals_without_file(folder: &Path) -> io::Result<Vec<OsString>> {
    let entries = fs::read_dir(folder)?.map(|entry| Ok(entry?.file_name()));
    let names: Vec<OsString> = entries.collect::<io::Result<_>>()?;
    let owned: HashSet<OsString> = names.iter().map(|name| own(name, JOURNAL)).collect();
    let end = own(OsStr::new(""), JOURNAL);
    let is_journal = |name: &OsString| name.as_bytes().ends_with(&end.as_bytes()[1..]);
    let mut journals: Vec<OsString> = names.into_iter().filter(is_journal).collect();
    journals.retain(|journal| !owned.contains(journal));
    journals.sort();
    Ok(journals)
}

#[cfg(test)]
mod tests {
    use super::*;

    #[test]
    fn names_beside_a_file() {
        let journal = |name: &[u8]| own(OsStr::from_bytes(name), JOURNAL);
        assert_eq!(journal(b"t"), ".t.kveldrim-journal");
        let whole = [b'x'; WHOLE];
        let beside = own(OsStr::from_bytes(&whole), "journal-999999");
        assert_eq!(beside.len(), 255);
        assert!(beside.as_bytes()[1..].starts_with(&whole));
    }

    /// The digest is what `sha256sum` tells of the name.
    #[test]
    fn long_names() {
        let digest = "878c7f63377500d8ebc717dfba9bf20adf54d69d3c1229516c2d2e5c81e2303d";
        let long = "x".repeat(WHOLE + 1);
        let short = format!("{}~{digest}", "x".repeat(KEPT));
        assert_eq!(shortened(OsStr::new(&long)), OsStr::new(&short));
        // A letter of two bytes stands at bytes 99 and 100.
        let long = format!("{}{}", "x".repeat(99), "\u{E9}".repeat(70));
        let kept = |name: &OsStr| {
            let short = shortened(name);
            short.len() - 65
        };
        assert_eq!(kept(OsStr::new(&long)), 99);
        assert_eq!(kept(OsStr::from_bytes(&[0xFF; 255])), KEPT);
    }

    #[test]
    fn long_names_differ_at_their_end() {
        let start = "x".repeat(254);
        let [a, b] = ["a", "b"].map(|end| shortened(OsStr::new(&format!("{start}{end}"))));
        assert_ne!(a, b);
    }
}
