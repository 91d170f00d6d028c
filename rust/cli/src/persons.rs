//! Who edits: persons by their numbers, and the names that a text file has for them (docs/JOURNAL.md).

use std::collections::{BTreeMap, HashMap};
use std::env;
use std::ffi::{OsStr, OsString};
use std::fs::{self, File, Metadata};
use std::io::{self, ErrorKind};
use std::os::unix::ffi::OsStrExt;
use std::path::Path;

use kveldrim::Person;

use crate::arguments::{PersonsFile, PERSON, PERSONS};
use crate::disk;
use crate::faults::BYTE_ORDER_MARK;
use crate::log::in_quotes;
use crate::names::Names;
use crate::report::{shown, Trouble};

/// The file of persons that is looked for beside an edited one.
const BESIDE: &str = "kveldrim-persons.txt";

/// The most bytes that a file of persons has.
const MOST: usize = 65_536;

type Named = BTreeMap<Person, String>;

/// The names of persons, as far as they are known.
pub struct Persons {
    /// Where they were looked for, and whether an option or a variable says so.
    file: OsString,
    is_asked_for: bool,
    /// None if there is no such file, or none that can be used.
    named: Option<Named>,
    /// Why the file cannot be used.
    fault: Option<Trouble>,
}

impl Persons {
    /// The names in the file that is asked for, or in the one beside the edited file. An Err is bad usage, or about the edited
    /// file.
    pub fn of(asked: &PersonsFile, edited: &OsStr, command: &str) -> Result<Persons, Trouble> {
        let words = "--persons needs a file";
        let asked = given(&asked.persons, PERSONS, words, command)?;
        let (file, found) = match asked {
            Some(file) => (file.into(), read_asked(file.as_ref()).map(Some)),
            None => {
                let unreadable = |error| Trouble::unreadable(edited, &error);
                let names = Names::of(edited).map_err(unreadable)?;
                let edited = fs::metadata(&names.file).map_err(unreadable)?;
                let file = names.folder.join(BESIDE);
                let found = read_beside(&file, &edited, &names.folder);
                (file.into_os_string(), found)
            }
        };
        let is_asked_for = asked.is_some();
        let of_line = |(line, words): (usize, String)| Trouble::of_line(&file, line, words);
        let named = match found {
            Ok(Some(bytes)) => read(&bytes).map(Some).map_err(of_line),
            Ok(None) => Ok(None),
            Err(error) => Err(Trouble::unreadable_persons(&file, is_asked_for, &error)),
        };
        let (named, fault) = match named {
            Ok(named) => (named, None),
            Err(fault) => (None, Some(fault)),
        };
        Ok(Persons {
            file,
            is_asked_for,
            named,
            fault,
        })
    }

    /// The same, if a file that is asked for is without a fault.
    pub fn without_fault(mut self) -> Result<Persons, Trouble> {
        match self.fault.take_if(|_| self.is_asked_for) {
            Some(fault) => Err(fault),
            None => Ok(self),
        }
    }

    /// The person that a word asks for, by number or by name; nobody without a word.
    pub fn find(&mut self, word: Option<&OsStr>, command: &str) -> Result<Person, Trouble> {
        let Some(word) = word else {
            return Ok(Person::NOBODY);
        };
        let text = word.to_str();
        if let Some(person) = text.and_then(numbered) {
            return Ok(person);
        }
        if let Some(fault) = self.fault.take() {
            return Err(fault);
        }
        let mut named = self.named.iter().flatten();
        match named.find(|(_, name)| Some(name.as_str()) == text) {
            Some((person, _)) => Ok(*person),
            None => Err(self.unknown(word, command)),
        }
    }

    fn unknown(&self, word: &OsStr, command: &str) -> Trouble {
        let word = in_quotes(word.as_bytes());
        let there = match self.named {
            Some(_) => "",
            None => ", which is not there",
        };
        let words = format!(
            "{word} (--person or {PERSON}) is neither a number from 0 to 65535 nor a name in {}{there}",
            self.file_shown()
        );
        Trouble::usage_of(command, &words)
    }

    /// Warns of a file that cannot be used, where persons are told. Nobody is not told.
    pub fn warn(&mut self, told: impl IntoIterator<Item = Person>) {
        if told.into_iter().all(|person| person == Person::NOBODY) {
            return;
        }
        if let Some(fault) = self.fault.take() {
            fault.warning("persons are told without names").tell();
        }
    }

    /// Warns of a person who edits a file and has no name, where others have one.
    pub fn warn_of_nameless(&self, person: Person, edited: &OsStr) {
        if self.named.is_some() && person != Person::NOBODY && self.name(person).is_none() {
            let words = format!("person {} has no name in {}", person.0, self.file_shown());
            Trouble::warning_of(edited, words).tell();
        }
    }

    fn file_shown(&self) -> String {
        String::from_utf8_lossy(&shown(&self.file)).into_owned()
    }

    /// The name of a person.
    pub fn name(&self, person: Person) -> Option<&str> {
        self.named.as_ref()?.get(&person).map(String::as_str)
    }

    /// A person in words that stand after `by`.
    pub fn words(&self, person: Person) -> String {
        let number = format!("person {}", person.0);
        match self.name(person) {
            Some(name) => format!("{} ({number})", in_quotes(name.as_bytes())),
            None => number,
        }
    }
}

/// The word of the option --person or its variable.
pub fn given_person<'a>(
    word: &'a Option<OsString>,
    command: &str,
) -> Result<Option<&'a OsStr>, Trouble> {
    given(word, PERSON, "--person needs a number or a name", command)
}

/// The word of an option or its variable. An empty variable counts as none, and so does an empty option beside it, which cannot
/// be told apart; another empty option is bad usage.
fn given<'a>(
    word: &'a Option<OsString>,
    variable: &str,
    needed: &str,
    command: &str,
) -> Result<Option<&'a OsStr>, Trouble> {
    let word = word.as_deref();
    if word.is_none_or(|word| !word.is_empty()) {
        return Ok(word);
    }
    match env::var_os(variable).is_some_and(|value| value.is_empty()) {
        true => Ok(None),
        false => Err(Trouble::usage_of(command, needed)),
    }
}

/// The bytes of the file that is asked for.
fn read_asked(file: &Path) -> io::Result<Vec<u8>> {
    content(&disk::open_followed(file)?)
}

/// The bytes of the file beside an edited one; none if it is not there. As with a journal, a link is not followed, and the file
/// must not be of somebody who may only put it there.
fn read_beside(file: &Path, edited: &Metadata, folder: &Path) -> io::Result<Option<Vec<u8>>> {
    if fs::symlink_metadata(file).is_ok_and(|found| found.is_symlink()) {
        return Err(unused("it is a link, which is not followed"));
    }
    let (open, seen) = match disk::open(file) {
        Err(error) if error.kind() == ErrorKind::NotFound => return Ok(None),
        opened => opened?,
    };
    if !disk::is_believed(&seen, edited, folder)? {
        let words = "it was made by somebody who may not replace the edited file";
        return Err(unused(words));
    }
    content(&open).map(Some)
}

/// The file beside an edited one is there, but not used.
fn unused(words: &str) -> io::Error {
    io::Error::other(format!("{words} (--persons FILE names another)"))
}

fn content(open: &File) -> io::Result<Vec<u8>> {
    let bytes = disk::content(open, MOST)?;
    match bytes.len() > MOST {
        true => Err(io::Error::other("it is over 65,536 bytes")),
        false => Ok(bytes),
    }
}

/// The names in the bytes of a file; an Err has a line, from 1, and what is wrong in it.
fn read(bytes: &[u8]) -> Result<Named, (usize, String)> {
    let bytes = bytes.strip_prefix(BYTE_ORDER_MARK).unwrap_or(bytes);
    let mut named = Named::new();
    let (mut lines_of_numbers, mut lines_of_names) = (HashMap::new(), HashMap::new());
    for (number, line) in (1..).zip(bytes.split(|byte| *byte == b'\n')) {
        let wrong = |words| (number, words);
        let Some((person, name)) = read_line(line).map_err(wrong)? else {
            continue;
        };
        let twice = |what: String, first: Option<usize>| match first {
            Some(first) => Err(wrong(format!("{what} stands in line {first} already"))),
            None => Ok(()),
        };
        let of_number = lines_of_numbers.insert(person, number);
        twice(format!("the number {}", person.0), of_number)?;
        let of_name = lines_of_names.insert(name, number);
        twice(format!("the name {}", in_quotes(name.as_bytes())), of_name)?;
        named.insert(person, name.into());
    }
    Ok(named)
}

/// A line: a number, spaces or tabs, and a name. A blank line and one that starts with `#` have none; an Err says what is wrong.
fn read_line(line: &[u8]) -> Result<Option<(Person, &str)>, String> {
    const BLANKS: [char; 2] = [' ', '\t'];
    let line = std::str::from_utf8(line);
    let line = line.map_err(|_| "a file of persons is UTF-8, and this line is not")?;
    let line = line.trim_matches([' ', '\t', '\r']);
    if line.is_empty() || line.starts_with('#') {
        return Ok(None);
    }
    let parts = line.split_once(BLANKS);
    let (number, name) =
        parts.ok_or("in a file of persons each line has a number, a space and a name")?;
    let name = name.trim_start_matches(BLANKS);
    match numbered(number) {
        Some(Person::NOBODY) => {
            Err("0 is nobody named; persons have the numbers 1 to 65535".into())
        }
        None => {
            let number = in_quotes(number.as_bytes());
            Err(format!(
                "{number} is no number from 1 to 65535; each line of a file of persons starts with one"
            ))
        }
        Some(_) if is_number(name) => Err(format!(
            "the name {} is a number; after --person it would be read as one",
            in_quotes(name.as_bytes())
        )),
        Some(_) if name.contains(char::is_control) => {
            Err("a name has no control characters".into())
        }
        Some(person) => Ok(Some((person, name))),
    }
}

/// Whether a word is a number: decimal digits alone.
fn is_number(word: &str) -> bool {
    !word.is_empty() && word.bytes().all(|byte| byte.is_ascii_digit())
}

/// The person of a number, if it is one and not too large.
fn numbered(word: &str) -> Option<Person> {
    is_number(word).then(|| word.parse().ok().map(Person))?
}
