//! What goes wrong, told on standard error in one line: `FILE:LINE:BYTE: words`, so that editors jump there. On a terminal the
//! line of the file follows where the byte in it is known.

use std::ffi::{OsStr, OsString};
use std::io::{self, IsTerminal, Write};
use std::ops::Range;
use std::os::unix::ffi::OsStrExt;
use std::path::Path;
use std::process::ExitCode;

use kveldrim::{Kind, Place, Refusal, DESKTOP_ENTRY};
use serde_json::{json, Value};

use crate::arguments::PERSONS;
use crate::excerpt::excerpt;
use crate::expand::quoted;
use crate::faults::{self, Fault};
use crate::json::text;
use crate::locale;

/// A message, the exit status that goes with it, and what a terminal is shown besides.
pub struct Trouble {
    /// What the message is about: a file, or the command itself.
    about: OsString,
    /// Both count from 1.
    line: Option<usize>,
    byte: Option<usize>,
    /// Which refusal of a file it is, if it is one.
    kind: Option<Kind>,
    words: Vec<u8>,
    status: u8,
    excerpt: String,
}

const REFUSED: u8 = 1;
/// Bad usage, or a file that cannot be read or written.
const UNUSABLE: u8 = 2;
/// Another run edits the file; EX_TEMPFAIL of sysexits.
const BUSY: u8 = 75;

impl Trouble {
    fn new(about: &OsStr, words: impl Into<Vec<u8>>, status: u8) -> Trouble {
        Trouble {
            about: about.into(),
            line: None,
            byte: None,
            kind: None,
            words: words.into(),
            status,
            excerpt: String::new(),
        }
    }

    pub fn status(&self) -> u8 {
        self.status
    }

    /// Writes the message; a message that cannot be written leaves at least the status.
    pub fn tell(&self) -> ExitCode {
        let place = [self.line, self.byte].into_iter().flatten();
        let place: String = place.map(|number| format!(":{number}")).collect();
        let mut lines = [
            &shown(&self.about),
            place.as_bytes(),
            b": ",
            &self.words,
            b"\n",
        ]
        .concat();
        if io::stderr().is_terminal() {
            lines.extend(self.excerpt.as_bytes());
        }
        let _ = io::stderr().write_all(&lines);
        ExitCode::from(self.status)
    }

    /// The fault as an object (docs/JSON.md). What is no refusal of a file is one that cannot be read.
    pub fn object(&self) -> Value {
        json!({
            "file": text(self.about.as_bytes()),
            "ok": false,
            "line": self.line,
            "byte": self.byte,
            "kind": self.kind.map_or("unreadable".into(), Kind::name),
            "number": self.kind.map(Kind::number),
            "words": text(&self.words),
        })
    }

    /// The same as a warning, after words that say what it is about.
    pub fn warning(self, about: &str) -> Trouble {
        let words = [about.as_bytes(), b": ", &self.words].concat();
        Trouble { words, ..self }.warned()
    }

    fn warned(self) -> Trouble {
        Trouble {
            words: [b"warning: ", &self.words[..]].concat(),
            status: 0,
            ..self
        }
    }

    /// The same, with what was done all the same.
    pub fn although(self, done: impl AsRef<[u8]>) -> Trouble {
        let words = [&self.words[..], b"; ", done.as_ref()].concat();
        Trouble { words, ..self }
    }

    /// The same, told of a line of this file.
    pub fn at_line(self, file: &OsStr, line: usize) -> Trouble {
        Trouble {
            about: file.into(),
            line: Some(line),
            ..self
        }
    }

    /// The same, with which refusal it is.
    pub fn of_kind(self, kind: Kind) -> Trouble {
        Trouble {
            kind: Some(kind),
            ..self
        }
    }

    /// A warning about a file, or about the command itself.
    pub fn warning_of(about: &OsStr, words: impl Into<Vec<u8>>) -> Trouble {
        Trouble::new(about, words, 0).warned()
    }

    /// Something that a user should know of a file, which is no fault.
    pub fn note(file: &OsStr, words: &str) -> Trouble {
        Trouble::new(file, words, 0)
    }

    pub fn usage(words: &str) -> Trouble {
        Trouble::usage_by("kveldrim", words)
    }

    /// Bad usage of one of the commands.
    pub fn usage_of(command: &str, words: &str) -> Trouble {
        Trouble::usage_by(&format!("kveldrim {command}"), words)
    }

    fn usage_by(program: &str, words: &str) -> Trouble {
        let words = format!("{words} ({program} --help tells more)");
        Trouble::new(OsStr::new("kveldrim"), words, UNUSABLE)
    }

    pub fn unreadable(file: &OsStr, error: &io::Error) -> Trouble {
        Trouble::new(file, format!("cannot be read: {}", plain(error)), UNUSABLE)
    }

    /// A folder that was searched in vain.
    pub fn without_files(folder: &OsStr) -> Trouble {
        Trouble::new(folder, "no .desktop file in this folder", UNUSABLE)
    }

    pub fn uneditable(file: &OsStr, error: &io::Error) -> Trouble {
        Trouble::new(
            file,
            format!("cannot be edited: {}", plain(error)),
            UNUSABLE,
        )
    }

    /// A new file cannot be made.
    pub fn uncreatable(file: &OsStr, error: &io::Error) -> Trouble {
        let words = format!("cannot be created: {}", plain(error));
        Trouble::new(file, words, UNUSABLE)
    }

    pub fn unwritable(error: &io::Error) -> Trouble {
        let words = format!("the answer cannot be written: {}", plain(error));
        Trouble::new(OsStr::new("kveldrim"), words, UNUSABLE)
    }

    /// Another editor has the lock.
    pub fn busy(file: &OsStr) -> Trouble {
        let words = "another kveldrim is at work on this file just now; nothing was changed (--wait SECONDS waits for it)";
        Trouble::new(file, words, BUSY)
    }

    /// A file without a journal has just the bytes that a journal of no file belongs to.
    pub fn left_behind(file: &OsStr, journal: &Path, own: &Path) -> Trouble {
        let [from, to] = [journal, own].map(|path| path.as_os_str().as_bytes());
        let way_back = match [from, to].map(word) {
            [Some(from), Some(to)] => [b"mv -n ", &from[..], b" ", &to, b" gives it back"].concat(),
            _ => b"docs/JOURNAL.md tells how to rename it".to_vec(),
        };
        let words = [
            b"it has no journal, but seems to have been renamed: the journal ",
            &shown(journal.file_name().unwrap_or_default())[..],
            b" belongs to just these bytes (",
            &way_back,
            b")",
        ];
        Trouble::new(file, words.concat(), REFUSED)
    }

    /// The file is not the one that its journal was written for.
    pub fn foreign(file: &OsStr, journal: &OsStr) -> Trouble {
        let words = "another program has changed this file since its last edit, so its journal ";
        of_journal(file, words, journal, " no longer belongs to it")
    }

    pub fn damaged(file: &OsStr, journal: &OsStr) -> Trouble {
        of_journal(file, "its journal ", journal, " is damaged")
    }

    /// It is sound, so there is no advice to put it aside.
    pub fn newer(file: &OsStr, journal: &OsStr) -> Trouble {
        let words = "was written by a newer kveldrim, so update this one; nothing was changed";
        Trouble {
            status: REFUSED,
            ..Trouble::in_the_way(file, journal, words)
        }
    }

    /// A file of persons cannot be read.
    pub fn unreadable_persons(file: &OsStr, is_asked_for: bool, error: &io::Error) -> Trouble {
        let by = match is_asked_for {
            true => format!(" (--persons or {PERSONS})"),
            false => String::new(),
        };
        let words = format!("the file of persons{by} cannot be read: {}", plain(error));
        Trouble::new(file, words, UNUSABLE)
    }

    /// A file of persons or a table cannot be used because of one of its lines.
    pub fn of_line(file: &OsStr, line: usize, words: impl Into<Vec<u8>>) -> Trouble {
        Trouble::new(file, words, UNUSABLE).at_line(file, line)
    }

    /// A key was set, but the locale in its postfix reads another key's value, which starts at this offset in the file.
    pub fn unread(file: &OsStr, bytes: &[u8], offset: usize, key: &[u8]) -> Trouble {
        let (_, line) = line_at(bytes, offset);
        let (read, _) = faults::entry(&bytes[line]).unwrap_or_default();
        let (_, locale) = locale::parts(key).unwrap_or_default();
        let (plain, earlier, way_out) = match faults::plain(read) {
            None => ("the plain ", "", ""),
            Some(_) => ("", "earlier ", ", or remove it"),
        };
        let [key, read, locale] = [key, read, locale].map(faults::named);
        let words = format!(
            "the locale {locale} reads {plain}{read} in this {earlier}line, not {key}; set {read} instead{way_out}"
        );
        Trouble::at(file, bytes, offset, &words).warned()
    }

    pub fn refused(file: &OsStr, words: &str) -> Trouble {
        Trouble::new(file, words, REFUSED)
    }

    /// Two copies of a file do not agree; at a line of one of them.
    pub fn conflict(file: &OsStr, line: usize, words: &[u8]) -> Trouble {
        Trouble {
            line: Some(line),
            ..Trouble::new(file, [b"conflict: ", words].concat(), REFUSED)
        }
    }

    /// There is no merged file, which would have this name.
    pub fn unmerged(file: &OsStr, words: &str) -> Trouble {
        Trouble::new(file, format!("{words}; nothing was written"), UNUSABLE)
    }

    /// A journal is there whose edits a merged file would not have.
    pub fn in_the_way(file: &OsStr, journal: &OsStr, words: &str) -> Trouble {
        let words = [
            &b"its journal "[..],
            &shown(journal),
            b" ",
            words.as_bytes(),
        ];
        Trouble::new(file, words.concat(), UNUSABLE)
    }

    /// The same for a command whose status 1 means something else.
    pub fn unusable(self) -> Trouble {
        let status = match self.status {
            REFUSED => UNUSABLE,
            status => status,
        };
        Trouble { status, ..self }
    }

    /// A refusal of the file itself.
    pub fn of_file(file: &OsStr, bytes: &[u8], refusal: Refusal) -> Trouble {
        Trouble::of_fault(file, bytes, &Fault::of(bytes, refusal))
    }

    /// A fault of the file itself.
    pub fn of_fault(file: &OsStr, bytes: &[u8], fault: &Fault) -> Trouble {
        let trouble = match (fault.line, fault.byte) {
            (Some(line), Some(byte)) => {
                let offset = line_start(bytes, line) + byte;
                Trouble::at(file, bytes, offset, &fault.words)
            }
            (line, _) => Trouble {
                line,
                ..Trouble::refused(file, &fault.words)
            },
        };
        Trouble {
            kind: Some(fault.kind),
            ..trouble
        }
    }

    /// Something wrong at an offset in the file.
    pub fn at(file: &OsStr, bytes: &[u8], offset: usize, words: &str) -> Trouble {
        let (number, line) = line_at(bytes, offset);
        let byte = offset - line.start;
        Trouble {
            line: Some(number),
            byte: Some(byte + 1),
            excerpt: excerpt(&bytes[line], byte),
            ..Trouble::refused(file, words)
        }
    }

    /// A refusal of what is asked for, or of the file it is asked of.
    pub fn of_question(
        file: &OsStr,
        group: &[u8],
        key: &[u8],
        bytes: &[u8],
        refusal: Refusal,
    ) -> Trouble {
        match refusal.kind {
            Kind::Form => Trouble::new(file, form(group, key), REFUSED),
            Kind::Missing => Trouble::new(file, no_key(group, key), REFUSED),
            _ => Trouble::of_file(file, bytes, refusal),
        }
    }

    /// A refusal of a set or a remove.
    pub fn of_change(
        file: &OsStr,
        group: &[u8],
        key: &[u8],
        bytes: &[u8],
        refusal: Refusal,
    ) -> Trouble {
        let words = match refusal.kind {
            Kind::Form => form(group, key),
            Kind::Missing if faults::has_group(bytes, group) => no_key(group, key),
            Kind::Missing => [b"there is no group ", &escaped(group)[..]].concat(),
            Kind::Unfit => UNFIT.into(),
            Kind::NoRoom => "the file would be over 32,768 bytes".into(),
            Kind::NoPlain if refusal.place == 0 => [
                &escaped(key)[..],
                b" needs the same key without a [locale] in its group; set that first",
            ]
            .concat(),
            Kind::Postfixed => [
                &escaped(key)[..],
                b" cannot be removed while the same key with a [locale] remains; remove those first",
            ]
            .concat(),
            _ => return Trouble::of_file(file, bytes, refusal),
        };
        Trouble::new(file, words, REFUSED)
    }

    /// The journal has no room for an edit. Once so many of the oldest are forgotten, it has the room that is named.
    pub fn full(file: &OsStr, count: usize, room: &str) -> Trouble {
        let oldest = match count {
            1 => "the oldest edit".into(),
            _ => format!("the {count} oldest edits"),
        };
        let way_out = format!(" makes {room}: {oldest} can then no longer be undone)");
        let words = [
            b"the journal has no room for this edit (",
            &command("forget", file, count)[..],
            way_out.as_bytes(),
        ];
        Trouble::new(file, words.concat(), REFUSED)
    }

    /// A refusal of an undo, a redo or a forget, for which there are so many edits.
    pub fn of_step(
        file: &OsStr,
        bytes: &[u8],
        refusal: Refusal,
        step: &str,
        there: usize,
    ) -> Trouble {
        let words = match (refusal.kind, there) {
            (Kind::Nothing, 0) => format!("there is nothing to {step}"),
            (Kind::Nothing, 1) => format!("there is only one edit to {step}; nothing was changed"),
            (Kind::Nothing, _) => {
                format!("there are only {there} edits to {step}; nothing was changed")
            }
            _ => return Trouble::of_file(file, bytes, refusal),
        };
        Trouble::refused(file, &words)
    }

    /// A refusal of a value that starts at `start` in the file.
    pub fn of_value(file: &OsStr, bytes: &[u8], start: usize, refusal: Refusal) -> Trouble {
        match refusal.at() {
            Place::Offset(offset) => {
                let place = start + offset as usize;
                Trouble::at(file, bytes, place, &faults::escape(bytes, place))
            }
            _ => Trouble::of_file(file, bytes, refusal),
        }
    }
}

/// Tells what is wrong with the words of the command line. They may stand in it, as they came in.
pub fn misused(words: &str) -> ExitCode {
    let lines = words.split_inclusive('\n').map(|line| {
        let text = line.strip_suffix('\n').unwrap_or(line);
        [&escaped(text.as_bytes())[..], b"\n"].concat()
    });
    let _ = io::stderr().write_all(&lines.collect::<Vec<_>>().concat());
    ExitCode::from(UNUSABLE)
}

/// Writes a warning that is about no file.
pub fn warn(words: &[u8]) {
    Trouble::warning_of(OsStr::new("kveldrim"), words).tell();
}

/// Tells the first of many warnings about a file, and how many the others are, in the words for one and for several.
pub fn warn_of_many<A>(
    file: &OsStr,
    all: impl ExactSizeIterator<Item = A>,
    warning: impl Fn(A) -> Trouble,
    [one, several]: [&str; 2],
) {
    const MOST: usize = 10;
    let rest = all.len().saturating_sub(MOST);
    for item in all.take(MOST) {
        warning(item).tell();
    }
    let words = match rest {
        0 => return,
        1 => format!("1 more {one}"),
        rest => format!("{rest} more {several}"),
    };
    Trouble::warning_of(file, words).tell();
}

/// What Form means to somebody at a keyboard: which of the group, the key and the locale is not well written.
fn form(group: &[u8], key: &[u8]) -> Vec<u8> {
    let is_formed = |group: &[u8], key: &[u8]| {
        let asked = kveldrim::lookup(b"[Desktop Entry]\n", group, key);
        asked.is_err_and(|refusal| refusal.kind != Kind::Form)
    };
    let (wrong, words) = match () {
        () if !is_formed(group, b"A") => (
            group,
            "is no name of a group; it has ASCII characters other than [ and ], so leave brackets out",
        ),
        () if !is_formed(DESKTOP_ENTRY, key) => (
            key,
            "is no key; it has letters A-Z a-z, digits and -, then perhaps one [locale], as de, de_AT, de_AT.UTF-8 or de_AT.UTF-8@euro",
        ),
        () if key.contains(&b'[') => (key, "has a [locale] already, so --locale cannot stand beside it"),
        () => return b"the locale is not well written; it is as de, de_AT, de_AT.UTF-8 or de_AT.UTF-8@euro".to_vec(),
    };
    [&shown(OsStr::from_bytes(wrong))[..], b" ", words.as_bytes()].concat()
}

/// What Unfit means to somebody at a keyboard.
const UNFIT: &str =
    "this text cannot be set: it must be UTF-8, without control bytes other than tab, LF and CR";

/// What can be done about a journal.
const DISCARD: &str =
    " (set, remove, batch and merge put the journal aside with --discard-journal)";

fn no_key(group: &[u8], key: &[u8]) -> Vec<u8> {
    [
        &b"there is no key "[..],
        &escaped(key),
        b" in a group ",
        &escaped(group),
    ]
    .concat()
}

fn of_journal(file: &OsStr, before: &str, journal: &OsStr, after: &str) -> Trouble {
    let after = [after, DISCARD].concat();
    let words = [before.as_bytes(), &shown(journal), after.as_bytes()].concat();
    Trouble::new(file, words, REFUSED)
}

/// A name in a message: control characters, ends of lines, marks of direction and spaces without width are escaped. Others stay
/// as they are, and so do bytes that are not UTF-8.
pub fn shown(name: &OsStr) -> Vec<u8> {
    match name.is_empty() {
        true => b"''".to_vec(),
        false => escaped(name.as_bytes()),
    }
}

/// A command on so many edits of a file, as it can be pasted into a shell.
pub fn command(name: &str, file: &OsStr, count: usize) -> Vec<u8> {
    let file = file.as_bytes();
    let end = match file.starts_with(b"-") {
        true => "-- ",
        false => "",
    };
    let start = format!("kveldrim {name} {end}");
    let file = word(file).unwrap_or(b"FILE".to_vec());
    [start.as_bytes(), &file, format!(" {count}").as_bytes()].concat()
}

/// A name as a word of a shell, if a message shows it as it is.
fn word(name: &[u8]) -> Option<Vec<u8>> {
    (escaped(name) == name).then(|| quoted(name))
}

/// Text in which what alters a terminal is escaped.
pub fn escaped(text: &[u8]) -> Vec<u8> {
    let mut escaped = Vec::new();
    for chunk in text.utf8_chunks() {
        for character in chunk.valid().chars() {
            let mut bytes = [0; 4];
            let bytes = character.encode_utf8(&mut bytes).bytes();
            match is_harmful(character) {
                true => {
                    escaped.extend(bytes.flat_map(|byte| format!("\\x{byte:02X}").into_bytes()))
                }
                false => escaped.extend(bytes),
            }
        }
        escaped.extend(chunk.invalid());
    }
    escaped
}

/// Whether a terminal may show a text otherwise than it is because of this character.
pub fn is_harmful(character: char) -> bool {
    let is_mark = matches!(
        character,
        '\u{61C}' | '\u{200E}' | '\u{200F}' | '\u{202A}'..='\u{202E}' | '\u{2066}'..='\u{2069}'
    );
    let is_unseen = matches!(character, '\u{200B}' | '\u{2060}' | '\u{FEFF}');
    let is_end = matches!(character, '\u{2028}' | '\u{2029}');
    is_mark || is_unseen || is_end || character.is_control()
}

/// What the operating system says, without its number.
pub fn plain(error: &io::Error) -> String {
    let words = error.to_string();
    let Some((before, number)) = words.split_once(" (os error ") else {
        return words;
    };
    let after = number.split_once(')').map_or("", |(_, after)| after);
    [before, after].concat()
}

/// The number of the line that an offset in the file is in, and where that line stands, without its LF.
pub fn line_at(bytes: &[u8], offset: usize) -> (usize, Range<usize>) {
    let before = &bytes[..offset];
    let start = before.iter().rposition(|byte| *byte == b'\n');
    let start = start.map_or(0, |at| at + 1);
    let number = before.iter().filter(|byte| **byte == b'\n').count() + 1;
    let end = bytes[start..].iter().position(|byte| *byte == b'\n');
    let end = end.map_or(bytes.len(), |length| start + length);
    (number, start..end)
}

/// Where a line starts in the file; lines count from 1.
fn line_start(bytes: &[u8], line: usize) -> usize {
    let before = bytes.split_inclusive(|byte| *byte == b'\n');
    before.take(line - 1).map(<[u8]>::len).sum()
}

#[cfg(test)]
mod tests {
    use super::*;

    #[test]
    fn names_are_shown_without_what_alters_a_terminal() {
        let shown = |name: &[u8]| shown(OsStr::from_bytes(name)).escape_ascii().to_string();
        let same = |name: &[u8]| assert_eq!(shown(name), name.escape_ascii().to_string());
        assert_eq!(shown(b""), "\\'\\'");
        same("M\u{FC}ller \u{4E2D}\u{5D0} \\x1B.desktop".as_bytes());
        // Bytes that are not UTF-8, and letters with the bytes 0x80 to 0x9F in them.
        same(b"\xFF\x9B\xC2");
        same("\u{C0}\u{A0}\u{DB}\u{201E}".as_bytes());
        let escaped = |name: &str, expected: &str| {
            let expected = expected.as_bytes().escape_ascii().to_string();
            assert_eq!(shown(name.as_bytes()), expected);
        };
        escaped("a\x1B[1m\n\x7F", "a\\x1B[1m\\x0A\\x7F");
        escaped("\u{80}\u{9B}1m\u{9F}", "\\xC2\\x80\\xC2\\x9B1m\\xC2\\x9F");
        escaped("a\u{202E}b", "a\\xE2\\x80\\xAEb");
        let marks = "\u{61C}\u{200E}\u{200F}\u{202A}\u{2066}\u{2069}\u{2028}\u{2029}";
        for character in marks.chars().chain("\u{200B}\u{2060}\u{FEFF}".chars()) {
            let name = character.to_string();
            let expected: String = name.bytes().map(|byte| format!("\\x{byte:02X}")).collect();
            escaped(&name, &expected);
        }
    }

    #[test]
    fn errors_are_told_without_their_number() {
        let plain_of = |words: &str| plain(&io::Error::other(words.to_string()));
        assert_eq!(
            plain(&io::Error::from_raw_os_error(2)),
            "No such file or directory"
        );
        assert_eq!(plain_of("a (os error 13): b"), "a: b");
        assert_eq!(plain_of("it is no file"), "it is no file");
    }
}
