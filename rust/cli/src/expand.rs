//! `kveldrim expand`: writes the arguments of a file's command, or of that of an action. It starts nothing.

use std::ffi::OsStr;
use std::ops::Range;
use std::os::unix::ffi::OsStrExt;
use std::process::ExitCode;

use kveldrim::{Kind, Refusal, DESKTOP_ENTRY};
use serde_json::{json, Value};

use crate::arguments::Expand;
use crate::json::{line, text};
use crate::report::Trouble;
use crate::{actions, faults, locale, streams};

/// What is asked of a file's command, or of that of one of its actions.
struct Asked<'a> {
    name: &'a OsStr,
    file: &'a [u8],
    action: Option<&'a [u8]>,
    items: Vec<&'a [u8]>,
    locale: Vec<u8>,
    location: &'a [u8],
}

/// The arguments of a run.
type Arguments = Vec<Vec<u8>>;

/// The command.
pub fn expand(expand: &Expand) -> ExitCode {
    streams::answer(&expand.file, |file| answer(expand, file))
}

/// What is wrong with a file's command, or with that of an action; none if there is no Exec, or the action is not listed.
pub fn trouble_of(name: &OsStr, file: &[u8], action: Option<&[u8]>) -> Option<Trouble> {
    let asked = Asked {
        name,
        file,
        action,
        items: Vec::new(),
        locale: Vec::new(),
        location: b"",
    };
    asked.exec().ok()?;
    let refusal = asked.count_runs().err()?;
    let unlisted = action.and_then(|action| actions::unlisted(file, action));
    unlisted.is_none().then(|| asked.trouble(refusal))
}

/// The words for a file's Exec, or for that of an action.
pub fn exec_of(action: Option<&[u8]>) -> String {
    match action {
        Some(action) => format!("Exec of the action {}", faults::named(action)),
        None => "Exec".into(),
    }
}

/// What is to be written.
fn answer(expand: &Expand, file: &[u8]) -> Result<Vec<u8>, Trouble> {
    // Standard input is nowhere.
    let own = Some(&*expand.file).filter(|file| *file != streams::STDIN);
    let location = expand.location.as_deref().or(own).unwrap_or_default();
    let asked = Asked {
        name: &expand.file,
        file,
        action: expand.action.as_deref().map(OsStr::as_bytes),
        items: expand.files.iter().map(|item| item.as_bytes()).collect(),
        locale: locale::of_names(file, &[DESKTOP_ENTRY], &expand.locale),
        location: location.as_bytes(),
    };
    let told = |refusal| asked.trouble(refusal);
    if expand.runs {
        let runs = asked.count_runs().map_err(told)?;
        return Ok(match expand.json.json {
            true => line(&json!({ "runs": runs })),
            false => format!("{runs}\n").into_bytes(),
        });
    }
    let runs = match (expand.run, expand.all) {
        (Some(run), _) => run..=run,
        (None, true) => 0..=asked.count_runs().map_err(told)? - 1,
        (None, false) => {
            asked.tell_of_more(asked.count_runs().map_err(told)?);
            0..=0
        }
    };
    let mut bytes = Vec::new();
    let mut has_control = false;
    for run in runs {
        let arguments = asked.arguments(run).map_err(told)?;
        has_control |= arguments.iter().flatten().any(u8::is_ascii_control);
        bytes.extend(shown(expand, run, &arguments));
    }
    asked.tell_of_unused();
    if has_control && !expand.null && !expand.json.json {
        let words = "warning: an argument has control bytes, so do not paste this line into a terminal (--null and --json are safe)";
        Trouble::note(&expand.file, words).tell();
    }
    Ok(bytes)
}

/// A run as it is written: a line that a shell reads, arguments with a zero byte after each, or an object.
fn shown(expand: &Expand, run: u64, arguments: &Arguments) -> Vec<u8> {
    if expand.json.json {
        let array = arguments.iter().map(|argument| text(argument));
        let array: Vec<Value> = array.collect();
        return line(&json!({ "run": run, "arguments": array }));
    }
    if expand.null {
        return arguments
            .iter()
            .flat_map(|argument| [&argument[..], b"\0"].concat())
            .collect();
    }
    let words: Vec<_> = arguments.iter().map(|argument| quoted(argument)).collect();
    [words.join(&b' '), b"\n".to_vec()].concat()
}

impl Asked<'_> {
    fn arguments(&self, run: u64) -> Result<Arguments, Refusal> {
        let (file, locale, location, items) = self.lent();
        match self.action {
            Some(action) => {
                kveldrim::expand_action_args(file, action, locale, location, items, run)
            }
            None => kveldrim::expand_args(file, locale, location, items, run),
        }
    }

    fn count_runs(&self) -> Result<u64, Refusal> {
        let (file, locale, location, items) = self.lent();
        match self.action {
            Some(action) => kveldrim::action_runs(file, action, locale, location, items),
            None => kveldrim::runs(file, locale, location, items),
        }
    }

    /// What every expansion is lent.
    fn lent(&self) -> (&[u8], &[u8], &[u8], &[&[u8]]) {
        (self.file, &self.locale, self.location, &self.items)
    }

    /// The group of Exec and Icon.
    fn group(&self) -> Vec<u8> {
        self.action.map_or(DESKTOP_ENTRY.into(), actions::group_of)
    }

    /// Where the raw value of Exec stands.
    fn exec(&self) -> Result<Range<usize>, Refusal> {
        kveldrim::lookup_ends(self.file, &self.group(), b"Exec")
    }

    /// The text of Exec, empty if it cannot be read.
    fn exec_text(&self) -> Vec<u8> {
        let text = self
            .exec()
            .and_then(|exec| kveldrim::read_text_vec(&self.file[exec]));
        text.unwrap_or_default()
    }

    /// Says on standard error that run 0 is not all, so that no file is missed.
    fn tell_of_more(&self, runs: u64) {
        if runs > 1 {
            let words = format!("this is run 0 of {runs}; --all writes them all, --run N another");
            Trouble::note(self.name, &words).tell();
        }
    }

    /// Says on standard error that no file reaches the program, where there are some.
    fn tell_of_unused(&self) {
        if !self.items.is_empty() && faults::file_code(&self.exec_text()).is_none() {
            let words = format!(
                "{} has none of %f, %F, %u and %U, so no file is handed to the program",
                exec_of(self.action)
            );
            Trouble::note(self.name, &words).tell();
        }
    }

    /// A refusal in words, at its line and byte where they are known.
    fn trouble(&self, refusal: Refusal) -> Trouble {
        let say = |words: &str| Trouble::refused(self.name, words);
        match refusal.kind {
            Kind::Form => say(
                "the locale is not well written (as de, de_AT, de_AT.UTF-8 or de_AT.UTF-8@euro)",
            ),
            Kind::Missing => say(&self.missing()),
            Kind::Escape | Kind::BadExec | Kind::BadCode => {
                let place = self.place_in_file(refusal);
                Trouble::at(self.name, self.file, place, &self.fault(refusal, place))
            }
            Kind::Unfit => {
                say("the name of a file to open is empty, or the location is over 4,096 bytes")
            }
            Kind::Damaged => {
                say("the names of the files to open are over 65,536 bytes, with 6 more for each")
            }
            _ => Trouble::of_file(self.name, self.file, refusal),
        }
    }

    /// What is wrong with the command, or with an escape at a place in the file.
    fn fault(&self, refusal: Refusal, place: usize) -> String {
        if refusal.kind == Kind::Escape {
            return faults::escape(self.file, place);
        }
        faults::exec(&self.exec_text(), refusal)
    }

    /// What is missing: the action, Exec, the run, or the Name that `%c` needs.
    fn missing(&self) -> String {
        let action = self.action;
        if let Some(words) = action.and_then(|action| actions::missing(self.file, action)) {
            return words;
        }
        if self.exec().is_err() {
            let group = faults::named(&self.group());
            return format!("there is no key Exec in a group {group}");
        }
        match self.count_runs() {
            Ok(1) => "there is no such run; there is only run 0".into(),
            Ok(runs) => format!("there is no such run; the last is {}", runs - 1),
            Err(_) => format!(
                "there is no key Name in a group Desktop Entry; %c in {} needs it",
                exec_of(self.action)
            ),
        }
    }

    /// Where a fault of Exec, or a wrong escape of Actions, Exec, Name or Icon, stands in the file.
    fn place_in_file(&self, refusal: Refusal) -> usize {
        let place = refusal.place as usize;
        let exec = self.exec().unwrap_or(0..0);
        let raw = &self.file[exec.clone()];
        if refusal.kind != Kind::Escape {
            return exec.start + raw_place(raw, place);
        }
        let list = self.action.and_then(|_| actions::wrong_list(self.file));
        if let Some(start) = list {
            return start + place;
        }
        let Ok(text) = kveldrim::read_text_vec(raw) else {
            return exec.start + place;
        };
        let chosen = |group: &[u8], key: &[u8]| {
            let ends = kveldrim::choose_ends(self.file, group, key, &self.locale);
            ends.unwrap_or(0..0)
        };
        let name = chosen(DESKTOP_ENTRY, b"Name");
        let has_name = faults::codes(&text).any(|code| code == b'c');
        if has_name && kveldrim::read_text_vec(&self.file[name.clone()]).is_err() {
            return name.start + place;
        }
        chosen(&self.group(), b"Icon").start + place
    }
}

/// Words that dash, bash or zsh may take for more than words, at the start of a command.
const KEYWORDS: &[&[u8]] = &[
    b"case",
    b"coproc",
    b"do",
    b"done",
    b"elif",
    b"else",
    b"end",
    b"esac",
    b"fi",
    b"for",
    b"foreach",
    b"function",
    b"if",
    b"in",
    b"namespace",
    b"nocorrect",
    b"repeat",
    b"select",
    b"then",
    b"time",
    b"until",
    b"while",
];

/// An argument as dash, bash and zsh read it: bare where it is surely one word, else in single quotes. At the front of a word `=`
/// asks zsh for a command's path, and `%` a shell for a job.
pub fn quoted(argument: &[u8]) -> Vec<u8> {
    let bare = |byte: &u8| byte.is_ascii_alphanumeric() || b"_-./:=@%+,".contains(byte);
    let is_bare = argument.iter().all(bare)
        && !argument.is_empty()
        && !argument.starts_with(b"=")
        && !argument.starts_with(b"%")
        && !KEYWORDS.contains(&argument);
    if is_bare {
        return argument.to_vec();
    }
    let parts: Vec<_> = argument.split(|byte| *byte == b'\'').collect();
    [b"'", &parts.join(&b"'\\''"[..])[..], b"'"].concat()
}

/// The place in a raw value of a byte of its text: an escape is two bytes for one.
fn raw_place(raw: &[u8], place: usize) -> usize {
    let mut at = 0;
    for _ in 0..place {
        at += if raw.get(at) == Some(&b'\\') { 2 } else { 1 };
    }
    at.min(raw.len())
}
