//! Expansions: the library against the reference, and what they are asked. Commands are made by a small grammar, whole or
//! with faults; files, lists, locales and locations are right mostly.

use std::fmt;

use kveldrim::ffi::{kveldrim_expand, kveldrim_expand_action};
use kveldrim::DESKTOP_ENTRY;
use reference::Refusal;

use crate::asker::{refusal, Asker};
use crate::bounds::{FILE_BOUND, LIST_BOUND, LOCATION_BOUND};
use crate::files::spoil;
use crate::lent::Output;
use crate::pieces::{self, MULLER};
use crate::random::Random;

/// The arguments of an expansion but for its output.
#[derive(Clone)]
pub struct Question {
    pub file: Vec<u8>,
    /// The action that is expanded; none for the application itself.
    pub action: Option<Vec<u8>>,
    pub locale: Vec<u8>,
    pub location: Vec<u8>,
    /// The items, where the list is made of them alone.
    pub items: Option<Vec<Vec<u8>>>,
    pub list: Vec<u8>,
    pub run: u64,
}

/// What the call is handed: file, locale, location and list by pointer and length, perhaps an action too, the run, and where it
/// writes.
pub struct Given {
    pub inputs: [(*const u8, usize); 4],
    pub action: Option<(*const u8, usize)>,
    pub run: u64,
    pub output: Output,
}

/// The call of the proved library.
pub fn proved(given: &Given) -> u32 {
    let [file, locale, location, list] = given.inputs;
    let Output {
        out,
        place,
        byte,
        written,
    } = given.output;
    // SAFETY: the bytes and the numbers outlive the call.
    unsafe {
        match given.action {
            None => kveldrim_expand(
                file.0, file.1, locale.0, locale.1, location.0, location.1, list.0, list.1,
                given.run, out.0, out.1, place, byte, written,
            ),
            Some(action) => kveldrim_expand_action(
                file.0, file.1, action.0, action.1, locale.0, locale.1, location.0, location.1,
                list.0, list.1, given.run, out.0, out.1, place, byte, written,
            ),
        }
    }
}

type Told<A> = Result<A, Refusal>;

impl Question {
    /// A question without action, locale, location and items.
    pub fn of(file: Vec<u8>) -> Question {
        Question {
            file,
            action: None,
            locale: Vec::new(),
            location: Vec::new(),
            items: Some(Vec::new()),
            list: Vec::new(),
            run: 0,
        }
    }

    /// The same question of another file.
    pub fn about(&self, file: Vec<u8>) -> Question {
        Question {
            file,
            ..self.clone()
        }
    }

    /// The same of other items, or of a list that is damaged.
    fn list(&mut self, items: Vec<Vec<u8>>, random: &mut Random) {
        self.list = kveldrim::list_of(&items);
        self.items = Some(items);
        if random.once_in(12) {
            damage(&mut self.list, random);
            self.items = None;
        }
    }

    /// The name of the call.
    fn name(&self) -> &'static str {
        match self.action {
            None => "expand",
            Some(_) => "expand_action",
        }
    }

    /// The group whose Exec and Icon are taken.
    fn group(&self) -> Vec<u8> {
        match &self.action {
            None => DESKTOP_ENTRY.to_vec(),
            Some(action) => reference::action_group(action),
        }
    }

    /// Asks both with outputs of several sizes, then the bindings, and tells the first difference.
    pub fn compare(&self, asker: &mut Asker) -> Result<(), String> {
        self.compare_by(&proved, asker)
    }

    /// As [`Question::compare`], of any library.
    pub fn compare_by(
        &self,
        expander: &dyn Fn(&Given) -> u32,
        asker: &mut Asker,
    ) -> Result<(), String> {
        let expected = self.records();
        self.count(&expected, asker);
        self.all_sizes(&expected, expander, asker)
            .and_then(|()| self.bindings(&expected))
            .map_err(|difference| format!("{self}\n{difference}"))
    }

    /// Counts the choices of Name and Icon, where the expansion has an answer and their codes stand in Exec; else why an action
    /// is refused.
    fn count(&self, expected: &Told<Vec<u8>>, asker: &mut Asker) {
        let (file, locale, group) = (&self.file, &self.locale, &self.group());
        if let Some(reason) = self.reason(expected) {
            asker.count(reason, expected);
        }
        let (Ok(_), Ok((from, to))) = (expected, reference::lookup(file, group, b"Exec")) else {
            return;
        };
        let exec = String::from_utf8_lossy(&file[from..to]).replace("%%", "");
        for (group, key, code) in [(DESKTOP_ENTRY, "Name", "%c"), (group, "Icon", "%i")] {
            if exec.contains(code) {
                let answer = reference::choose(file, group, key.as_bytes(), locale);
                asker.count_encodings(key, file, locale, answer);
            }
        }
    }

    /// What an 8 or a 9 of an action is about.
    fn reason(&self, expected: &Told<Vec<u8>>) -> Option<&'static str> {
        let action = self.action.as_ref()?;
        let number = expected.as_ref().err()?.number;
        let listed = reference::listed(&self.file);
        let text = |answer: Told<(usize, usize)>| {
            answer.and_then(|(from, to)| reference::text::unescape(&self.file[from..to]))
        };
        let exec = text(reference::lookup(&self.file, &self.group(), b"Exec"));
        let name = reference::choose(&self.file, DESKTOP_ENTRY, b"Name", &self.locale);
        Some(match (number, listed, exec) {
            (8, Ok(listed), _) if !listed.contains(action) => "expand_action, not listed",
            (8, _, Err(_)) => "expand_action, no Exec",
            (8, ..) if self.runs().is_ok_and(|runs| self.run >= runs) => "expand_action, no run",
            (8, ..) => "expand_action, no Name",
            (9, Err(_), _) => "expand_action, escape of Actions",
            (9, _, Err(_)) => "expand_action, escape of Exec",
            (9, ..) if text(name).is_err() => "expand_action, escape of Name",
            (9, ..) => "expand_action, escape of Icon",
            _ => return None,
        })
    }

    /// The call in each size of the output.
    fn all_sizes(
        &self,
        expected: &Told<Vec<u8>>,
        expander: &dyn Fn(&Given) -> u32,
        asker: &mut Asker,
    ) -> Result<(), String> {
        let sizes = asker.sizes_for(expected);
        let action = self.action.as_deref().unwrap_or_default();
        asker.output_calls(
            self.name(),
            [&self.file, &self.locale, &self.location, &self.list, action],
            sizes,
            &|[file, locale, location, list, action], output| {
                expander(&Given {
                    inputs: [file, locale, location, list],
                    action: self.action.as_ref().map(|_| action),
                    run: self.run,
                    output,
                })
            },
            &|out| self.reference(out),
        )
    }

    /// What the reference writes where there is room enough.
    fn records(&self) -> Told<Vec<u8>> {
        let mut out = vec![0; 4_096];
        loop {
            match self.reference(&mut out) {
                Err(Refusal { number: 11, .. }) => out.resize(out.len() * 4, 0),
                told => return told.map(|written| out[..written].to_vec()),
            }
        }
    }

    fn reference(&self, out: &mut [u8]) -> Told<usize> {
        let (file, locale, location) = (&self.file, &self.locale, &self.location);
        let (list, run) = (&self.list, self.run);
        match &self.action {
            None => reference::expand(file, locale, location, list, run, out),
            Some(action) => {
                reference::expand_action(file, action, locale, location, list, run, out)
            }
        }
    }

    /// The number of runs by the reference.
    fn runs(&self) -> Told<u64> {
        let (file, locale, location) = (&self.file, &self.locale, &self.location);
        match &self.action {
            None => reference::runs(file, locale, location, &self.list),
            Some(action) => reference::action_runs(file, action, locale, location, &self.list),
        }
    }

    /// Whether the bindings give the same arguments and the same number of runs.
    fn bindings(&self, expected: &Told<Vec<u8>>) -> Result<(), String> {
        let Some(items) = &self.items else {
            return Ok(());
        };
        let (file, locale, location, run) = (&self.file, &self.locale, &self.location, self.run);
        let arguments = match &self.action {
            None => kveldrim::expand_args(file, locale, location, items, run),
            Some(action) => {
                kveldrim::expand_action_args(file, action, locale, location, items, run)
            }
        };
        let expected = expected.clone().map(|records| split(&records));
        same("arguments", told(arguments), &expected)?;
        // The bindings also ask for Name and Icon before they tell a number of runs.
        if expected.is_ok() {
            let runs = match &self.action {
                None => kveldrim::runs(file, locale, location, items),
                Some(action) => kveldrim::action_runs(file, action, locale, location, items),
            };
            same("runs", told(runs), &self.runs())?;
        }
        Ok(())
    }
}

impl fmt::Display for Question {
    fn fmt(&self, f: &mut fmt::Formatter<'_>) -> fmt::Result {
        write!(f, "{}", self.name())?;
        if let Some(action) = &self.action {
            write!(f, " \"{}\"", action.escape_ascii())?;
        }
        let (locale, location) = (self.locale.escape_ascii(), self.location.escape_ascii());
        let (list, run) = (self.list.escape_ascii(), self.run);
        write!(
            f,
            ", locale \"{locale}\", location \"{location}\", list \"{list}\", run {run}"
        )
    }
}

fn told<A>(answer: Result<A, kveldrim::Refusal>) -> Told<A> {
    answer.map_err(refusal)
}

fn same<A: PartialEq + fmt::Debug>(
    of: &str,
    found: Told<A>,
    expected: &Told<A>,
) -> Result<(), String> {
    if &found == expected {
        return Ok(());
    }
    Err(format!(
        "{of} of the bindings   {found:?}\nof the reference  {expected:?}"
    ))
}

/// The bytes of each record that an accepted call wrote.
pub(crate) fn split(mut records: &[u8]) -> Vec<Vec<u8>> {
    let mut items = Vec::new();
    while let Some(length) = records.first_chunk() {
        let length = u32::from_le_bytes(*length) as usize;
        items.push(records[6..length].to_vec());
        records = &records[length..];
    }
    items
}

/// Any question, with one thing in `once` wrong: in the command, and in what stands around it.
pub fn question(random: &mut Random, once: usize) -> Question {
    let exec = match random.below(8) {
        0 => wild_command(random),
        _ => command(random, once),
    };
    let mut file = file_of(&raw(&exec, random), random, once);
    if random.once_in(15) {
        spoil(&mut file, random);
    }
    of_file(file, random)
}

/// Commands with Name or Icon in them.
const NAMED: &[&str] = &["v %c %f", "v %i %u", "v %i --name=%c %f", "v %c%c %u %i %i"];

/// A question whose answer has Name or Icon in it.
pub fn of_names(random: &mut Random) -> Question {
    let file = file_of(random.pick(NAMED).as_bytes(), random, pieces::SOUND);
    of_file(file, random)
}

/// A question of this file and any of few items.
pub fn of_file(file: Vec<u8>, random: &mut Random) -> Question {
    let items = items(random);
    asked(file, items, random)
}

/// A question of this file and these items, with the other arguments right mostly.
fn asked(file: Vec<u8>, items: Vec<Vec<u8>>, random: &mut Random) -> Question {
    let mut question = Question::of(file);
    question.locale = locale(random);
    question.location = location(random);
    question.run = run(items.len(), random);
    question.list(items, random);
    question
}

/// A command: a program and some words, parted by spaces; one piece in `once` is wrong.
pub fn command(random: &mut Random, once: usize) -> Vec<u8> {
    let mut command = spaces(random, 0);
    let mut file_codes = 0;
    if !random.once_in(once.saturating_mul(2)) {
        command.extend(program(random, once));
    }
    for _ in 0..random.below(6) {
        command.extend(spaces(random, 1));
        command.extend(word(random, once, &mut file_codes));
    }
    command.extend(spaces(random, 0));
    command
}

fn spaces(random: &mut Random, least: usize) -> Vec<u8> {
    let more = if random.once_in(6) { 2 } else { 0 };
    vec![b' '; random.within(least, least + more)]
}

const PROGRAMS: &[&str] = &[
    "view",
    "/usr/bin/view",
    "%%",
    "a%%b",
    "\"view\"",
    "\"a b\"",
    "\"\\$x\"",
    "\"%%\"",
];

const WRONG_PROGRAMS: &[&str] = &[
    "\"\"", "\"\"x", "a=b", "\"a=b\"", "%f", "%F", "%i", "%k", "%d", "a%c", "\"%f\"", "=", "%",
];

fn program(random: &mut Random, once: usize) -> Vec<u8> {
    let from = match random.once_in(once) {
        true => WRONG_PROGRAMS,
        false => PROGRAMS,
    };
    random.pick(from).into()
}

const WHOLE_CODES: &[&str] = &["%F", "%U"];
const ITEM_CODES: &[&str] = &["%f", "%u"];
const FREE_CODES: &[&str] = &[
    "%c", "%k", "%%", "%c", "%k", "%d", "%D", "%n", "%N", "%v", "%m",
];

/// A word: a code that stands alone, a quoted one, or one of bytes and codes.
fn word(random: &mut Random, once: usize, file_codes: &mut usize) -> Vec<u8> {
    let more_files = *file_codes == 0 || random.once_in(once);
    match random.below(8) {
        0 if more_files => {
            *file_codes += 1;
            random.pick(WHOLE_CODES).into()
        }
        1 => b"%i".to_vec(),
        2 | 3 => quoted(random, once),
        _ => plain(random, once, file_codes),
    }
}

const PLAIN: &[&str] = &[
    "a", "--x=", "b.txt", "=", "/", "\r", "[", "]", "{", "0", "-", "!", "^", ",", "}",
];

/// Where a rule of unquoted words is broken.
const WRONG_PLAIN: &[&str] = &[
    "\t", "\n", "\"", "'", "\\", ">", "<", "~", "|", "&", ";", "$", "*", "?", "#", "(", ")", "`",
    "\u{FC}", "\u{80}", "%", "%z", "%%%", "%=", "%\"", "%\u{FC}", "%F", "%U", "%i", "% ", "\"a\"",
];

fn plain(random: &mut Random, once: usize, file_codes: &mut usize) -> Vec<u8> {
    let mut word = Vec::new();
    for _ in 0..random.within(1, 4) {
        if random.once_in(once) {
            word.extend(random.pick(WRONG_PLAIN).bytes());
            continue;
        }
        let more_files = *file_codes == 0 || random.once_in(once);
        let piece = match random.below(7) {
            0 if more_files => {
                *file_codes += 1;
                random.pick(ITEM_CODES)
            }
            1 | 2 => random.pick(FREE_CODES),
            _ => random.pick(PLAIN),
        };
        word.extend(piece.bytes());
    }
    word
}

const QUOTED: &[&str] = &[
    "a", " ", "  ", "\\\"", "\\`", "\\$", "\\\\", "%%", "'", ">", "<", "~", "|", "&", ";", "*",
    "?", "#", "(", ")", "\t", "\n", "\r", "=", "f",
];

/// Where a rule of quoted words is broken.
const WRONG_QUOTED: &[&str] = &[
    "$",
    "`",
    "\\",
    "\\a",
    "\\%",
    "\\ ",
    "\"",
    "%",
    "%f",
    "%F",
    "%z",
    "%%%",
    "\u{FC}",
    "\\\u{FC}",
    "\u{10FFFF}",
    "\\\\\\",
    "\" ",
];

fn quoted(random: &mut Random, once: usize) -> Vec<u8> {
    let mut word = vec![b'"'];
    for _ in 0..random.below(5) {
        let from = match random.once_in(once) {
            true => WRONG_QUOTED,
            false => QUOTED,
        };
        word.extend(random.pick(from).bytes());
    }
    if !random.once_in(once) {
        word.push(b'"');
    }
    if random.once_in(once) {
        word.extend(random.pick(&["a", "%z", "\"", "\\", "%f", "\t"]).bytes());
    }
    word
}

/// Bytes of one narrow kind, so that the rules meet often.
fn wild_command(random: &mut Random) -> Vec<u8> {
    let from: &[u8] = match random.below(4) {
        0 => b"a \"\\%",
        1 => b"a %fFuUickdz",
        2 => b"\"\\$`a %",
        _ => b"a= \"'\\><~|&;$*?#()`%f\t\n\r",
    };
    let bytes = (0..random.below(14)).map(|_| random.byte_of(from));
    bytes.collect()
}

/// The raw value of a command, with Name or Icon in it in one of two; one piece in `once` is wrong.
pub(crate) fn raw_command(random: &mut Random, once: usize) -> Vec<u8> {
    match random.once_in(2) {
        true => random.pick(NAMED).into(),
        false => raw(&command(random, once), random),
    }
}

/// The raw value of a text: as it is written, or with an escape for a space now and then.
pub(crate) fn raw(text: &[u8], random: &mut Random) -> Vec<u8> {
    let mut raw = Vec::new();
    for byte in text {
        match byte {
            b'\\' => raw.extend(b"\\\\"),
            b'\n' => raw.extend(b"\\n"),
            b'\t' => raw.extend(b"\\t"),
            b'\r' => raw.extend(b"\\r"),
            b' ' if raw.is_empty() || random.once_in(9) => raw.extend(b"\\s"),
            byte => raw.push(*byte),
        }
    }
    raw
}

const WRONG_RAW: &[&str] = &["\\", "\\q", "\\;", "\\\u{FC}", "a\\", "\\S"];

/// A value with a wrong escape in it.
pub(crate) fn wrong_raw(value: &[u8], random: &mut Random) -> Vec<u8> {
    let mut wrong = value.to_vec();
    let at = random.below(wrong.len() + 1);
    wrong.splice(at..at, random.pick(WRONG_RAW).bytes());
    wrong
}

/// A file with this Exec, mostly.
fn file_of(exec: &[u8], random: &mut Random, once: usize) -> Vec<u8> {
    let mut lines = lines_of(exec, random, once);
    lines.push(b"Type=Application\n".to_vec());
    random.shuffle(&mut lines);
    let mut file = [b"[Desktop Entry]\n", &lines.concat()[..]].concat();
    if random.once_in(6) {
        file.extend(b"[Desktop Action a]\nExec=action %F\nName=Action\nIcon=action\n");
    }
    if random.once_in(8) {
        file.pop();
    }
    file
}

/// The lines of a group with this Exec, mostly: with Name and Icon there, missing, localized or wrong.
pub(crate) fn lines_of(exec: &[u8], random: &mut Random, once: usize) -> Vec<Vec<u8>> {
    let mut lines = Vec::new();
    let exec = match random.once_in(once.saturating_mul(2)) {
        true => wrong_raw(exec, random),
        false => exec.to_vec(),
    };
    if !random.once_in(30) {
        lines.push([b"Exec=", &exec[..], b"\n"].concat());
        if random.once_in(20) {
            lines.push(b"Exec[de]=other %z\n".to_vec());
        }
    }
    lines.extend(values_of("Name", random, once));
    lines.extend(values_of("Icon", random, once));
    lines
}

const NAMES: &[&str] = &[
    "Lesen",
    "",
    "a b",
    "%f",
    "\\s",
    "M\u{FC}ller",
    "a\\n\\t\\\\\\r",
    "\\$\"x\"",
    "--x=%k",
];

/// The lines of a key, plain and localized, some of these alike but for their encoding; or none.
fn values_of(key: &str, random: &mut Random, once: usize) -> Vec<Vec<u8>> {
    if random.once_in(8) {
        return Vec::new();
    }
    let mut postfixes = vec![Vec::new()];
    for locale in ["de", "fr", "de_AT", "sr@Latn", "C"] {
        if random.once_in(2) {
            let encodings = ["", ".UTF-8", ".x"].into_iter();
            let some = encodings.filter(|_| random.once_in(2));
            postfixes.extend(some.map(|encoding| {
                let locale = pieces::with_encoding(locale.as_bytes(), encoding.as_bytes());
                [b"[", &locale[..], b"]"].concat()
            }));
        }
    }
    let mut line = |postfix: Vec<u8>| {
        let mut value = random.pick(NAMES).replace("\\$", "$").into_bytes();
        if random.once_in(once) {
            value = wrong_raw(&value, random);
        }
        [key.as_bytes(), &postfix, b"=", &value, b"\n"].concat()
    };
    postfixes.into_iter().map(&mut line).collect()
}

pub(crate) fn locale(random: &mut Random) -> Vec<u8> {
    match random.below(12) {
        0 => pieces::wrong_locale(random),
        1 => pieces::locale(random),
        2 => Vec::new(),
        number => {
            let locales = [
                "de",
                "de_AT.UTF-8",
                "fr_FR",
                "C",
                "C_DE",
                "POSIX",
                "sr_YU@Latn",
                "en",
            ];
            let locale = random.pick(&locales).as_bytes();
            match number {
                3..=7 => pieces::recoded(locale, random),
                _ => locale.to_vec(),
            }
        }
    }
}

fn location(random: &mut Random) -> Vec<u8> {
    match random.below(60) {
        0 => b"a\0".to_vec(),
        1 => vec![b'l'; LOCATION_BOUND],
        2 => vec![b'l'; LOCATION_BOUND + 1],
        3 => b"\0".to_vec(),
        4 => b"\xFF\n\"".to_vec(),
        _ => random
            .pick(&[
                "",
                "/a b/%f.desktop",
                "view.desktop",
                "/Mu\u{308}ller/\"x\"",
                "%k",
            ])
            .into(),
    }
}

const ITEMS: &[&[u8]] = &[
    b"a",
    b"a b.txt",
    b"c%f.txt",
    b"%",
    b"%%",
    b"\"x\"",
    b"it's",
    b"\\s",
    b" ",
    b"-x",
    b"$HOME",
    b"\xFF\xFE",
    b"M\xC3",
    b"line\nfeed",
    b"file:///a%20b",
];

/// An item of a list.
fn item(random: &mut Random) -> Vec<u8> {
    match random.below(80) {
        0 => Vec::new(),
        1 => b"a\0b".to_vec(),
        2 => vec![b'i'; random.within(200, 600)],
        3..=20 => [random.pick(&MULLER), ".odt"].concat().into(),
        _ => random.pick(ITEMS).to_vec(),
    }
}

fn items(random: &mut Random) -> Vec<Vec<u8>> {
    let items = random.below(5);
    (0..items).map(|_| item(random)).collect()
}

/// A run that is there mostly, from 0 to one too many, and now and then far away.
fn run(items: usize, random: &mut Random) -> u64 {
    match random.below(40) {
        0 => u64::MAX,
        1 => 1 << 32,
        2..=5 => random.below(items + 2) as u64,
        _ => random.below(items.max(1)) as u64,
    }
}

/// Changes a list so that it is none, mostly.
fn damage(list: &mut Vec<u8>, random: &mut Random) {
    if list.is_empty() {
        list.extend(b"\x07\0\0\0\x02\0a");
    }
    let at = random.below(list.len());
    match random.below(8) {
        0 => list.truncate(at),
        1 => list[at] = random.number() as u8,
        2 => list[0] = random.below(9) as u8,
        3 => list[4] = random.below(4) as u8,
        4 => list[random.within(1, 5)] = random.byte_of(&[0, 1, 0x7F, 0x80, 0xFF]),
        5 => list.extend(&b"\x06\0\0\0\x02\0"[..random.within(1, 6)]),
        6 => drop(list.remove(at)),
        _ => list.resize(LIST_BOUND + 1, 0),
    }
}

/// A question at a bound: of the file, the list, the location, or with a long output.
pub fn large_question(random: &mut Random) -> Question {
    let codes = random.pick(&["%F", "%f", "%k %k", "%c%c", "--x=%u%k", "%i %U"]);
    let exec = format!("view{}{codes}", " %k%c ".repeat(random.below(60)));
    let mut file = file_of(exec.as_bytes(), random, 40);
    if random.once_in(2) {
        fill_file(&mut file, random);
    }
    let items = match random.below(3) {
        0 => items(random),
        1 => many_items(random),
        _ => vec![vec![b'i'; LIST_BOUND - 6 + random.below(2)]],
    };
    asked(file, items, random)
}

/// A comment that makes the file as long as it may be, or a byte longer.
pub(crate) fn fill_file(file: &mut Vec<u8>, random: &mut Random) {
    let length = FILE_BOUND + random.below(2);
    if file.last() != Some(&b'\n') {
        file.push(b'\n');
    }
    file.resize(length, b'#');
}

/// A list as long as it may be, or a byte longer: of records of 7 bytes and a last one.
fn many_items(random: &mut Random) -> Vec<Vec<u8>> {
    let mut items = vec![b"a".to_vec(); (LIST_BOUND - 16) / 7];
    let rest = LIST_BOUND + random.below(2) - items.len() * 7;
    items.push(vec![b'z'; rest - 6]);
    items
}
