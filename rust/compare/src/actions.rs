//! The actions of a file (02's A1): the library against the reference, and what they are asked. Files have lists with repeated,
//! escaped and wrong identifiers, and groups of which some are missing or have no Name.

use kveldrim::ffi::kveldrim_actions;
use kveldrim::Action;
use reference::lines::{read_line, split_lines, Line};
use reference::Refusal;

use crate::asker::{bound, named, Asker, OutputCall};
use crate::bounds::FILE_BOUND;
use crate::expand::{self, fill_file, lines_of, raw, raw_command, split, wrong_raw};
use crate::files::{counted, spoil};
use crate::lent::Output;
use crate::pieces::{self, BORDERS};
use crate::random::Random;

/// The arguments of a list of actions but for its output.
#[derive(Clone)]
pub struct Question {
    pub file: Vec<u8>,
    pub locale: Vec<u8>,
}

/// The call of the proved library.
pub fn proved([file, locale]: [(*const u8, usize); 2], output: Output) -> u32 {
    let Output {
        out,
        place,
        byte,
        written,
    } = output;
    // SAFETY: the bytes and the numbers outlive the call.
    unsafe {
        kveldrim_actions(
            file.0, file.1, locale.0, locale.1, out.0, out.1, place, byte, written,
        )
    }
}

impl Question {
    /// The same question of another file.
    pub fn about(&self, file: Vec<u8>) -> Question {
        Question {
            file,
            ..self.clone()
        }
    }

    /// Asks both with outputs of several sizes, then the bindings, and tells the first difference.
    pub fn compare(&self, asker: &mut Asker) -> Result<(), String> {
        self.compare_by(&proved, asker)
    }

    /// As [`Question::compare`], of any library.
    pub fn compare_by(&self, lister: OutputCall<2>, asker: &mut Asker) -> Result<(), String> {
        let (file, locale) = (&self.file[..], &self.locale[..]);
        let expected = self.records();
        self.count(&expected, asker);
        let sizes = asker.sizes_for(&expected);
        let outcome = asker
            .output_calls("actions", [file, locale], sizes, lister, &|out| {
                reference::actions(file, locale, out)
            })
            .and_then(|()| {
                let expected = expected.map(|records| pairs(&records));
                bound(kveldrim::actions_vec(file, locale), expected)
            });
        named("actions", &[locale], outcome)
    }

    /// What the reference writes where there is as much room as the file has bytes, which is always enough.
    fn records(&self) -> Result<Vec<u8>, Refusal> {
        let mut out = vec![0; self.file.len()];
        let told = reference::actions(&self.file, &self.locale, &mut out);
        assert!(told != Err(Refusal::new(11)), "more bytes than the file");
        told.map(|written| out[..written].to_vec())
    }

    /// Counts how many actions are listed, and for a few of them the choice of the label; or what a 9 is about.
    fn count(&self, expected: &Result<Vec<u8>, Refusal>, asker: &mut Asker) {
        let (file, locale) = (&self.file, &self.locale);
        let listed = reference::listed(file);
        let name = match (expected, &listed) {
            (Ok(_), Ok(listed)) => match listed.len() {
                0 => "actions, none",
                1..300 => "actions, some",
                _ => "actions, 300 or more",
            },
            (Err(Refusal { number: 9, .. }), Ok(_)) => "actions, escape of a label",
            (Err(Refusal { number: 9, .. }), Err(_)) => "actions, escape of Actions",
            _ => return,
        };
        asker.count(name, expected);
        if expected.is_ok() {
            for action in listed.iter().flatten().take(3) {
                let group = reference::action_group(action);
                let answer = reference::choose(file, &group, b"Name", locale);
                asker.count_encodings("label", file, locale, answer);
            }
        }
    }
}

/// The identifiers and labels in the records of an accepted call.
fn pairs(records: &[u8]) -> Vec<Action> {
    let texts = split(records);
    let pairs = texts.chunks(2).map(|pair| Action {
        identifier: pair[0].clone(),
        label: pair[1].clone(),
    });
    pairs.collect()
}

/// Identifiers in key form; some begin or end like others.
const IDENTIFIERS: &[&str] = &["a", "b", "ab", "A", "new-window", "0", "-", "Name"];

/// Identifiers that have not this form; of some there can be no group.
const OTHERS: &[&str] = &[
    "", "", "a b", " a", "a ", "a_b", "a.b", "a;b", "a\\", "a=", "%f", "a[de]", "\u{FC}", "a\n",
    "\t",
];

fn identifier(random: &mut Random) -> &'static str {
    match random.below(7) {
        0 => random.pick(OTHERS),
        _ => random.pick(IDENTIFIERS),
    }
}

/// The raw value of a list of these; one in `once` has a wrong escape.
fn list(elements: &[&str], random: &mut Random, once: usize) -> Vec<u8> {
    let mut list = Vec::new();
    for element in elements {
        let parts = element.split(';').map(|part| raw(part.as_bytes(), random));
        list.extend(parts.collect::<Vec<_>>().join(&b"\\;"[..]));
        list.push(b';');
    }
    if random.once_in(2) {
        list.pop();
    }
    if random.once_in(once) {
        list = wrong_raw(&list, random);
    }
    list
}

/// A file with a list of actions, mostly: in its place, without postfix. Each identifier of a few has a group, mostly.
pub fn file(random: &mut Random, once: usize) -> Vec<u8> {
    let few: Vec<&str> = (0..random.within(1, 5))
        .map(|_| identifier(random))
        .collect();
    let elements: Vec<&str> = (0..random.within(0, 8))
        .map(|_| match random.once_in(6) {
            true => identifier(random),
            false => random.pick(&few),
        })
        .collect();
    let list = list(&elements, random, once);
    let actions = [b"Actions=", &list[..], b"\n"].concat();
    let mut lines = lines_of(&raw_command(random, once), random, once);
    lines.push(b"Type=Application\n".to_vec());
    let mut groups: Vec<Vec<u8>> = Vec::new();
    match random.below(20) {
        0 => {}
        1 => groups.push([b"[X]\n", &actions[..]].concat()),
        number => {
            lines.push(actions);
            if number < 4 {
                lines.push(b"Actions[de]=a;b;new-window;-;0\n".to_vec());
            }
        }
    }
    random.shuffle(&mut lines);
    let mut names: Vec<String> = few
        .iter()
        .map(|action| group_name(action, random))
        .collect();
    names.retain(|name| reference::lines::is_group(name.as_bytes()) && !random.once_in(10));
    names.sort();
    names.dedup();
    groups.extend(names.iter().map(|name| group(name, random, once)));
    random.shuffle(&mut groups);
    let mut file = [b"[Desktop Entry]\n", &lines.concat()[..]].concat();
    file.extend(groups.concat());
    if random.once_in(8) {
        file.pop();
    }
    file
}

/// The name of an action's group, or seldom one that is nearly so.
fn group_name(action: &str, random: &mut Random) -> String {
    match random.below(80) {
        0 => format!("Desktop Action{action}"),
        1 => format!("Desktop Action  {action}"),
        2 => format!("Desktop Action {action} "),
        3 => format!("desktop action {action}"),
        4 => format!("Desktop Action {action}b"),
        5 => format!("X-Desktop Action {action}"),
        _ => format!("Desktop Action {action}"),
    }
}

/// A group of an action: with Exec, Name and Icon there, missing, localized or wrong.
fn group(name: &str, random: &mut Random, once: usize) -> Vec<u8> {
    let mut lines = lines_of(&raw_command(random, once), random, once);
    if random.once_in(8) {
        lines.retain(|line| !line.starts_with(b"Exec"));
    }
    if random.once_in(8) {
        lines.push(b"Names=n\n".to_vec());
    }
    random.shuffle(&mut lines);
    [b"[", name.as_bytes(), b"]\n", &lines.concat()].concat()
}

/// A list of actions of any file, with one thing in `once` wrong; the file is damaged now and then, and seldom too long.
pub fn question(random: &mut Random, once: usize) -> Question {
    let mut file = file(random, once);
    if random.once_in(15) {
        spoil(&mut file, random);
    }
    if random.once_in(600) {
        fill_file(&mut file, random);
    }
    of_file(file, random)
}

/// A list of actions of this file.
pub fn of_file(file: Vec<u8>, random: &mut Random) -> Question {
    let locale = expand::locale(random);
    Question { file, locale }
}

/// An expansion of an action of such a file.
pub fn expansion(random: &mut Random, once: usize) -> expand::Question {
    let Question { file, .. } = question(random, once);
    expansion_of(file, random)
}

/// An expansion of an action of this file.
pub fn expansion_of(file: Vec<u8>, random: &mut Random) -> expand::Question {
    let action = asked(&file, random);
    expand::Question {
        action: Some(action),
        ..expand::of_file(file, random)
    }
}

/// An identifier to ask for: listed mostly, or that of a group, or nearly so, or any bytes.
fn asked(file: &[u8], random: &mut Random) -> Vec<u8> {
    let listed = reference::listed(file).unwrap_or_default();
    let mut action = match (listed.len(), random.below(20)) {
        (_, 0) => pieces::wild(random, 5),
        (_, 1) => identifier(random).into(),
        (0, _) | (_, 2..=4) => {
            let groups = group_identifiers(file);
            match groups.len() {
                0 => b"a".to_vec(),
                count => groups[random.below(count)].clone(),
            }
        }
        (count, _) => listed[random.below(count)].clone(),
    };
    match random.below(60) {
        0 => action.push(random.byte_of(BORDERS)),
        1 => drop(action.pop()),
        2 => action.make_ascii_uppercase(),
        3 => action = [b"Desktop Action ", &action[..]].concat(),
        _ => {}
    }
    action
}

/// The identifiers of all groups that a file has for actions, listed or not.
pub fn group_identifiers(file: &[u8]) -> Vec<Vec<u8>> {
    let identifier = |(start, end): (usize, usize)| {
        let line = &file[start..end];
        match read_line(line) {
            Line::Header { name } => line[name.0..name.1].strip_prefix(b"Desktop Action "),
            _ => None,
        }
    };
    let lines = split_lines(file).into_iter();
    lines.filter_map(identifier).map(<[u8]>::to_vec).collect()
}

/// A file with so many actions. The list has each once or several times, in any order, and then perhaps the same one again and
/// again up to the bound of a file or a byte over it. One group may have no Name or a label with a wrong escape.
pub fn many(count: usize, random: &mut Random) -> Vec<u8> {
    let mut identifiers: Vec<Vec<u8>> = (0..count).map(counted).collect();
    if random.once_in(2) {
        random.shuffle(&mut identifiers);
    }
    let mut groups: Vec<Vec<u8>> = Vec::new();
    for (number, identifier) in identifiers.iter().enumerate() {
        let lines: &[u8] = match number % 3 {
            0 => b"Name=\\s\nName[de.x]=d\n",
            1 => b"Name=n\nExec=v %c %i\n",
            _ => b"Name=n\n",
        };
        groups.push([b"[Desktop Action ", &identifier[..], b"]\n", lines].concat());
    }
    let one = random.below(count);
    let repeated = identifiers[one].clone();
    let header = [b"[Desktop Action ", &repeated[..], b"]\n"].concat();
    match random.below(4) {
        0 => groups[one] = [&header[..], b"Comment=c\n"].concat(),
        1 => groups[one] = [&header[..], b"Name=x\\q\n"].concat(),
        _ => {}
    }
    match random.below(3) {
        0 => identifiers.extend(identifiers[one..].to_vec()),
        1 => identifiers.reverse(),
        _ => random.shuffle(&mut groups),
    }
    let mut list = identifiers.join(&b';');
    if random.once_in(6) {
        list = wrong_raw(&list, random);
    }
    let (start, groups) = (b"[Desktop Entry]\nName=a\nActions=", groups.concat());
    if random.once_in(2) {
        let end = (FILE_BOUND + random.below(2)).saturating_sub(start.len() + 1 + groups.len());
        while list.len() + repeated.len() < end {
            list.extend([b";", &repeated[..]].concat());
        }
        list.resize(list.len().max(end), b';');
    }
    [&start[..], &list, b"\n", &groups].concat()
}
