//! The actions of an application: the library's list against GLib's GDesktopAppInfo, both by the same locale.

use std::hint::black_box;

use kveldrim::{Action, Document, Person, DESKTOP_ENTRY, FILE_BOUND};

use crate::glib::{AppInfo, Made};
use crate::{short_key, timed, Input, LOCALE, ROUNDS};

const KEY: &[u8] = b"Actions";

const START: &[u8] = b"[Desktop Entry]\nType=Application\nName=Courses\nActions=";

/// A call that takes long is made in so many rounds.
const FEW_ROUNDS: usize = 5;

/// Files with actions that are timed together.
pub struct Actions {
    name: String,
    rounds: usize,
    files: Vec<Vec<u8>>,
    /// How many more there are that one of both refuses; GLib takes applications alone.
    refused: usize,
}

impl Actions {
    /// The real files with actions, sixty actions, and files that take longest.
    pub fn all(real: &[Input]) -> Vec<Actions> {
        let has_list = |input: &&Input| kveldrim::lookup(&input.bytes, DESKTOP_ENTRY, KEY).is_ok();
        let real = real.iter().filter(has_list);
        let real = real.map(|input| without_programs(&input.bytes)).collect();
        let (thousands, count) = list(FILE_BOUND - START.len());
        let (half, half_count) = list(FILE_BOUND / 2);
        let mut blank_lines = [START, &half, b"\n"].concat();
        blank_lines.resize(FILE_BOUND, b'\n');
        let repeated = "32 KB: 600 actions, the last of them repeated";
        let thousands_name = format!("32 KB: {count} identifiers, no group");
        let blank_name = format!("32 KB: {half_count} identifiers, no group, blank lines");
        vec![
            Actions::new("real files with actions", ROUNDS, real),
            Actions::new("8 KB of sixty actions", ROUNDS, vec![sixty()]),
            Actions::new(repeated, FEW_ROUNDS, vec![with_repeated(600)]),
            Actions::new(
                &thousands_name,
                FEW_ROUNDS,
                vec![[START, &thousands].concat()],
            ),
            Actions::new(&blank_name, FEW_ROUNDS, vec![blank_lines]),
        ]
    }

    fn new(name: &str, rounds: usize, mut files: Vec<Vec<u8>>) -> Actions {
        let count = files.len();
        files.retain(|file| listed(file).is_some() && AppInfo::load(file).is_some());
        Actions {
            name: name.to_string(),
            rounds,
            refused: count - files.len(),
            files,
        }
    }

    /// Says how many actions each lists, and how they differ.
    pub fn agree(&self) {
        let mut counts = Counts::default();
        for file in &self.files {
            counts.count(file);
        }
        let Actions {
            name,
            files,
            refused,
            ..
        } = self;
        println!(
            "{name}: {}, {refused} more left out (refused by one of both), {counts:?}",
            files.len()
        );
    }

    /// The row of the table.
    pub fn row(&self) {
        if self.files.is_empty() {
            return;
        }
        let mut out = vec![0; FILE_BOUND];
        timed(
            self.rounds,
            &self.name,
            "actions",
            &self.files,
            |file| {
                let told = kveldrim::actions(black_box(file), LOCALE.to_bytes(), &mut out);
                let _ = black_box(told);
            },
            |file| {
                let info = AppInfo::load(black_box(file));
                for action in info.iter().flat_map(AppInfo::actions) {
                    black_box(info.as_ref().and_then(|info| info.label(action)));
                }
            },
        );
    }
}

/// What the library lists.
fn listed(file: &[u8]) -> Option<Vec<Action>> {
    kveldrim::actions_vec(file, LOCALE.to_bytes()).ok()
}

/// How many actions are listed by each, and how they differ.
#[derive(Debug, Default)]
struct Counts {
    by_library: usize,
    by_glib: usize,
    by_library_alone: usize,
    /// Listed by both with another label.
    other_label: usize,
    /// By GLib alone: an identifier once more, not in the form of a key, without group, without Name.
    repeated: usize,
    other_form: usize,
    no_group: usize,
    no_name: usize,
}

impl Counts {
    fn count(&mut self, file: &[u8]) {
        let (Some(listed), Some(info)) = (listed(file), AppInfo::load(file)) else {
            return;
        };
        let mut left: Vec<&Action> = listed.iter().collect();
        self.by_library += left.len();
        for identifier in info.actions() {
            self.by_glib += 1;
            let is_it = |action: &Action| action.identifier == identifier.to_bytes();
            match left.iter().position(|action| is_it(action)) {
                Some(at) => {
                    let label = info.label(identifier);
                    let label = label.as_ref().map(Made::bytes);
                    self.other_label += usize::from(label != Some(&left.remove(at).label));
                }
                None if listed.iter().any(is_it) => self.repeated += 1,
                None => *self.reason(file, identifier.to_bytes()) += 1,
            }
        }
        self.by_library_alone += left.len();
    }

    /// Why the library does not list an identifier.
    fn reason(&mut self, file: &[u8], identifier: &[u8]) -> &mut usize {
        let has_form = |byte: &u8| byte.is_ascii_alphanumeric() || *byte == b'-';
        let header = [b"[Desktop Action ", identifier, b"]"].concat();
        let has_group = file.split(|byte| *byte == b'\n').any(|line| line == header);
        match identifier.is_empty() || !identifier.iter().all(has_form) {
            true => &mut self.other_form,
            false if has_group => &mut self.no_name,
            false => &mut self.no_group,
        }
    }
}

/// The file without the Exec and TryExec of its application: GLib looks for these programs on the disk, and refuses an
/// application that is not installed. The actions stay as they are.
fn without_programs(file: &[u8]) -> Vec<u8> {
    let mut document = Document::new(file);
    for key in [&b"Exec"[..], b"TryExec"] {
        // Where there is none, nothing is to be removed.
        let _ = document.remove(Person::NOBODY, DESKTOP_ENTRY, key);
    }
    document.file().to_vec()
}

/// A list of as many short identifiers as these bytes have room for, and how many they are.
fn list(room: usize) -> (Vec<u8>, usize) {
    let mut list = short_key(0);
    for count in 1.. {
        let more = [b";", &short_key(count)[..]].concat();
        if list.len() + more.len() > room {
            return (list, count);
        }
        list.extend(more);
    }
    unreachable!("the room is full before numbers end")
}

/// Sixty actions, each with a name, the same in German, an icon and a command.
fn sixty() -> Vec<u8> {
    let identifiers: Vec<String> = (0..60)
        .map(|number| format!("course-{number:02}"))
        .collect();
    let groups = identifiers.iter().map(|action| {
        format!(
            "\n[Desktop Action {action}]\nName=Files of {action}\nName[de]=Dateien von {action}\n\
             Icon={action}\nExec=courses --open {action}\n"
        )
    });
    let rest = identifiers.join(";") + "\n" + &groups.collect::<String>();
    [START, rest.as_bytes()].concat()
}

/// So many actions with nothing but a name; the last of them fills the list.
fn with_repeated(count: usize) -> Vec<u8> {
    let identifiers: Vec<Vec<u8>> = (0..count).map(short_key).collect();
    let groups = identifiers
        .iter()
        .map(|action| [b"[Desktop Action ", &action[..], b"]\nName=n\n"].concat())
        .collect::<Vec<_>>()
        .concat();
    let mut list = identifiers.join(&b';');
    let last = [b";", &identifiers[count - 1][..]].concat();
    while START.len() + list.len() + last.len() + 1 + groups.len() <= FILE_BOUND {
        list.extend(&last);
    }
    [START, &list, b"\n", &groups].concat()
}
