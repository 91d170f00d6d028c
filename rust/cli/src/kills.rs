//! Kills the command at each step of what it does on disk, and asks what the next run finds.
//!
//! A test runs itself again as a child: [`child`] does what the command does and dies at the step that it is told.

use std::collections::BTreeMap;
use std::env;
use std::ffi::{OsStr, OsString};
use std::fs::{self, File, Permissions};
use std::os::unix::fs::{chown, MetadataExt, PermissionsExt};
use std::path::{Path, PathBuf};
use std::process::{self, Command, ExitCode};
use std::sync::atomic::{AtomicU32, Ordering};
use std::time::Duration;

use kveldrim::Edits;
use nix::unistd::geteuid;

use crate::attributes::Attributes;
use crate::disk;
use crate::journal::{self, Pair};
use crate::store::Store;

const WORDS: &str = "KVELDRIM_TEST_WORDS";
const STEP: &str = "KVELDRIM_TEST_STEP";
const CHANGE: &str = "KVELDRIM_TEST_CHANGE";
const REPLACE: &str = "KVELDRIM_TEST_REPLACE";
const LOCKED: &str = "KVELDRIM_TEST_LOCKED";

/// What another program writes to the file.
const OTHER: &[u8] = b"[Desktop Entry]\nName=other\n";

/// Asks whether the file is locked. If this is the step to do so, dies, or does what another program may do just then: changes
/// the file, or puts another with the same bytes in its place.
pub fn step() {
    static STEPS: AtomicU32 = AtomicU32::new(1);
    if let Ok(file) = env::var(LOCKED) {
        let other = disk::lock(Path::new(&file), Duration::ZERO);
        assert!(other.is_err_and(|error| disk::is_busy(&error)));
    }
    let Ok(last) = env::var(STEP) else {
        return;
    };
    if STEPS.fetch_add(1, Ordering::Relaxed).to_string() == last {
        match (env::var(CHANGE), env::var(REPLACE)) {
            (Ok(file), _) => fs::write(file, OTHER).unwrap(),
            (_, Ok(file)) => {
                let copy = format!("{file}-copy");
                fs::copy(&file, &copy).unwrap();
                fs::rename(copy, file).unwrap();
            }
            _ => process::abort(),
        }
    }
}

/// The command in a process of its own.
#[test]
#[ignore = "the other tests run it"]
fn child() {
    if let Ok(words) = env::var(WORDS) {
        let words = words.split('\n').map(OsString::from);
        process::exit(i32::from(crate::run(words) != ExitCode::SUCCESS));
    }
}

/// Everything in a folder, by name.
type Folder = BTreeMap<OsString, Vec<u8>>;

/// A folder of a test's own, removed at the end.
pub struct Place(pub PathBuf);

impl Place {
    /// A folder with the file `t` alone.
    pub fn new(file: &[u8]) -> Place {
        Place::with(&Folder::from([("t".into(), file.to_vec())]))
    }

    fn with(content: &Folder) -> Place {
        static NUMBER: AtomicU32 = AtomicU32::new(0);
        let number = NUMBER.fetch_add(1, Ordering::Relaxed);
        let name = format!("kveldrim-kills-{}-{number}", process::id());
        let place = Place(env::temp_dir().join(name));
        fs::create_dir(&place.0).unwrap();
        for (name, bytes) in content {
            let path = place.0.join(name);
            fs::write(&path, bytes).unwrap();
            fs::set_permissions(path, Permissions::from_mode(0o644)).unwrap();
        }
        place
    }

    /// A file that is being written may have no rights yet; it then counts as empty.
    fn content(&self) -> Folder {
        let entries = fs::read_dir(&self.0).unwrap();
        let bytes = |entry: &fs::DirEntry| fs::read(entry.path()).unwrap_or_default();
        entries
            .map(|entry| entry.unwrap())
            .map(|entry| (entry.file_name(), bytes(&entry)))
            .collect()
    }

    pub fn file(&self) -> PathBuf {
        self.0.join("t")
    }

    /// The command on the file, in a child. A word `@NAME` is a file of the folder.
    fn command(&self, words: &[&str]) -> Command {
        let words = [&[words[0], "@t"], &words[1..]].concat();
        let path = |name: &str| self.0.join(name).to_str().unwrap().to_string();
        let words = words.iter().map(|word| match word.strip_prefix('@') {
            Some(name) => path(name),
            None => word.to_string(),
        });
        let words: Vec<String> = words.collect();
        let mut command = Command::new(env::current_exe().unwrap());
        command
            .args(["--exact", "kills::child", "--ignored", "--nocapture"])
            .env_clear()
            .env(WORDS, words.join("\n"));
        command
    }

    /// Runs the command; false if it was killed at the step.
    fn run(&self, words: &[&str], step: Option<u32>) -> bool {
        let mut command = self.command(words);
        if let Some(step) = step {
            command.env(STEP, step.to_string());
        }
        let outcome = command.output().unwrap();
        let told = String::from_utf8_lossy(&outcome.stderr);
        let status = outcome.status.code();
        assert!(matches!(status, None | Some(0)), "{words:?}: {told}");
        status.is_some()
    }
}

impl Drop for Place {
    fn drop(&mut self) {
        let _ = fs::remove_dir_all(&self.0);
    }
}

/// What a run would find: the file with its journal.
fn found(file: &Path) -> Pair {
    let store = Store::look(file.as_os_str(), false).unwrap_or_else(|trouble| {
        trouble.tell();
        panic!("no matching pair is found");
    });
    Pair::of(&store.document())
}

/// The file `t`, two changed copies of it, and a table of requests.
fn files() -> Folder {
    let files = [
        ("t", "[Desktop Entry]\nName=Lesen\nName[fr]=Lire\nExec=view"),
        (
            "mine",
            "[Desktop Entry]\nName=Les\nName[fr]=Lire\nExec=view",
        ),
        (
            "theirs",
            "[Desktop Entry]\nName=Lesen\nName[fr]=Lisez\nExec=view",
        ),
        (
            "table",
            "action,key,text\nset,Name,Lesung\nset,Icon,pen\nremove,Name[fr],\n",
        ),
    ];
    files
        .map(|(name, bytes)| (name.into(), bytes.into()))
        .into()
}

/// The command killed at each of so many steps, from the same start: the next run finds the start or the end, whole. Answers how
/// many steps there are.
fn killed_at_each_step(setup: &[&[&str]], words: &[&str], least: u32) -> u32 {
    let first = Place::with(&files());
    for words in setup {
        assert!(first.run(words, None));
    }
    let start = first.content();
    let before = found(&first.file());
    assert!(first.run(words, None));
    let end = first.content();
    let after = found(&first.file());

    let mut steps = 0;
    loop {
        let place = Place::with(&start);
        if place.run(words, Some(steps + 1)) {
            assert_eq!(place.content(), end);
            break;
        }
        steps += 1;
        let discards = words.contains(&"--discard-journal");
        let pair = found(&place.file());
        assert_eq!(pair.file, fs::read(place.file()).unwrap());
        if discards || pair != after {
            keeps_journal(&start, &place.content());
        }
        if pair != after {
            // Nothing was done: the same words then do it all.
            assert!(discards || pair == before);
            assert_eq!(pair.file, before.file);
            assert!(place.run(words, None));
            assert_eq!(found(&place.file()), after);
        }
        // What a killed run leaves behind is gone after the next edit.
        assert!(place.run(&["set", "Last", "1"], None));
        let aside = |name: &&OsString| name.to_string_lossy().ends_with("new");
        assert_eq!(place.content().keys().find(aside), None, "step {steps}");
    }
    assert!(steps >= least, "{steps}");
    steps
}

/// A file is written aside in eight steps, and renamed in two.
const ONE_FILE: u32 = 10;
const THREE_FILES: u32 = 3 * ONE_FILE;

/// Whether every journal's records of before are somewhere in the folder.
fn keeps_journal(before: &Folder, now: &Folder) {
    let pairs = |folder: &Folder| -> Vec<Pair> {
        let journals = folder
            .values()
            .filter_map(|bytes| journal::read(bytes).ok());
        journals.flatten().collect()
    };
    for pair in pairs(before) {
        assert!(pairs(now).contains(&pair));
    }
}

/// A merge into the file, and what comes of it.
const MERGE: &[&str] = &["merge", "@mine", "@theirs", "--output", "@t"];
const MERGED: &[u8] = b"[Desktop Entry]\nName=Les\nName[fr]=Lisez\nExec=view";

const EDITS: &[&[&str]] = &[
    &["set", "Name", "Les"],
    &["remove", "Exec"],
    &["set", "Icon", "book"],
    &["set", "Icon", "books"],
    &["undo"],
    &["undo"],
];

const FORGET: &[&str] = &["forget", "1"];

#[test]
fn the_first_edit() {
    killed_at_each_step(&[], &["set", "Name", "Les"], THREE_FILES);
}

/// The records that wait are lost with this edit, so not before it is done.
#[test]
fn a_set_over_waiting_edits() {
    killed_at_each_step(EDITS, &["set", "Name", "Lesestunde"], THREE_FILES);
}

#[test]
fn a_set_that_changes_no_byte_of_the_file() {
    killed_at_each_step(EDITS, &["set", "Name", "Les"], THREE_FILES);
}

#[test]
fn a_remove() {
    killed_at_each_step(EDITS, &["remove", "Name[fr]"], THREE_FILES);
}

/// All requests of a table are one edit on disk, with no more steps than a set has.
#[test]
fn a_batch() {
    for setup in [&[][..], EDITS] {
        let steps = killed_at_each_step(setup, &["batch", "@table"], THREE_FILES);
        assert_eq!(steps, THREE_FILES);
    }
}

#[test]
fn an_undo() {
    killed_at_each_step(EDITS, &["undo"], THREE_FILES);
}

#[test]
fn a_redo() {
    killed_at_each_step(EDITS, &["redo"], THREE_FILES);
}

#[test]
fn a_new_journal() {
    killed_at_each_step(
        EDITS,
        &["set", "Name", "x", "--discard-journal"],
        THREE_FILES,
    );
}

#[test]
fn a_forget() {
    killed_at_each_step(EDITS, FORGET, ONE_FILE);
}

/// The journal goes, and the folder is synced.
#[test]
fn a_forget_of_all_edits() {
    killed_at_each_step(&EDITS[..1], FORGET, 2);
}

/// Where a killed edit left a journal of two pairs, the one of the file that is there is kept.
#[test]
fn a_forget_after_a_killed_edit() {
    let mut of_two = 0;
    for step in 1.. {
        let place = Place::with(&files());
        for words in &EDITS[..2] {
            assert!(place.run(words, None));
        }
        let done = place.run(EDITS[2], Some(step));
        let pairs = || {
            let journal = fs::read(place.0.join(".t.kveldrim-journal")).unwrap();
            journal::read(&journal).unwrap()
        };
        of_two += u32::from(pairs().len() == 2);
        let Pair { file, records, .. } = found(&place.file());
        assert!(place.run(FORGET, None));
        let left = found(&place.file());
        assert_eq!(left.file, file);
        let [before, after] = [&records, &left.records].map(|records| Edits::new(records).count());
        assert_eq!(after + 1, before);
        assert!(records.ends_with(&left.records));
        assert_eq!(pairs(), [left]);
        if done {
            break;
        }
    }
    assert!(of_two > 0);
}

/// A merge into the file, without a journal: one file is written aside and renamed.
#[test]
fn a_merge() {
    killed_at_each_step(&[], MERGE, ONE_FILE);
}

/// A copy of the journal, the file and one journal more are written aside; at the end there is no journal.
#[test]
fn a_merge_that_discards_a_journal() {
    let words = [MERGE, &["--discard-journal"]].concat();
    killed_at_each_step(&[&["set", "Name[fr]", "Lire"]], &words, 28);
}

/// A new file is there with all its bytes or not at all, and the next run makes it.
#[test]
fn a_merge_into_a_new_file() {
    let words = [&MERGE[..4], &["@new"]].concat();
    for step in 1.. {
        let place = Place::with(&files());
        let done = place.run(&words, Some(step));
        let new = place.content().remove(OsStr::new("new"));
        assert!(new.is_none_or(|new| new == MERGED), "step {step}");
        assert!(place.run(&words, None));
        let content = place.content();
        let names: Vec<&OsStr> = content.keys().map(OsString::as_os_str).collect();
        assert_eq!(names, ["mine", "new", "t", "table", "theirs"]);
        assert_eq!(content[OsStr::new("new")], MERGED);
        if done {
            // One file is written aside in five steps and renamed in two.
            assert_eq!(step, 8);
            break;
        }
    }
}

/// Another program changes the file while an edit is under way, in one of two ways. Up to the last step before the file is
/// replaced, its bytes stay and the edit is refused; the journal keeps all that it had.
fn changed_at_each_step(setup: &[&[&str]], words: &[&str], how: &str, bytes: &[u8], steps: u32) {
    let first = Place::with(&files());
    for words in setup {
        assert!(first.run(words, None));
    }
    let start = first.content();
    let mut refused = 0;
    for step in 1.. {
        let place = Place::with(&start);
        let mut command = place.command(words);
        let outcome = command
            .env(STEP, step.to_string())
            .env(how, place.file())
            .output();
        let done = outcome.unwrap().status.success();
        if done {
            break;
        }
        refused += 1;
        assert_eq!(fs::read(place.file()).unwrap(), bytes);
        keeps_journal(&start, &place.content());
    }
    assert_eq!(refused, steps);
}

/// Two files are written aside and the journal is renamed.
const BEFORE_AN_EDIT: u32 = 2 * 8 + 2;

#[test]
fn a_change_during_an_edit() {
    let words = ["set", "Name", "Lesung"];
    changed_at_each_step(&EDITS[..1], &words, CHANGE, OTHER, BEFORE_AN_EDIT);
}

#[test]
fn a_replacement_during_an_edit() {
    let words = ["set", "Name", "Lesung"];
    let edited = &files()[OsStr::new("mine")];
    changed_at_each_step(&EDITS[..1], &words, REPLACE, edited, BEFORE_AN_EDIT);
}

/// The journal is written aside.
#[test]
fn a_change_during_a_forget() {
    let setup = [&["set", "Name", "Lesung"][..], EDITS[0]];
    let edited = &files()[OsStr::new("mine")];
    changed_at_each_step(&setup, FORGET, CHANGE, OTHER, 8);
    changed_at_each_step(&setup, FORGET, REPLACE, edited, 8);
}

/// The file that is to be replaced is BASE too: what is merged is what was locked.
#[test]
fn a_change_during_a_merge() {
    let base = &files()[OsStr::new("t")];
    changed_at_each_step(&[], MERGE, CHANGE, OTHER, 8);
    changed_at_each_step(&[], MERGE, REPLACE, base, 8);
}

/// Whatever the folder would give to new files, and at whatever step a run is killed: nobody but who edits has a right to a
/// file beside the edited one that he does not have to that.
fn no_more_rights(
    setup: &[&[&str]],
    words: &[&str],
    least: u32,
    owner: u32,
    mode: u32,
    list: &str,
) {
    for step in 1.. {
        let file = b"[Desktop Entry]\nName=Lesen\n";
        let place = Place::new(file);
        chown(place.file(), Some(owner), None).unwrap();
        fs::set_permissions(place.file(), Permissions::from_mode(mode)).unwrap();
        if !list.is_empty() {
            setfacl(&["-m", list], &place.file());
        }
        setfacl(&["-d", "-m", "u:8:rwx,g:9:rwx,o::rwx"], &place.0);
        let access = |path: &Path| Attributes::of(&File::open(path).unwrap()).unwrap().access;
        let expected = access(&place.file());
        for words in setup {
            assert!(place.run(words, None));
        }
        let done = place.run(words, Some(step));
        for name in place.content().keys() {
            let path = place.0.join(name);
            let found = fs::metadata(&path).unwrap();
            let mode = found.mode() & 0o7777;
            // With a mask of nothing, nothing in a list counts.
            let of_editor = found.uid() == geteuid().as_raw() && mode & 0o7077 == 0;
            assert!(
                of_editor || mode == 0 || access(&path) == expected,
                "step {step}: {name:?}"
            );
        }
        if done {
            assert_eq!(access(&place.0.join(".t.kveldrim-journal")), expected);
            assert!(step > least, "{step}");
            break;
        }
    }
}

#[test]
fn no_more_rights_at_any_step() {
    let own = geteuid().as_raw();
    for list in ["", "u:7:r,g:9:rw"] {
        no_more_rights(&[], EDITS[0], THREE_FILES, own, 0o640, list);
        no_more_rights(&EDITS[2..4], FORGET, ONE_FILE, own, 0o640, list);
    }
}

#[test]
fn no_more_rights_for_an_owner_as_root() {
    let own = geteuid().as_raw();
    assert_eq!(own, 0, "this test gives a file away: run it as root");
    for list in ["", "u:7:r"] {
        no_more_rights(&[], EDITS[0], THREE_FILES, 5, 0o440, list);
        no_more_rights(&EDITS[2..4], FORGET, ONE_FILE, 5, 0o440, list);
    }
}

fn setfacl(words: &[&str], path: &Path) {
    let set = Command::new("setfacl").args(words).arg(path).status();
    let set = set.expect("the command `setfacl`, of Debian's package acl");
    assert!(set.success(), "{words:?}");
}

/// The old file and then the new one are locked from the first step to the last; where edits are forgotten, the one file is.
#[test]
fn locked_at_every_step() {
    let place = Place::new(b"[Desktop Entry]\n");
    for words in [EDITS[2], EDITS[3], FORGET, FORGET] {
        let mut command = place.command(words);
        let outcome = command.env(LOCKED, place.file()).output().unwrap();
        let told = String::from_utf8_lossy(&outcome.stderr);
        assert!(outcome.status.success(), "{told}");
        let done = disk::lock(&place.file(), Duration::ZERO);
        assert!(done.is_ok());
    }
    let file = b"[Desktop Entry]\nIcon=books\n".to_vec();
    assert_eq!(found(&place.file()), Pair::new(file));
}

/// Files that a killed run left half written are no matter.
#[test]
fn leftovers() {
    let file = b"[Desktop Entry]\nName=Lesen\n";
    let mut content = Folder::from([("t".into(), file.to_vec())]);
    for end in ["new", "journal-new"] {
        content.insert(format!(".t.kveldrim-{end}").into(), b"[Desk".to_vec());
    }
    let place = Place::with(&content);
    assert!(place.run(&["set", "Name", "Les"], None));
    let content = place.content();
    let names: Vec<&OsStr> = content.keys().map(OsString::as_os_str).collect();
    assert_eq!(names, [".t.kveldrim-journal", "t"]);
}
