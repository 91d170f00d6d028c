//! Forgets the oldest edits as a user does: what is told, what is left of the journal, and that the file stays as it is.
//! `editing.rs` has what is in the way of forgetting as of any edit, `shared.rs` the rights, `src/kills.rs` the kills.

mod common;

use std::fs::{self, File};
use std::os::unix::fs::MetadataExt;
use std::path::Path;
use std::process::Command;
use std::thread;
use std::time::Duration;

use common::{earlier_journals, Folder, Outcome, JOURNAL, T};
use rustix::fs::{flock, FlockOperation};
use serde_json::{json, Value};

/// The edits of [`folder`] in words.
const NAME: &str = "Name in Desktop Entry: \"Lesen\" became \"Les\"\n";
const ICON: &str = "Icon in Desktop Entry: \"book\" was added, by person 2\n";
const FRENCH: &str = "Name[fr] in Desktop Entry: \"Lire\" was removed\n";
const AGAIN: &str = "Icon in Desktop Entry: \"book\" became \"pen\"\n";

/// A file with three edits that stand and one that waits.
fn folder() -> Folder {
    let folder = Folder::new().with(b"t", T);
    folder.does(&["set", "t", "Name", "Les"]);
    folder.does(&["set", "t", "Icon", "book", "--person", "2"]);
    folder.does(&["remove", "t", "Name[fr]"]);
    folder.does(&["set", "t", "Icon", "pen"]);
    folder.does(&["undo", "t"]);
    folder
}

impl Folder {
    /// Forgets edits, which writes this. Nothing of the file `t` changes.
    fn forgets(&self, words: &[&str], expected: &str) {
        let file = || {
            let found = fs::metadata(self.0.join("t")).unwrap();
            let times = [found.mtime(), found.mtime_nsec()];
            let changed = [found.ctime(), found.ctime_nsec()];
            (self.read("t"), found.ino(), times, changed)
        };
        let before = file();
        let outcome = self.words(&[&["forget", "t"], words].concat());
        outcome.writes(expected.as_bytes());
        assert_eq!(file(), before);
    }

    /// As [`Folder::forgets`], where the journal stays as it is too.
    fn keeps(&self, words: &[&str], expected: &str) {
        let journal = || {
            let found = fs::metadata(self.0.join(JOURNAL)).ok();
            (self.all(), found.map(|found| found.ino()))
        };
        let before = journal();
        self.forgets(words, expected);
        assert_eq!(journal(), before);
    }
}

#[test]
fn the_oldest_edits_go() {
    let folder = folder();
    folder.forgets(
        &["1"],
        &format!("forgotten: {NAME}now standing: 2, waiting: 1\n"),
    );
    folder.logs(&format!("stands: {ICON}stands: {FRENCH}waits: {AGAIN}"));
    // Undo comes back to where the first edit left the file, and no further.
    folder.refuses(
        1,
        &["undo", "t", "3"],
        "t: there are only 2 edits to undo; nothing was changed",
    );
    folder.does(&["undo", "t", "2"]);
    let start = String::from_utf8(T.to_vec()).unwrap();
    let start = start.replace("Name=Lesen", "Name=Les");
    assert_eq!(folder.read("t"), start.as_bytes());
    folder.refuses(1, &["undo", "t"], "t: there is nothing to undo");
    folder.does(&["redo", "t", "3"]);
    folder.forgets(
        &["2"],
        &format!("forgotten: {ICON}forgotten: {FRENCH}now standing: 1, waiting: 0\n"),
    );
    folder.logs(&format!("stands: {AGAIN}"));
    folder.does(&["set", "t", "Name", "x"]);
    folder.does(&["undo", "t", "2"]);
    folder.refuses(1, &["undo", "t"], "t: there is nothing to undo");
    assert_eq!(folder.names(), [JOURNAL, "t"]);
}

#[test]
fn all_but_the_newest() {
    let folder = folder();
    folder.forgets(
        &["--keep", "2"],
        &format!("forgotten: {NAME}now standing: 2, waiting: 1\n"),
    );
    for keep in ["2", "3", "18446744073709551615"] {
        folder.keeps(
            &["--keep", keep],
            "nothing to forget; standing: 2, waiting: 1\n",
        );
    }
    folder.forgets(
        &["--keep=0"],
        &format!("forgotten: {ICON}forgotten: {FRENCH}now standing: 0, waiting: 1\n"),
    );
    folder.logs(&format!("waits: {AGAIN}"));
    folder.does(&["redo", "t"]);
    folder.run(&[b"get", b"t", b"Icon"]).writes(b"pen\n");
}

/// Without an edit there is no journal, so that a change by another program is no hindrance.
#[test]
fn the_last_edits() {
    let folder = folder();
    folder.does(&["redo", "t"]);
    folder.forgets(
        &["4"],
        &format!(
            "forgotten: {NAME}forgotten: {ICON}forgotten: {FRENCH}forgotten: {AGAIN}\
            now standing: 0, waiting: 0\n"
        ),
    );
    assert_eq!(folder.names(), ["t"]);
    folder.logs("no edit is recorded\n");
    folder.refuses(1, &["undo", "t"], "t: there is nothing to undo");
    let folder = folder.with(b"t", T);
    folder.does(&["set", "t", "Name", "Les"]);
    folder.logs(&format!("stands: {NAME}"));
}

#[test]
fn nothing_is_forgotten() {
    let folder = folder();
    folder.keeps(&["0"], "nothing to forget; standing: 3, waiting: 1\n");
    folder.keeps(
        &["0", "--dry-run"],
        "nothing to forget; standing: 3, waiting: 1\n",
    );
    let folder = Folder::new().with(b"t", T);
    for words in [&["0"][..], &["--keep", "0"], &["--keep", "1"]] {
        folder.keeps(words, "nothing to forget; standing: 0, waiting: 0\n");
    }
    assert_eq!(folder.names(), ["t"]);
}

/// The edits that wait do not count.
#[test]
fn more_than_there_are() {
    let folder = folder();
    let refuses = |told: &str| {
        for count in ["4", "18446744073709551615"] {
            for more in [&[][..], &["--dry-run"], &["--json"]] {
                let words = [&["forget", "t", count], more].concat();
                folder.refuses(1, &words, told);
            }
        }
    };
    refuses("t: there are only 3 edits to forget; nothing was changed");
    folder.does(&["undo", "t", "2"]);
    refuses("t: there is only one edit to forget; nothing was changed");
    folder.does(&["undo", "t"]);
    refuses("t: there is nothing to forget");
    let folder = Folder::new().with(b"t", T);
    folder.refuses(1, &["forget", "t", "1"], "t: there is nothing to forget");
    folder.refuses(2, &["forget", "none", "0"], "none: cannot be read");
}

/// It tells what would go, and takes no lock.
#[test]
fn a_dry_run() {
    let folder = folder();
    let other = File::open(folder.0.join("t")).unwrap();
    flock(&other, FlockOperation::LockExclusive).unwrap();
    folder.keeps(
        &["2", "--dry-run"],
        &format!(
            "would be forgotten: {NAME}would be forgotten: {ICON}then standing: 1, waiting: 1\n"
        ),
    );
    folder.keeps(
        &["--keep", "2", "--dry-run"],
        &format!("would be forgotten: {NAME}then standing: 2, waiting: 1\n"),
    );
}

/// The objects that an outcome has written.
fn objects(outcome: &Outcome) -> Vec<Value> {
    outcome.writes(&outcome.out);
    let lines = std::str::from_utf8(&outcome.out).unwrap().lines();
    lines
        .map(|line| serde_json::from_str(line).unwrap())
        .collect()
}

#[test]
fn objects_of_what_goes() {
    let folder = folder();
    let edits = |state: &str| {
        let of = |key: &str, old: Option<&str>, new: &str, person: u16| {
            json!({
                "state": state, "group": "Desktop Entry", "key": key, "old": old, "new": new,
                "person": person, "name": null,
            })
        };
        let numbers = json!({ "forgotten": 2, "stands": 1, "waits": 1 });
        [
            of("Name", Some("Lesen"), "Les", 0),
            of("Icon", None, "book", 2),
            numbers,
        ]
    };
    let forget = |words: &[&str]| {
        let words = [&["forget", "t", "--json"], words].concat();
        objects(&folder.words(&words))
    };
    assert_eq!(forget(&["2", "--dry-run"]), edits("would be forgotten"));
    assert_eq!(forget(&["--keep", "1"]), edits("forgotten"));
    let nothing = json!({ "forgotten": 0, "stands": 1, "waits": 1 });
    assert_eq!(forget(&["0"]), [nothing]);
    let log = objects(&folder.words(&["log", "t", "--json"]));
    assert_eq!(log.len(), 2);
    assert_eq!(log[0]["key"], "Name[fr]");
}

#[test]
fn whose_edits_go() {
    let folder = folder().with(b"kveldrim-persons.txt", b"2 Ben\n");
    folder.forgets(
        &["2"],
        &format!(
            "forgotten: {NAME}forgotten: {}now standing: 1, waiting: 1\n",
            ICON.replace("person 2", "\"Ben\" (person 2)")
        ),
    );
}

/// What is left of a journal of an earlier version is written as one of this version; its records stay as they are.
#[test]
fn journals_of_earlier_versions() {
    let left = b"\x1d\0\0\0\x01\0\x15\0\0\0\x05\0\0\0\x06\0\0\0LesenLesung";
    let first = "Name in Desktop Entry: \"Les\" became \"Lesen\"\n";
    let second = "Name in Desktop Entry: \"Lesen\" became \"Lesung\"\n";
    let third = "Name in Desktop Entry: \"Lesung\" became \"x\", by person 3\n";
    for journal in earlier_journals() {
        let folder = Folder::new()
            .with(b"t", b"[Desktop Entry]\nName=Lesen\n")
            .with(JOURNAL.as_bytes(), &journal);
        folder.keeps(&["0"], "nothing to forget; standing: 1, waiting: 1\n");
        folder.forgets(
            &["1"],
            &format!("forgotten: {first}now standing: 0, waiting: 1\n"),
        );
        let written = folder.read(JOURNAL);
        assert_eq!(written[..12], *b"kveldrim\x03\0\0\0");
        assert!(written[..written.len() - 32].ends_with(left));
        folder.does(&["redo", "t"]);
        folder.does(&["set", "t", "Name", "x", "--person", "3"]);
        folder.forgets(
            &["1"],
            &format!("forgotten: {second}now standing: 1, waiting: 0\n"),
        );
        folder.logs(&format!("stands: {third}"));
        folder.does(&["undo", "t"]);
        assert_eq!(folder.read("t"), b"[Desktop Entry]\nName=Lesung\n");
        folder.refuses(1, &["undo", "t"], "t: there is nothing to undo");
    }
}

/// Three short edits and two long ones of a file with this name, and a text that is longer by 40 bytes than what the journal has
/// room for; each short record has 26 bytes.
fn filled(name: &[u8]) -> (Folder, Vec<u8>) {
    let folder = Folder::new().with(name, T);
    let set = |key: &[u8], text: &[u8]| {
        folder.run(&[b"set", b"--", name, key, text]).writes(b"");
    };
    for key in [b"X-1", b"X-2", b"X-3"] {
        set(key, b"x");
    }
    for letter in [b"a", b"b"] {
        set(b"Name", &letter.repeat(13_000));
    }
    (folder, b"c".repeat(13_433))
}

/// A full journal tells how many edits are in the way, and no fewer make room.
#[test]
fn a_full_journal() {
    let (folder, text) = filled(b"t");
    let text = String::from_utf8(text).unwrap();
    let full = "t: the journal has no room for this edit (kveldrim forget t";
    let set = ["set", "t", "Name", &text];
    let told = format!("{full} 2 makes room: the 2 oldest edits can then no longer be undone)");
    folder.refuses(1, &set, &told);
    folder.refuses(1, &[&set[..], &["--dry-run"]].concat(), &told);
    assert_eq!(folder.words(&["forget", "t", "1"]).status, 0);
    let told = format!("{full} 1 makes room: the oldest edit can then no longer be undone)");
    folder.refuses(1, &set, &told);
    assert_eq!(folder.words(&["forget", "t", "1"]).status, 0);
    folder.does(&set);
    folder.does(&["undo", "t", "4"]);
    folder.run(&[b"get", b"t", b"Name"]).writes(b"Lesen\n");
    folder.refuses(1, &["undo", "t"], "t: there is nothing to undo");
}

/// A remove writes a record too.
#[test]
fn a_journal_without_room_for_a_remove() {
    let folder = Folder::new().with(b"t", T);
    for (letter, length) in [("a", 14_000), ("b", 14_000), ("c", 6_000)] {
        folder.does(&["set", "t", "Icon", &letter.repeat(length)]);
    }
    let told = "t: the journal has no room for this edit (kveldrim forget t 1 makes room: ";
    folder.refuses(1, &["remove", "t", "Icon"], told);
    assert_eq!(folder.words(&["forget", "t", "1"]).status, 0);
    folder.does(&["remove", "t", "Icon"]);
    assert_eq!(folder.read("t"), T);
}

/// The longest old and new value that a file can have: a journal without edits has room for both.
#[test]
fn the_longest_edit() {
    let folder = Folder::new().with(b"t", b"[Desktop Entry]\nA=x");
    let [a, b] = ["a", "b"].map(|letter| letter.repeat(32_750));
    folder.does(&["set", "t", "A", &a]);
    assert_eq!(folder.read("t").len(), 32_768);
    for text in [&b, &a] {
        let set = ["set", "t", "A", text];
        let told = "t: the journal has no room for this edit (kveldrim forget t 1 makes room: ";
        folder.refuses(1, &set, told);
        assert_eq!(folder.words(&["forget", "t", "1"]).status, 0);
        folder.does(&set);
    }
}

/// The command that is told makes room, however the file is called; a name that alters a terminal is left out.
#[test]
fn the_command_that_makes_room() {
    for (name, shown) in [
        (&b"it's a file"[..], "'it'\\''s a file'"),
        (b"-t", "-- -t"),
        (b"--t 1", "-- '--t 1'"),
        (b"t\n", "FILE"),
    ] {
        let (folder, text) = filled(name);
        let set = [&b"set"[..], b"--", name, b"Name", &text];
        let outcome = folder.run(&set);
        assert_eq!(outcome.status, 1);
        let told = String::from_utf8(outcome.told).unwrap();
        let (_, command) = told.split_once('(').unwrap();
        let (command, _) = command.split_once(" makes room: ").unwrap();
        assert_eq!(command, format!("kveldrim forget {shown} 2"));
        if shown == "FILE" {
            continue;
        }
        let own = Path::new(env!("CARGO_BIN_EXE_kveldrim")).parent().unwrap();
        let mut shell = Command::new("/bin/sh");
        shell.env_clear().env("PATH", own).args(["-c", command]);
        let outcome = folder.run_by(shell, &[]);
        outcome.writes(&outcome.out);
        folder.run(&set).writes(b"");
    }
}

#[test]
fn beside_another_editor() {
    let folder = folder();
    let other = File::open(folder.0.join("t")).unwrap();
    flock(&other, FlockOperation::LockExclusive).unwrap();
    let forget = ["forget", "t", "1"];
    let told = "t: another kveldrim is at work on this file just now; nothing was changed (--wait";
    folder.refuses(75, &forget, told);
    folder.refuses(75, &[&forget[..], &["--wait", "0.05"]].concat(), told);
    let before = folder.both();
    let expected = format!("forgotten: {NAME}now standing: 2, waiting: 1\n");
    thread::scope(|scope| {
        let waiting = scope.spawn(|| folder.forgets(&["1", "--wait=60"], &expected));
        thread::sleep(Duration::from_millis(50));
        assert_eq!(folder.both(), before);
        flock(&other, FlockOperation::Unlock).unwrap();
        waiting.join().unwrap();
    });
}

/// A journal under the file's old name is told of.
#[test]
fn a_renamed_file() {
    let folder = folder();
    fs::rename(folder.0.join("t"), folder.0.join("new")).unwrap();
    let told =
        "new: it has no journal, but seems to have been renamed: the journal .t.kveldrim-journal";
    folder.refuses(1, &["forget", "new", "1"], told);
    folder
        .words(&["forget", "new", "--keep", "1"])
        .tells_and_writes(0, &[told], b"nothing to forget; standing: 0, waiting: 0\n");
}

/// What a killed run left behind goes, as with an edit.
#[test]
fn leftovers() {
    for count in ["1", "3"] {
        let folder = Folder::new().with(b"t", T);
        for _ in 0..3 {
            folder.does(&["set", "t", "Name", "Les"]);
        }
        let folder = folder
            .with(b".t.kveldrim-new", b"[Desk")
            .with(b".t.kveldrim-journal-new", b"kvel");
        assert_eq!(folder.words(&["forget", "t", count]).status, 0);
        let names = folder.names();
        let left: &[&str] = if count == "3" {
            &["t"]
        } else {
            &[JOURNAL, "t"]
        };
        assert_eq!(names, left);
    }
}

/// Where the answer cannot be written, it is told that the edits are forgotten; a dry run forgets nothing.
#[test]
fn an_answer_that_cannot_be_written() {
    let folder = folder();
    let tells = |words: &[&[u8]], told: &str| {
        let mut command = Command::new("sh");
        let script = "exec \"$0\" \"$@\" > /dev/full";
        command.args(["-c", script, env!("CARGO_BIN_EXE_kveldrim")]);
        let outcome = folder.run_by(command, &[&[&b"forget"[..], b"t"], words].concat());
        assert_eq!(outcome.status, 2);
        let why = "kveldrim: the answer cannot be written: No space left on device";
        let expected = format!("{why}{told}\n");
        assert_eq!(String::from_utf8(outcome.told).unwrap(), expected);
    };
    let before = folder.all();
    tells(&[b"0"], "");
    tells(&[b"3", b"--dry-run"], "");
    assert_eq!(folder.all(), before);
    tells(&[b"3"], "; the edits are forgotten all the same");
    folder.logs(&format!("waits: {AGAIN}"));
}
