//! Edits files as a user does: what they then hold, what is told, and what happens where another program, another editor
//! or the file system is in the way. `src/kills.rs` has the tests that kill the command.

mod common;

use std::ffi::OsStr;
use std::fs::{self, File};
use std::os::unix::ffi::OsStrExt;
use std::os::unix::fs::{symlink, MetadataExt};
use std::process::Command;
use std::thread;
use std::time::Duration;

use common::{earlier_journals, tool, with_digest, Folder, Shared, JOURNAL, T, TABLE};
use rustix::fs::{flock, FlockOperation};

/// Each command that needs the journal.
const COMMANDS: [&[&str]; 7] = [
    &["set", "t", "Name", "x"],
    &["remove", "t", "Exec"],
    &["batch", "t", TABLE],
    &["undo", "t"],
    &["redo", "t"],
    &["forget", "t", "1"],
    &["log", "t"],
];

fn folder() -> Folder {
    Folder::new().with(b"t", T)
}

impl Folder {
    fn holds(&self, file: &str) {
        let found = String::from_utf8(self.read("t")).unwrap();
        assert_eq!(found, file);
    }
}

#[test]
fn edits_and_back() {
    let folder = folder();
    folder.logs("no edit is recorded\n");
    folder.does(&["set", "t", "Name", " Les\tung"]);
    folder.does(&["set", "t", "Name", "Lisez", "--locale", "fr"]);
    folder.does(&["set", "t", "Icon", "book"]);
    folder.does(&["remove", "t", "Exec", "--no-warn"]);
    folder
        .holds("[Desktop Entry]\nType=Application\nName=\\sLes\\tung\nName[fr]=Lisez\nIcon=book\n");
    folder.does(&["undo", "t"]);
    folder.does(&["undo", "t"]);
    folder.holds(
        "[Desktop Entry]\nType=Application\nName=\\sLes\\tung\nName[fr]=Lisez\nExec=view %F\n",
    );
    let stands = "stands: Name in Desktop Entry: \"Lesen\" became \" Les\\tung\"\n\
        stands: Name[fr] in Desktop Entry: \"Lire\" became \"Lisez\"\n";
    let icon = "Icon in Desktop Entry: \"book\" was added\n";
    let exec = "waits: Exec in Desktop Entry: \"view %F\" was removed\n";
    folder.logs(&format!("{stands}waits: {icon}{exec}"));
    folder.does(&["redo", "t"]);
    folder.logs(&format!("{stands}stands: {icon}{exec}"));
    // An edit after an undo forgets what waits.
    folder.does(&["remove", "t", "Name", "--locale=fr"]);
    let removed = "stands: Name[fr] in Desktop Entry: \"Lisez\" was removed\n";
    folder.logs(&format!("{stands}stands: {icon}{removed}"));
    folder.refuses(1, &["redo", "t"], "t: there is nothing to redo");
    for _ in 0..4 {
        folder.does(&["undo", "t"]);
    }
    folder.holds(std::str::from_utf8(T).unwrap());
    folder.refuses(1, &["undo", "t"], "t: there is nothing to undo");
    assert_eq!(folder.names(), [JOURNAL, "t"]);
}

/// Keys that differ in an encoding alone are two.
#[test]
fn keys_with_an_encoding() {
    let folder = folder();
    folder.does(&["set", "t", "Name", "Lies!", "--locale=de.UTF-8"]);
    folder.does(&["set", "t", "Name", "Lis", "--locale=fr.UTF-8", "--no-warn"]);
    folder.does(&["set", "t", "Name", "Lisez", "--locale=fr"]);
    let start = "[Desktop Entry]\nType=Application\nName=Lesen\n";
    let end = "Exec=view %F\nName[de.UTF-8]=Lies!\nName[fr.UTF-8]=Lis\n";
    folder.holds(&format!("{start}Name[fr]=Lisez\n{end}"));
    folder.refuses(
        1,
        &["remove", "t", "Name", "--locale=de"],
        "t: there is no key Name[de] in",
    );
    folder.does(&["remove", "t", "Name", "--locale=fr"]);
    folder.holds(&format!("{start}{end}"));
    folder.logs(
        "stands: Name[de.UTF-8] in Desktop Entry: \"Lies!\" was added\n\
        stands: Name[fr.UTF-8] in Desktop Entry: \"Lis\" was added\n\
        stands: Name[fr] in Desktop Entry: \"Lire\" became \"Lisez\"\n\
        stands: Name[fr] in Desktop Entry: \"Lisez\" was removed\n",
    );
    folder.does(&["undo", "t", "4"]);
    assert_eq!(folder.read("t"), T);
}

#[test]
fn groups_and_last_lines() {
    let file = "[Desktop Entry]\nName = \n# c\n[X y]\n[Z]\nA=1";
    let folder = Folder::new().with(b"t", file.as_bytes());
    folder.does(&["set", "t", "Name", "a=b", "--group", "Desktop Entry"]);
    folder.does(&["set", "t", "B", "", "--group=X y"]);
    folder.does(&["set", "t", "--group", "Z", "--", "B", "-2 "]);
    folder.does(&["remove", "t", "A", "--group=Z"]);
    folder.does(&["remove", "t", "B", "--group=Z"]);
    folder.holds("[Desktop Entry]\nName = a=b\n# c\n[X y]\nB=\n[Z]");
    folder.logs(
        "stands: Name in Desktop Entry: \"\" became \"a=b\"\n\
        stands: B in X y: \"\" was added\n\
        stands: B in Z: \"-2 \" was added\n\
        stands: A in Z: \"1\" was removed\n\
        stands: B in Z: \"-2 \" was removed\n",
    );
    for _ in 0..5 {
        folder.does(&["undo", "t"]);
    }
    folder.holds(file);
}

#[test]
fn refused_edits_change_nothing() {
    let folder = folder()
        .with(b"bad", b"[Desktop Entry]\nName\n")
        .with(b"long", &vec![b'\n'; 40_000]);
    let refuses = |words: &[&str], told: &str| folder.refuses(1, words, told);
    refuses(
        &["set", "t", "Icon", "x", "--locale=de"],
        "t: Icon[de] needs the same key without a [locale] in its group",
    );
    refuses(&["set", "t", "Na me", "x"], "t: Na me is no key; it has");
    refuses(
        &["set", "t", "Name[fr]", "x", "--locale=fr"],
        "t: Name[fr][fr] is no key; it has letters A-Z a-z, digits and -, then perhaps one [locale]",
    );
    refuses(
        &["set", "t", "Name", "x", "--group", "X"],
        "t: there is no group X",
    );
    refuses(
        &["remove", "t", "Name", "--group", "X"],
        "t: there is no group X",
    );
    refuses(
        &["remove", "t", "Icon"],
        "t: there is no key Icon in a group Desktop Entry",
    );
    refuses(
        &["remove", "t", "Name", "--locale=de"],
        "t: there is no key Name[de] in",
    );
    refuses(
        &["remove", "t", "Name"],
        "t: Name cannot be removed while the same key with a [locale] remains",
    );
    refuses(&["set", "t", "Name", "\u{1}"], "t: this text cannot be set");
    refuses(
        &["set", "t", "Name", &"x".repeat(40_000)],
        "t: the file would be over 32,768",
    );
    refuses(
        &["set", "bad", "Name", "x"],
        "bad:2:5: there is no \"=\" after the key Name",
    );
    refuses(
        &["undo", "bad"],
        "bad:2:5: there is no \"=\" after the key Name",
    );
    refuses(
        &["set", "long", "Name", "x"],
        "long: the file is over 32,768 bytes",
    );
    folder.refuses(2, &["set", "none", "Name", "x"], "none: cannot be read");
    folder.refuses(
        2,
        &["undo", "."],
        ".: cannot be read: it is not a plain file",
    );
    folder.refuses(2, &["log", "none"], "none: cannot be read");
    let text = folder.run(&[b"set", b"t", b"Name", b"\xFF"]);
    text.tells(1, &["t: this text cannot be set"]);
    assert_eq!(folder.names(), ["bad", "long", "t"]);
}

#[test]
fn a_full_journal() {
    let folder = folder();
    let [a, b] = ["a", "b"].map(|letter| letter.repeat(14_000));
    for text in [&a, &b] {
        folder.does(&["set", "t", "Name", text]);
    }
    let words = ["set", "t", "Name", &a];
    folder.refuses(1, &words, "t: the journal has no room for this edit (");
    let full = folder.read(JOURNAL);
    folder.does(&["set", "t", "Name", &a, "--discard-journal"]);
    assert_eq!(folder.read(".t.kveldrim-journal-1"), full);
    folder.does(&["undo", "t"]);
    assert_eq!(folder.run(&[b"undo", b"t"]).status, 1);
}

#[test]
fn a_change_by_another_program() {
    let folder = folder();
    folder.does(&["set", "t", "Name", "Les"]);
    let journal = folder.read(JOURNAL);
    let other = [&folder.read("t")[..], b"# a note\n"].concat();
    let folder = folder.with(b"t", &other);
    let told = "t: another program has changed this file since its last edit, so its journal \
        .t.kveldrim-journal no longer belongs to it (set, remove, batch and merge put the journal aside";
    for words in COMMANDS {
        folder.refuses(1, words, told);
    }
    // A refused edit discards nothing.
    folder.refuses(
        1,
        &["remove", "t", "X", "--discard-journal"],
        "t: there is no key X",
    );
    folder.does(&["remove", "t", "Name[fr]", "--discard-journal"]);
    assert_eq!(folder.read(".t.kveldrim-journal-1"), journal);
    folder.does(&["undo", "t"]);
    assert_eq!(folder.read("t"), other);
    folder.refuses(1, &["undo", "t"], "t: there is nothing to undo");
    // Journals that were put aside stay.
    folder.does(&["set", "t", "Name", "x", "--discard-journal"]);
    assert_eq!(folder.read(".t.kveldrim-journal-1"), journal);
    let aside = [
        JOURNAL,
        ".t.kveldrim-journal-1",
        ".t.kveldrim-journal-2",
        "t",
    ];
    assert_eq!(folder.names(), aside);
}

const DAMAGED: &str = "t: its journal .t.kveldrim-journal is damaged (set, remove, batch and merge";

#[test]
fn a_damaged_journal() {
    let folder = folder();
    folder.does(&["set", "t", "Name", "Les"]);
    let edited = folder.read("t");
    let sound = folder.read(JOURNAL);
    // Version 1 has no digest, so what is wrong in it is found further in.
    let sound = [&sound[..8], &[1], &sound[9..sound.len() - 32]].concat();
    let record = sound.len() - 28;
    // No journal at all, one cut short, one of another version without a digest, a record of another kind.
    let damaged = [
        Vec::new(),
        sound[..sound.len() - 1].to_vec(),
        [&sound[..8], &[4], &sound[9..]].concat(),
        [&sound[..record + 4], &[9], &sound[record + 5..]].concat(),
    ];
    let mut folder = folder;
    for journal in damaged {
        folder = folder.with(JOURNAL.as_bytes(), &journal);
        for words in [
            &["set", "t", "Name", "x"][..],
            &["batch", "t", TABLE],
            &["undo", "t"],
            &["forget", "t", "0"],
            &["log", "t"],
        ] {
            folder.refuses(1, words, DAMAGED);
        }
    }
    // A record that does not fit the file.
    let place = [&sound[..record + 8], &[1], &sound[record + 9..]].concat();
    let folder = folder.with(JOURNAL.as_bytes(), &place);
    for words in [&["undo", "t"][..], &["forget", "t", "1"], &["log", "t"]] {
        folder.refuses(1, words, DAMAGED);
    }
    folder.does(&["set", "t", "Name", "x", "--discard-journal"]);
    assert_eq!(folder.read(".t.kveldrim-journal-1"), place);
    folder.does(&["undo", "t"]);
    assert_eq!(folder.read("t"), edited);
}

/// A changed bit would make undo write a text that nobody wrote.
#[test]
fn a_changed_bit_in_the_journal() {
    let folder = folder();
    for text in ["Les", "Lesung", "Lesestunde"] {
        folder.does(&["set", "t", "Name", text]);
    }
    folder.does(&["undo", "t"]);
    let sound = folder.read(JOURNAL);
    let lesen = sound.windows(5).position(|word| word == b"Lesen").unwrap();
    let mut folder = folder;
    for (at, bit) in [
        (lesen, 32),
        (8, 1),
        (12, 2),
        (30, 1),
        (sound.len() - 1, 128),
    ] {
        let mut changed = sound.clone();
        changed[at] ^= bit;
        folder = folder.with(JOURNAL.as_bytes(), &changed);
        for words in COMMANDS {
            folder.refuses(1, words, DAMAGED);
        }
    }
    let folder = folder.with(JOURNAL.as_bytes(), &sound);
    folder.does(&["undo", "t"]);
    folder.does(&["undo", "t"]);
    assert_eq!(folder.read("t"), T);
}

/// Journals of earlier versions: their edits are there, and they go on with those of persons.
#[test]
fn journals_of_earlier_versions() {
    for journal in earlier_journals() {
        let folder = Folder::new()
            .with(b"t", b"[Desktop Entry]\nName=Lesen\n")
            .with(JOURNAL.as_bytes(), &journal);
        let stands = "stands: Name in Desktop Entry: \"Les\" became \"Lesen\"";
        let waits = "waits: Name in Desktop Entry: \"Lesen\" became \"Lesung\"";
        folder.logs(&format!("{stands}\n{waits}\n"));
        assert_eq!(folder.read(JOURNAL), journal);
        folder.does(&["redo", "t"]);
        folder.holds("[Desktop Entry]\nName=Lesung\n");
        assert_eq!(folder.read(JOURNAL)[..12], *b"kveldrim\x03\0\0\0");
        folder.does(&["undo", "t", "2"]);
        folder.holds("[Desktop Entry]\nName=Les\n");
        folder.does(&["redo", "t"]);
        folder.does(&["set", "t", "Name", "Lesestunde", "--person", "3"]);
        folder.does(&["remove", "t", "Name", "--person", "4"]);
        folder.does(&["undo", "t"]);
        folder.logs(&format!(
            "{stands}\n\
            stands: Name in Desktop Entry: \"Lesen\" became \"Lesestunde\", by person 3\n\
            waits: Name in Desktop Entry: \"Lesestunde\" was removed, by person 4\n"
        ));
        folder.does(&["redo", "t"]);
        folder.does(&["undo", "t", "3"]);
        folder.holds("[Desktop Entry]\nName=Les\n");
    }
}

/// A journal that this command is too old for is not damaged.
#[test]
fn a_journal_of_a_newer_version() {
    let folder = folder();
    folder.does(&["set", "t", "Name", "Les"]);
    let own = folder.read(JOURNAL);
    let newer = [&own[..8], b"\x04\0\0\0", &own[12..own.len() - 32]].concat();
    let newer = with_digest(&newer);
    let folder = folder.with(JOURNAL.as_bytes(), &newer);
    let told =
        "t: its journal .t.kveldrim-journal was written by a newer kveldrim, so update this one; \
        nothing was changed";
    for words in COMMANDS {
        folder.refuses(1, words, told);
    }
    // Nothing follows, as the advice to put it aside.
    let log = folder.words(&["log", "t"]).told;
    assert_eq!(log, [told.as_bytes(), b"\n"].concat());
    folder.does(&["set", "t", "Name", "x", "--discard-journal"]);
    assert_eq!(folder.read(".t.kveldrim-journal-1"), newer);
}

#[test]
fn two_editors_at_once() {
    let folder = folder();
    folder.does(&["set", "t", "Name", "Les"]);
    let other = File::open(folder.0.join("t")).unwrap();
    flock(&other, FlockOperation::LockExclusive).unwrap();
    let told = "t: another kveldrim is at work on this file just now; nothing was changed";
    let (log, edits) = COMMANDS.split_last().unwrap();
    for words in edits {
        folder.refuses(75, words, told);
    }
    // Reading needs no lock, and a lock ends with its holder.
    folder.run(&[b"get", b"t", b"Name"]).writes(b"Les\n");
    assert_eq!(*log, ["log", "t"]);
    folder.logs("stands: Name in Desktop Entry: \"Lesen\" became \"Les\"\n");
    flock(&other, FlockOperation::Unlock).unwrap();
    folder.does(&["undo", "t"]);
    assert_eq!(folder.names(), [JOURNAL, "t"]);
}

/// `--wait` is the time that an editor gives another; a dry run needs no lock.
#[test]
fn an_editor_that_waits() {
    let folder = folder();
    let other = File::open(folder.0.join("t")).unwrap();
    flock(&other, FlockOperation::LockExclusive).unwrap();
    let set = ["set", "t", "Name", "Les"];
    let told = "t: another kveldrim is at work on this file just now; nothing was changed (--wait";
    folder.refuses(75, &[&set[..], &["--wait", "0.05"]].concat(), told);
    let dry = folder.run(&[b"set", b"t", b"Name", b"Les", b"--dry-run"]);
    dry.writes(b"Name in Desktop Entry: \"Lesen\" would become \"Les\"\n");
    thread::scope(|scope| {
        let waiting = scope.spawn(|| folder.does(&[&set[..], &["--wait=60"]].concat()));
        thread::sleep(Duration::from_millis(50));
        assert_eq!(folder.read("t"), T);
        flock(&other, FlockOperation::Unlock).unwrap();
        waiting.join().unwrap();
    });
    folder.does(&["undo", "t", "--wait", "1"]);
    assert_eq!(folder.read("t"), T);
}

/// Many editors at once: each edit is made whole or refused, and the journal has all that were made.
#[test]
fn many_editors_at_once() {
    let folder = folder();
    let edits: usize = thread::scope(|scope| {
        let editors: Vec<_> = (0..4)
            .map(|editor| {
                let folder = &folder;
                scope.spawn(move || {
                    let made = |number: &u32| {
                        let key = format!("X-{editor}-{number}");
                        let outcome = folder.run(&[b"set", b"t", key.as_bytes(), b"x"]);
                        let busy = outcome.told.starts_with(b"t: another kveldrim");
                        let told = String::from_utf8_lossy(&outcome.told);
                        assert!(
                            outcome.status == 0 || outcome.status == 75 && busy,
                            "{told}"
                        );
                        outcome.status == 0
                    };
                    (0..12).filter(made).count()
                })
            })
            .collect();
        editors
            .into_iter()
            .map(|editor| editor.join().unwrap())
            .sum()
    });
    assert!(edits > 0);
    let lines = folder.run(&[b"log", b"t"]).out;
    assert_eq!(lines.iter().filter(|byte| **byte == b'\n').count(), edits);
    for _ in 0..edits {
        folder.does(&["undo", "t"]);
    }
    assert_eq!(folder.read("t"), T);
    assert_eq!(folder.names(), [JOURNAL, "t"]);
}

/// Another program has put a new file in the place of one that is being edited. The files that its editor is writing aside
/// are left to him.
#[test]
fn files_that_another_editor_writes() {
    for name in [".t.kveldrim-new", ".t.kveldrim-journal-new"] {
        let folder = folder();
        folder.does(&["set", "t", "Name", "Les"]);
        let folder = folder.with(name.as_bytes(), b"[Desk");
        let other = File::open(folder.0.join(name)).unwrap();
        flock(&other, FlockOperation::LockExclusive).unwrap();
        let told = "t: another kveldrim is at work on this file just now; nothing was changed";
        for words in [COMMANDS[0], &["forget", "t", "1"]] {
            folder.refuses(75, words, told);
        }
        flock(&other, FlockOperation::Unlock).unwrap();
        folder.does(&["set", "t", "Name", "x"]);
        assert_eq!(folder.names(), [JOURNAL, "t"]);
    }
}

#[test]
fn rights_stay_and_links_are_followed() {
    let folder = folder();
    fs::create_dir(folder.0.join("real")).unwrap();
    fs::rename(folder.0.join("t"), folder.0.join("real/f")).unwrap();
    folder.mode("real/f", 0o640);
    symlink("real/f", folder.0.join("t")).unwrap();
    folder.does(&["set", "t", "Name", "Les"]);
    folder.does(&["set", "real/f", "Name", "Lesen und Schreiben"]);
    folder.does(&["undo", "t"]);
    assert_eq!(folder.words(&["forget", "t", "1"]).status, 0);
    assert!(folder.0.join("t").is_symlink());
    assert_eq!(folder.names(), ["real", "t"]);
    for name in ["real/f", "real/.f.kveldrim-journal"] {
        let mode = fs::metadata(folder.0.join(name)).unwrap().mode();
        assert_eq!(mode & 0o7777, 0o640, "{name}");
    }
    folder.run(&[b"get", b"t", b"Name"]).writes(b"Les\n");
}

#[test]
fn names_that_are_not_utf8() {
    let folder = Folder::new().with(b"f\xFF", T);
    folder
        .run(&[b"set", b"f\xFF", b"Name", "M\u{FC}ller".as_bytes()])
        .writes(b"");
    folder
        .run(&[b"get", b"f\xFF", b"Name"])
        .writes("M\u{FC}ller\n".as_bytes());
    folder.run(&[b"undo", b"f\xFF"]).writes(b"");
    folder.run(&[b"get", b"f\xFF", b"Name"]).writes(b"Lesen\n");
}

#[test]
fn a_folder_or_a_file_that_cannot_be_written_as_root() {
    let folder = folder();
    folder.does(&["set", "t", "Name", "Les"]);
    let shared = Shared::new();
    let run = |words: &[&[u8]]| folder.run_by(shared.command(65_534, 65_534, None), words);
    let before = folder.all();
    let refuses = |why: &str| {
        let told = format!("t: cannot be edited: {why}");
        for words in [
            &[&b"set"[..], b"t", b"Name", b"x"][..],
            &[b"undo", b"t"],
            &[b"forget", b"t", b"1"],
        ] {
            run(words).tells(2, &[&told]);
            assert_eq!(folder.all(), before);
        }
    };
    // The folder is read-only, and the file is not.
    folder.mode("t", 0o666);
    folder.mode(".", 0o555);
    refuses("you may not write in its folder");
    run(&[b"log", b"t"]).writes(b"stands: Name in Desktop Entry: \"Lesen\" became \"Les\"\n");
    // The file is read-only, and the folder is not.
    folder.mode("t", 0o444);
    folder.mode(".", 0o777);
    refuses("you may not write it");
    // The journal may not be read.
    folder.mode("t", 0o666);
    folder.mode(JOURNAL, 0o600);
    let told = "t: cannot be read: its journal .t.kveldrim-journal may not be read";
    run(&[b"log", b"t"]).tells(2, &[told]);
    run(&[b"undo", b"t"]).tells(2, &[told]);
    assert_eq!(folder.all(), before);
}

/// A journal is put aside whole or not at all, and only with an edit that is made.
#[test]
fn a_journal_that_is_not_put_aside() {
    let folder = folder().with(JOURNAL.as_bytes(), &[b'x'; 300_000]);
    let set = ["set", "t", "Name", "x", "--discard-journal"];
    let told = "t: cannot be read: .t.kveldrim-journal beside it is too long for a journal";
    for words in COMMANDS.iter().copied().chain([&set[..]]) {
        folder.refuses(2, words, told);
    }
    let folder = folder.with(JOURNAL.as_bytes(), b"x");
    fs::create_dir(folder.0.join(".t.kveldrim-new")).unwrap();
    for _ in 0..2 {
        folder.refuses(2, &set, "t: cannot be edited: .t.kveldrim-new beside it");
    }
    fs::remove_dir(folder.0.join(".t.kveldrim-new")).unwrap();
    folder.does(&set);
    assert_eq!(folder.read(".t.kveldrim-journal-1"), b"x");
}

/// What may stand where a plain file is expected.
const KINDS: [&str; 4] = [
    "a link to nothing",
    "a link to another file",
    "a FIFO",
    "a folder",
];

/// A folder in which something of a kind has a name.
fn taken(name: &str, kind: &str) -> Folder {
    let folder = folder().with(b"other", b"other");
    folder.does(&["set", "t", "Name", "Les"]);
    let path = folder.0.join(name);
    let _ = fs::remove_file(&path);
    match kind {
        "a link to nothing" => symlink("none", &path).unwrap(),
        "a link to another file" => symlink("other", &path).unwrap(),
        "a FIFO" => drop(tool("mkfifo", "coreutils", &[], &path)),
        _ => fs::create_dir(&path).unwrap(),
    }
    folder
}

/// Every name in a folder, with what a link there leads to and the bytes of a plain file.
fn everything(folder: &Folder) -> Vec<(String, String)> {
    let names = folder.names().into_iter();
    let what = |name: &str| {
        let path = folder.0.join(name);
        let kind = fs::symlink_metadata(&path).unwrap().file_type();
        let link = fs::read_link(&path).ok();
        let bytes = kind.is_file().then(|| folder.read(name));
        format!("{kind:?} {link:?} {bytes:?}")
    };
    names.map(|name| (name.clone(), what(&name))).collect()
}

/// Where a name beside the file is taken by something that is not a plain file, nothing is changed.
#[test]
fn names_that_are_taken() {
    for kind in KINDS {
        for name in [".t.kveldrim-new", ".t.kveldrim-journal-new"] {
            let folder = taken(name, kind);
            let before = everything(&folder);
            let told = format!("t: cannot be edited: {name} beside it is not a plain file");
            for words in [COMMANDS[0], &["forget", "t", "1"]] {
                folder.run_in_time(words).tells(2, &[&told]);
                assert_eq!(everything(&folder), before, "{name} is {kind}");
            }
        }
        let folder = taken(JOURNAL, kind);
        let before = everything(&folder);
        let told = format!("t: cannot be read: its journal {JOURNAL} is not a plain file");
        let discard = &["set", "t", "Name", "x", "--discard-journal"];
        for words in COMMANDS.iter().copied().chain([&discard[..]]) {
            folder.run_in_time(words).tells(2, &[&told]);
            assert_eq!(everything(&folder), before, "{JOURNAL} is {kind}");
        }
    }
}

/// The name of the lock that a version before had is nothing to this one; for a journal that is put aside the next name serves.
#[test]
fn names_that_are_passed_over() {
    for kind in KINDS {
        for name in [".t.kveldrim-lock", ".t.kveldrim-journal-1"] {
            let folder = taken(name, kind);
            let there = |folder: &Folder| {
                let mut all = everything(folder);
                all.retain(|(found, _)| found == name || found == "other");
                all
            };
            let before = there(&folder);
            let journal = folder.read(JOURNAL);
            let discard = &["set", "t", "Name", "x", "--discard-journal"];
            folder.run_in_time(discard).writes(b"");
            folder.run_in_time(&["undo", "t"]).writes(b"");
            folder
                .run_in_time(&["log", "t"])
                .writes(b"waits: Name in Desktop Entry: \"Les\" became \"x\"\n");
            assert_eq!(there(&folder), before, "{name} is {kind}");
            let aside = match name {
                ".t.kveldrim-lock" => ".t.kveldrim-journal-1",
                _ => ".t.kveldrim-journal-2",
            };
            assert_eq!(folder.read(aside), journal);
        }
    }
}

#[test]
fn a_file_that_is_not_plain() {
    let folder = Folder::new();
    tool("mkfifo", "coreutils", &[], &folder.0.join("t"));
    symlink("t", folder.0.join("link")).unwrap();
    for name in ["t", "link"] {
        for words in COMMANDS {
            let words = [&words[..1], &[name], &words[2..]].concat();
            let told = format!("{name}: cannot be read: it is not a plain file");
            folder.run_in_time(&words).tells(2, &[&told]);
        }
    }
    assert_eq!(folder.names(), ["link", "t"]);
}

/// Names of up to 255 bytes, some of which differ at their end only.
#[test]
fn long_names() {
    let folder = Folder::new();
    let names: Vec<Vec<u8>> = [
        "x".repeat(230),
        "x".repeat(231),
        "x".repeat(255),
        format!("{}y", "x".repeat(254)),
        "\u{E4}".repeat(127),
    ]
    .map(String::into_bytes)
    .into_iter()
    .chain([vec![0xFF; 255]])
    .collect();
    for (number, name) in names.iter().enumerate() {
        fs::write(folder.0.join(OsStr::from_bytes(name)), T).unwrap();
        let text = number.to_string();
        folder
            .run(&[b"set", name, b"Name", text.as_bytes()])
            .writes(b"");
    }
    for (number, name) in names.iter().enumerate() {
        let line = format!("stands: Name in Desktop Entry: \"Lesen\" became \"{number}\"\n");
        folder.run(&[b"log", name]).writes(line.as_bytes());
        folder
            .run(&[b"set", name, b"Name", b"x", b"--discard-journal"])
            .writes(b"");
        folder.run(&[b"undo", name]).writes(b"");
        folder
            .run(&[b"get", name, b"Name"])
            .writes(format!("{number}\n").as_bytes());
    }
    // Each has a journal and one that was put aside.
    assert_eq!(fs::read_dir(&folder.0).unwrap().count(), 3 * names.len());
}

/// A file that was renamed without its journal.
#[test]
fn a_renamed_file() {
    let folder = folder().with(b"other", T);
    folder.does(&["set", "t", "Name", "Les"]);
    folder.does(&["set", "other", "Name", "x"]);
    fs::rename(folder.0.join("t"), folder.0.join("it's new")).unwrap();
    let log = folder.run(&[b"log", b"it's new"]);
    assert_eq!(log.out, b"no edit is recorded\n");
    assert_eq!(log.status, 0);
    let told = String::from_utf8(log.told).unwrap();
    let start = "it's new: it has no journal, but seems to have been renamed: the journal \
        .t.kveldrim-journal belongs to just these bytes (mv -n ";
    assert!(told.starts_with(start), "{told}");
    for step in ["undo", "redo"] {
        folder.refuses(1, &[step, "it's new"], start);
    }
    // The command that is told does it, wherever it is run.
    let (_, command) = told.split_once('(').unwrap();
    let (command, _) = command.split_once(" gives it back)").unwrap();
    let moved = Command::new("sh")
        .args(["-c", command])
        .current_dir("/")
        .status();
    assert!(moved.unwrap().success(), "{command}");
    folder.does(&["undo", "it's new"]);
    assert_eq!(folder.read("it's new"), T);
}

/// A journal is not offered to a file of other bytes, nor while the file that it is of is there.
#[test]
fn journals_that_are_not_left_behind() {
    let folder = folder();
    folder.does(&["set", "t", "Name", "Les"]);
    let copy = folder.read("t");
    let folder = folder.with(b"copy", &copy).with(b"other", T);
    let nothing = |name: &str| {
        let told = format!("{name}: there is nothing to undo");
        folder.refuses(1, &["undo", name], &told);
        folder
            .run(&[b"log", name.as_bytes()])
            .writes(b"no edit is recorded\n");
    };
    nothing("copy");
    fs::remove_file(folder.0.join("t")).unwrap();
    nothing("other");
    let told = "copy: it has no journal, but seems to have been renamed";
    folder.refuses(1, &["undo", "copy"], told);
}
