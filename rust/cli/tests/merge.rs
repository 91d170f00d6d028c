//! Merges two changed copies of a file as a user does. `src/merge/tests.rs` has the generated ones.

mod common;

use std::fs::{self, File};
use std::os::unix::fs::{symlink, MetadataExt};
use std::process::Command;
use std::thread;
use std::time::Duration;

use common::{Folder, Outcome, T};
use rustix::fs::{flock, FlockOperation};

/// A folder with the three files.
fn folder(base: &str, mine: &str, theirs: &str) -> Folder {
    let files = [("base", base), ("mine", mine), ("theirs", theirs)];
    files.iter().fold(Folder::new(), |folder, (name, bytes)| {
        folder.with(name.as_bytes(), bytes.as_bytes())
    })
}

/// The three files, each with the group that every file has.
fn entries(base: &str, mine: &str, theirs: &str) -> Folder {
    let [base, mine, theirs] = [base, mine, theirs].map(|rest| format!("[Desktop Entry]\n{rest}"));
    folder(&base, &mine, &theirs)
}

impl Folder {
    fn merge(&self, words: &[&str]) -> Outcome {
        self.words(&[&["merge", "base", "mine", "theirs"], words].concat())
    }

    /// The merged file.
    fn merges(&self, expected: &str) {
        self.merge(&[]).writes(expected.as_bytes());
    }

    /// Just these conflicts, in whichever way the answer is to be written; nothing is changed.
    fn conflicts(&self, lines: &[&str]) {
        let mine = self.read("mine");
        for words in [&[][..], &["--output", "mine"], &["--output", "new"]] {
            let outcome = self.merge(words);
            outcome.tells(1, lines);
            let told: usize = lines.iter().map(|line| line.len() + 1).sum();
            assert_eq!(outcome.told.len(), told, "{lines:?}");
        }
        assert_eq!(self.read("mine"), mine);
        assert_eq!(self.names(), ["base", "mine", "theirs"]);
    }
}

/// What one copy merges and the other has: the entries of a file after its first header.
fn is_merged(base: &str, mine: &str, theirs: &str, expected: &str) {
    entries(base, mine, theirs).merges(&format!("[Desktop Entry]\n{expected}"));
}

#[test]
fn changes_of_different_entries() {
    let base = "Name=Lesen\nName[fr]=Lire\nExec=view %F\nCategories=A;B\\;C;\nX-Wrong=\\q\n";
    // Lines beside each other, in both orders.
    let mine = base
        .replace("Lesen", "Read")
        .replace("A;B\\;C;", "A;B\\;D;");
    let theirs = base.replace("Lire", "Lisez").replace("\\q", "\\w");
    let both = "Name=Read\nName[fr]=Lisez\nExec=view %F\nCategories=A;B\\;D;\nX-Wrong=\\w\n";
    is_merged(base, &mine, &theirs, both);
    is_merged(base, &theirs, &mine, both);
    // The same change in both is one.
    is_merged(base, &mine, &mine, &mine);
    // Spaces around the sign are the line's, not the value's.
    is_merged(
        "A=1\nB=2\n",
        "A  =  1\nB=2\n",
        "A=3\nB=2\n",
        "A  =  3\nB=2\n",
    );
    // The same key in another group is another entry.
    let [base, mine, theirs] = [
        "Name=a\n[X]\nName=a\n",
        "Name=b\n[X]\nName=a\n",
        "Name=a\n[X]\nName=c\n",
    ];
    is_merged(base, mine, theirs, "Name=b\n[X]\nName=c\n");
}

#[test]
fn lines_that_come_go_and_move() {
    // Both add the same entry, and each one of its own.
    is_merged(
        "A=1\n",
        "A=1\nB=2\nC=3\n",
        "A=1\nB=2\nD=4\n",
        "A=1\nB=2\nC=3\nD=4\n",
    );
    // An entry comes after the last one, not after a blank line that the other put there.
    is_merged(
        "A=1\n",
        "A=1\n\n# end\n",
        "A=1\nB=2\n",
        "A=1\nB=2\n\n# end\n",
    );
    is_merged(
        "A=1\n",
        "A=1\nB=2\n",
        "A=1\n\n# end\n",
        "A=1\nB=2\n\n# end\n",
    );
    is_merged(
        "A=1\nZ=9\n",
        "A=1\nB=2\n# of Z\nZ=9\n",
        "A=1\nC=3\nZ=9\n",
        "A=1\nB=2\nC=3\n# of Z\nZ=9\n",
    );
    // One is removed, and the other that is beside it is changed.
    is_merged(
        "A=1\nB=2\nC=3\n",
        "A=1\nC=3\n",
        "A=4\nB=2\nC=5\n",
        "A=4\nC=5\n",
    );
    // An entry that was moved in one copy is changed or removed in the other.
    is_merged(
        "A=1\nB=2\nC=3\n",
        "B=2\nC=3\nA=1\n",
        "A=4\nB=2\nC=3\n",
        "B=2\nC=3\nA=4\n",
    );
    is_merged(
        "A=1\nB=2\nC=3\n",
        "B=2\nC=3\nA=1\n",
        "B=2\nC=3\n",
        "B=2\nC=3\n",
    );
    // Moved in both, it stands where MINE has it.
    is_merged(
        "A=1\nB=2\nC=3\nD=4\n",
        "B=2\nC=3\nA=1\nD=4\n",
        "B=2\nC=3\nD=4\nA=1\n",
        "B=2\nC=3\nA=1\nD=4\n",
    );
    // The LF at the end.
    is_merged("A=1\nB=2", "A=1\nB=2\n", "A=3\nB=2", "A=3\nB=2\n");
    is_merged("A=1\nB=2\n", "A=1\nB=2", "A=1\nB=2\nC=3\n", "A=1\nB=2\nC=3");
}

#[test]
fn comments_and_blank_lines() {
    let base = "# a\nA=1\n\n# b\nB=2\n";
    // A comment was changed, and the entry below it; a comment is added where one is changed.
    is_merged(
        base,
        "# c\nA=1\n\n# b\nB=2\n",
        "# a\nA=2\n\n# b\nB=2\n",
        "# c\nA=2\n\n# b\nB=2\n",
    );
    is_merged(
        base,
        "# c\nA=1\n\n# b\nB=2\n",
        "# n\n# a\nA=1\n\n# b\nB=2\n",
        "# n\n# c\nA=1\n\n# b\nB=2\n",
    );
    // Both do the same, or put different comments at one place.
    is_merged(
        base,
        "# c\nA=1\n\n# b\nB=2\n",
        "# c\nA=1\n# b\nB=2\n",
        "# c\nA=1\n# b\nB=2\n",
    );
    is_merged("A=1\n", "# m\nA=1\n", "# t\nA=1\n", "# m\n# t\nA=1\n");
    // A comment that one copy moved and the other removed goes.
    is_merged(
        base,
        "A=1\n\n# b\nB=2\n# a\n",
        "A=1\n\n# b\nB=2\n",
        "A=1\n\n# b\nB=2\n",
    );
    // Moved in both, it stands where MINE has it, and is no conflict with what was put where it was.
    is_merged(
        "# a\nA=1\nB=2\n",
        "# m\nA=1\n# a\nB=2\n",
        "A=1\nB=2\n# a\n",
        "# m\nA=1\n# a\nB=2\n",
    );
    // An entry that one removes and the other comments out.
    is_merged("A=1\nB=2\n", "A=1\n", "A=1\n#B=2\n", "A=1\n#B=2\n");
    // Lines before the first header.
    let first = folder(
        "# a\n[Desktop Entry]\n",
        "# a\n# m\n[Desktop Entry]\n",
        "# t\n[Desktop Entry]\nA=1",
    );
    first.merges("# t\n# m\n[Desktop Entry]\nA=1");
}

#[test]
fn groups() {
    let base = "A=1\n\n[X]\nB=2\n[Y]\nC=3\n";
    // New groups of both, with the lines before them.
    is_merged(
        base,
        &format!("{base}\n# m\n[M]\nD=4\n"),
        &format!("{base}\n[T]\nD=5\n"),
        &format!("{base}\n# m\n[M]\nD=4\n\n[T]\nD=5\n"),
    );
    // The same new group in both.
    is_merged(
        "",
        "[X]\nA=1\nB=2\n",
        "[X]\nA=1\nC=3\n",
        "[X]\nA=1\nB=2\nC=3\n",
    );
    // A comment just above a header goes where its group goes.
    let lead = "A=1\n\n# x\n[X]\nB=2\n[Y]\nC=3\n";
    let [before, after] = ["A=1\n\n# m\n[M]\nD=4\n\n", "# x\n[X]\nB=2\n[Y]\nC=3\n"];
    let with_new = &format!("{before}{after}");
    is_merged(
        lead,
        with_new,
        &with_new.replace("# m\n[M]", "# t\n[T]"),
        &format!("{before}# t\n[T]\nD=4\n\n{after}"),
    );
    is_merged(
        lead,
        with_new,
        &lead.replace("# x\n", ""),
        &with_new.replace("# x\n", ""),
    );
    is_merged(
        lead,
        with_new,
        &lead.replace("# x", "# z"),
        &with_new.replace("# x", "# z"),
    );
    is_merged(
        lead,
        with_new,
        "A=1\n[Y]\nC=3\n",
        "A=1\n\n# m\n[M]\nD=4\n[Y]\nC=3\n",
    );
    // A blank line is no change of a group.
    is_merged("A=1\n[X]\nB=2\n", "A=1\n", "A=1\n[X]\nB=2\n\n", "A=1\n");
    // A group is removed, another changed.
    is_merged(
        base,
        "A=1\n\n[Y]\nC=3\n",
        "A=1\n\n[X]\nB=2\n[Y]\nC=4\n",
        "A=1\n\n[Y]\nC=4\n",
    );
    // A group is moved, and removed or changed in the other copy.
    is_merged(
        base,
        "A=1\n\n[Y]\nC=3\n[X]\nB=2\n",
        "A=1\n\n[Y]\nC=3\n",
        "A=1\n\n[Y]\nC=3\n",
    );
    is_merged(
        base,
        "A=1\n\n[Y]\nC=3\n[X]\nB=2\n",
        "A=1\n\n[X]\nB=2\n[Y]\nC=4\n",
        "A=1\n\n[Y]\nC=4\n[X]\nB=2\n",
    );
}

#[test]
fn conflicts_of_values() {
    let files = entries(
        "Name=Lesen\nA=1\n",
        "Name=Read\nA=1\n",
        "A=1\nName=Reader\n",
    );
    files.conflicts(&[
        "mine:2: conflict: Name in Desktop Entry: \"Lesen\" became \"Read\", but \"Reader\" in theirs:3",
    ]);
    entries("A=1\n", "A=a\\sb\n", "A=a b\n").conflicts(&[
        "mine:2: conflict: A in Desktop Entry: \"1\" became \"a b\", but \"a b\" with other escapes in theirs:2",
    ]);
    let files = entries("A=1\n", "A=1\nB=a \\\"\\n\n", "A=1\nB=\\;\n");
    files.conflicts(&[
        "mine:3: conflict: B in Desktop Entry: raw \"a \\\\\\\"\\\\n\" was added, but raw \"\\\\;\" in theirs:3",
    ]);
    let files = entries("A=1\nB=2\n[X]\nA=1\n", "A=2\n[X]\nA=1\n", "B=3\n[X]\nA=1\n");
    files.conflicts(&[
        "mine:2: conflict: A in Desktop Entry: \"1\" became \"2\", but was removed in theirs",
        "theirs:2: conflict: B in Desktop Entry: \"2\" became \"3\", but was removed in mine",
    ]);
    // In the order of lines, whatever they are about.
    let files = entries(
        "# a\nA=1\n[X]\nB=1\n[Y]\nC=1\n",
        "# b\nA=2\n[X]\nB=2\n[Y]\nC=1\n",
        "# c\nA=3\n[X]\nB=3\n[Y]\nC=2\n",
    );
    files.conflicts(&[
        "mine:2: conflict: the comment \"# a\" was changed, but in another way in theirs:2",
        "mine:3: conflict: A in Desktop Entry: \"1\" became \"2\", but \"3\" in theirs:3",
        "mine:5: conflict: B in X: \"1\" became \"2\", but \"3\" in theirs:5",
    ]);
}

#[test]
fn conflicts_of_spaces() {
    entries("A=1\n", "A =1\n", "A= 1\n").conflicts(&[
        "mine:2: conflict: A in Desktop Entry: the spaces around \"=\" were changed, but in another way in theirs:2",
    ]);
    entries("A=1\n", "A =1\n", "").conflicts(&[
        "mine:2: conflict: A in Desktop Entry: the spaces around \"=\" were changed, but the entry was removed in theirs",
    ]);
    entries("", "A =1\n", "A=1\n").conflicts(&[
        "mine:2: conflict: A in Desktop Entry: \"1\" was added, but with other spaces around \"=\" in theirs:2",
    ]);
}

#[test]
fn conflicts_of_comments() {
    entries("# a\n", "# m\n", "").conflicts(&[
        "mine:2: conflict: the comment \"# a\" was changed, but was removed in theirs",
    ]);
    entries("# a\nA=1\n", "# m\nA=1\n", "A=1\n# a\n")
        .conflicts(&["mine:2: conflict: the comment \"# a\" was changed, but was moved in theirs"]);
    entries("# a\nA=1\n", "A=1\n# a\n", "# t\nA=1\n")
        .conflicts(&["theirs:2: conflict: the comment \"# a\" was changed, but was moved in mine"]);
    // The one that differs is told.
    for theirs in ["# a\n# t\n", "# m\n# t\n"] {
        entries("# a\n# b\n", "# m\n# n\n", theirs).conflicts(&[
            "mine:3: conflict: the comment \"# b\" was changed, but in another way in theirs:3",
        ]);
    }
    is_merged("# a\n# b\n", "# m\n# n\n", "# a\n# n\n", "# m\n# n\n");
    entries("# \u{1B}[1m\\\n", "", "# t\n").conflicts(&[
        "theirs:2: conflict: the comment \"# \\u{1b}[1m\\\\\" was changed, but was removed in mine",
    ]);
}

#[test]
fn conflicts_of_groups() {
    let (base, changed) = ("A=1\n[X]\nB=2\n", "A=1\n[X]\nB=2\n# c\n");
    entries(base, changed, "A=1\n")
        .conflicts(&["mine:3: conflict: the group X was changed, but was removed in theirs"]);
    entries(base, "A=1\n", changed)
        .conflicts(&["theirs:3: conflict: the group X was changed, but was removed in mine"]);
}

/// One copy adds translations of a key that the other removed.
#[test]
fn conflicts_of_postfixed_keys() {
    let base = "GenericName=a\nGenericName[de]=b\n";
    let more = "GenericName=a\nGenericName[de]=b\nGenericName[fr]=c\nGenericName[it]=d\n";
    for (mine, theirs, file, other) in [(more, "", "mine", "theirs"), ("", more, "theirs", "mine")]
    {
        let line = |number: u32, key: &str, value: &str| {
            format!("{file}:{number}: conflict: {key} in Desktop Entry: \"{value}\" was added, but GenericName was removed in {other}")
        };
        let lines = [
            line(4, "GenericName[fr]", "c"),
            line(5, "GenericName[it]", "d"),
        ];
        entries(base, mine, theirs).conflicts(&lines.each_ref().map(String::as_str));
    }
    // One that is told already is not told again.
    let moved = "Name=N\nURL=u\nName[de]=E\n";
    entries("Name=N\nName[de]=D\nURL=u\n", "URL=u\n", moved).conflicts(&[
        "theirs:4: conflict: Name[de] in Desktop Entry: \"D\" became \"E\", but was removed in mine",
    ]);
}

#[test]
fn files_that_are_refused() {
    let folder = entries("A=1\n", "A=1\r\n", "A\n").with(b"good", b"[Desktop Entry]\n");
    folder.merge(&[]).tells(
        2,
        &[
            "mine:2:4: this line ends with CR LF, as Windows writes it",
            "theirs:2:2: there is no \"=\" after the key A",
        ],
    );
    let told = "none: cannot be read: No such file or directory";
    folder
        .words(&["merge", "good", "none", "mine"])
        .tells(2, &[told, "mine:2:4: this line ends with CR LF"]);
    let outcome = folder.words(&["merge", "good", "good", "none", "--output", "new"]);
    outcome.tells(2, &[told]);
    let folder = folder.with(b"long", &vec![b'\n'; 40_000]);
    let outcome = folder.words(&["merge", "good", "long", "."]);
    outcome.tells(
        2,
        &[
            "long: the file is over 32,768 bytes",
            ".: cannot be read: Is a directory",
        ],
    );
    assert_eq!(folder.names(), ["base", "good", "long", "mine", "theirs"]);
}

/// Each copy is short enough, and what they come to is not.
#[test]
fn too_long() {
    let line = |key: &str| format!("{key}={}\n", "x".repeat(20_000));
    let folder = entries("", &line("A"), &line("B"));
    let told = "the merged file: it would be over 32,768 bytes; nothing was written";
    folder.merge(&[]).tells(2, &[told]);
    let told = "mine: it would be over 32,768 bytes; nothing was written";
    folder.merge(&["--output", "mine"]).tells(2, &[told]);
    assert_eq!(folder.names(), ["base", "mine", "theirs"]);
}

#[test]
fn standard_input() {
    let folder = entries("A=1\nB=2\n", "A=3\nB=2\n", "A=1\nB=4\n");
    for at in 0..3 {
        let mut names = ["base", "mine", "theirs"];
        let input = folder.read(names[at]);
        names[at] = "-";
        let words = [&["merge"][..], &names].concat();
        let words: Vec<&[u8]> = words.iter().map(|word| word.as_bytes()).collect();
        folder
            .run_with(&input, &words)
            .writes(b"[Desktop Entry]\nA=3\nB=4\n");
    }
    let outcome = folder.run_with(b"x", &[b"merge", b"base", b"-", b"theirs"]);
    outcome.tells(2, &["-:1:2: "]);
    let outcome = folder.run_with(
        b"[Desktop Entry]\nA=5\n",
        &[b"merge", b"base", b"mine", b"-"],
    );
    outcome.tells(
        1,
        &["mine:2: conflict: A in Desktop Entry: \"1\" became \"3\", but \"5\" in -:2"],
    );
}

/// Names and values cannot alter a terminal.
#[test]
fn names_in_messages() {
    let folder = Folder::new()
        .with(b"base", b"[Desktop Entry]\nA=1\n")
        .with(
            b"my \x1B[1m copy",
            "[Desktop Entry]\nA=\u{202E}2\n".as_bytes(),
        )
        .with(b"their\ncopy", b"[Desktop Entry]\nA=\\n\n");
    folder.run(&[b"merge", b"base", b"my \x1B[1m copy", b"their\ncopy"]).tells(
        1,
        &["my \\x1B[1m copy:2: conflict: A in Desktop Entry: \"1\" became \"\\u{202e}2\", but \"\\n\" in their\\x0Acopy:2"],
    );
}

const BOTH: &[u8] = b"[Desktop Entry]\nA=3\nB=4\n";

fn two_changes() -> Folder {
    entries("A=1\nB=2\n", "A=3\nB=2\n", "A=1\nB=4\n")
}

#[test]
fn output_to_a_copy() {
    for name in ["base", "mine", "theirs"] {
        let folder = two_changes();
        folder.mode(name, 0o640);
        folder.merge(&["-o", name]).writes(b"");
        assert_eq!(folder.read(name), BOTH);
        let mode = fs::metadata(folder.0.join(name)).unwrap().mode();
        assert_eq!(mode & 0o7777, 0o640);
        assert_eq!(folder.names(), ["base", "mine", "theirs"]);
    }
    // A link is followed.
    let folder = two_changes();
    symlink("mine", folder.0.join("link")).unwrap();
    folder.merge(&["--output", "link"]).writes(b"");
    assert_eq!(folder.read("mine"), BOTH);
    assert!(folder.0.join("link").is_symlink());
    // A file that is none of these is not overwritten if it is too long to be one.
    let folder = folder.with(b"long", &vec![b'x'; 40_000]);
    let told = "long: the file is over 32,768 bytes";
    folder.merge(&["--output", "long"]).tells(2, &[told]);
    assert_eq!(folder.read("long").len(), 40_000);
    // What is there already need not be written.
    let before = fs::metadata(folder.0.join("mine")).unwrap();
    folder
        .words(&["merge", "base", "mine", "theirs", "--output=./mine"])
        .writes(b"");
    let after = fs::metadata(folder.0.join("mine")).unwrap();
    assert_eq!(
        (before.ino(), before.mtime_nsec()),
        (after.ino(), after.mtime_nsec())
    );
}

#[test]
fn output_to_a_new_file() {
    let folder = two_changes();
    fs::create_dir(folder.0.join("sub")).unwrap();
    for (mask, mode) in [("022", 0o644), ("077", 0o600)] {
        let mut command = Command::new("sh");
        command.args(["-c", "umask \"$0\"; exec \"$@\"", mask]);
        command.arg(env!("CARGO_BIN_EXE_kveldrim"));
        let name = format!("sub/new file {mask}");
        let words = ["merge", "base", "mine", "theirs", "--output", &name];
        let words: Vec<&[u8]> = words.iter().map(|word| word.as_bytes()).collect();
        folder.run_by(command, &words).writes(b"");
        assert_eq!(folder.read(&name), BOTH);
        let found = fs::metadata(folder.0.join(&name)).unwrap().mode();
        assert_eq!(found & 0o7777, mode);
    }
    assert_eq!(fs::read_dir(folder.0.join("sub")).unwrap().count(), 2);
    for (name, told) in [
        (
            "none/new",
            "none/new: cannot be created: No such file or directory",
        ),
        ("new/", "new/: cannot be created: it is not a plain file"),
        ("sub", "sub: cannot be read: it is not a plain file"),
    ] {
        folder.merge(&["--output", name]).tells(2, &[told]);
    }
    symlink("none", folder.0.join("link")).unwrap();
    let told = "link: cannot be read: No such file or directory";
    folder.merge(&["--output", "link"]).tells(2, &[told]);
    // A file that was removed has left its journal.
    let folder = folder.with(b".new.kveldrim-journal", b"x");
    let told =
        "new: its journal .new.kveldrim-journal is of a file that is no longer there; move it away";
    folder.merge(&["--output", "new"]).tells(2, &[told]);
    assert!(!folder.0.join("new").exists());
}

#[test]
fn output_to_a_file_with_a_journal() {
    let folder = two_changes();
    folder.words(&["set", "mine", "A", "5"]).writes(b"");
    let (edited, journal) = (folder.read("mine"), folder.read(".mine.kveldrim-journal"));
    let told = "mine: its journal .mine.kveldrim-journal has edits that would no longer belong to the file (--discard-journal puts it aside)";
    folder.merge(&["--output", "mine"]).tells(2, &[told]);
    assert_eq!(folder.read("mine"), edited);
    assert_eq!(folder.read(".mine.kveldrim-journal"), journal);
    folder
        .merge(&["--output", "mine", "--discard-journal"])
        .writes(b"");
    assert_eq!(folder.read("mine"), b"[Desktop Entry]\nA=5\nB=4\n");
    assert_eq!(folder.read(".mine.kveldrim-journal-1"), journal);
    let names = [".mine.kveldrim-journal-1", "base", "mine", "theirs"];
    assert_eq!(folder.names(), names);
    // A file without edits: the next set starts a journal.
    folder
        .words(&["log", "mine"])
        .writes(b"no edit is recorded\n");
    folder
        .words(&["undo", "mine"])
        .tells(1, &["mine: there is nothing to undo"]);
    folder.words(&["set", "mine", "A", "6"]).writes(b"");
    folder.words(&["undo", "mine"]).writes(b"");
    assert_eq!(folder.read("mine"), b"[Desktop Entry]\nA=5\nB=4\n");
    // Another program has changed the file: a refusal is 2 here.
    let folder = folder.with(b"mine", b"[Desktop Entry]\nA=7\nB=2\n");
    let told = "mine: another program has changed this file since its last edit";
    folder.merge(&["--output", "mine"]).tells(2, &[told]);
    folder
        .merge(&["--output", "mine", "--discard-journal"])
        .writes(b"");
    assert_eq!(folder.read("mine"), b"[Desktop Entry]\nA=7\nB=4\n");
    // Without --output a journal is no matter.
    folder.words(&["set", "theirs", "A", "7"]).writes(b"");
    folder.merges("[Desktop Entry]\nA=7\nB=4\n");
}

#[test]
fn output_to_a_file_that_another_edits() {
    let folder = two_changes();
    let other = File::open(folder.0.join("mine")).unwrap();
    flock(&other, FlockOperation::LockExclusive).unwrap();
    let told = "mine: another kveldrim is at work on this file just now; nothing was changed";
    folder.merge(&["--output", "mine"]).tells(75, &[told]);
    folder
        .merge(&["--output", "mine", "--wait=0.05"])
        .tells(75, &[told]);
    folder.merges("[Desktop Entry]\nA=3\nB=4\n");
    thread::scope(|scope| {
        let waiting = scope.spawn(|| folder.merge(&["--output", "mine", "--wait=60"]).writes(b""));
        thread::sleep(Duration::from_millis(50));
        flock(&other, FlockOperation::Unlock).unwrap();
        waiting.join().unwrap();
    });
    assert_eq!(folder.read("mine"), BOTH);
    // Another merge makes the same new file.
    let folder = folder.with(b".new.kveldrim-new", b"[Desk");
    let other = File::open(folder.0.join(".new.kveldrim-new")).unwrap();
    flock(&other, FlockOperation::LockExclusive).unwrap();
    folder
        .merge(&["--output", "new"])
        .tells(75, &["new: another kveldrim is at work"]);
    flock(&other, FlockOperation::Unlock).unwrap();
    folder.merge(&["--output", "new"]).writes(b"");
    assert_eq!(folder.names(), ["base", "mine", "new", "theirs"]);
}

/// Each copy is complete and can be expanded, and what they come to is not and cannot.
#[test]
fn warnings() {
    let start = "[Desktop Entry]\nType=Application\nName=a\n";
    let incomplete = folder(
        &format!("{start}DBusActivatable=true\nExec=view\n"),
        &format!("{start}DBusActivatable=true\n"),
        &format!("{start}DBusActivatable=false\nExec=view\n"),
    );
    let merged = format!("{start}DBusActivatable=false\n");
    let outcome = incomplete.merge(&[]);
    let told = String::from_utf8(outcome.told).unwrap();
    assert_eq!((outcome.status, &outcome.out[..]), (0, merged.as_bytes()));
    let start_of_told = "the merged file: warning: with this merge the file is no longer complete: the key Exec is missing";
    assert!(told.starts_with(start_of_told), "{told}");
    incomplete.merge(&["--no-warn"]).writes(merged.as_bytes());
    let unexpanded = entries(
        "Name=a\nExec=view\n",
        "Name=a\nExec=view %c\n",
        "Exec=view\n",
    );
    let told =
        "mine: warning: with this merge Exec can no longer be expanded: there is no key Name";
    unexpanded.merge(&["--output", "mine"]).tells(0, &[told]);
    assert_eq!(unexpanded.read("mine"), b"[Desktop Entry]\nExec=view %c\n");
    let action = "Actions=a\n[Desktop Action a]\nName=A\n";
    let unexpanded = entries(
        &format!("Name=a\n{action}Exec=view\n"),
        &format!("Name=a\n{action}Exec=view %c\n"),
        &format!("{action}Exec=view\n"),
    );
    let told = "mine: warning: with this merge Exec of the action a can no longer be expanded: there is no key Name";
    unexpanded.merge(&["--output", "mine"]).tells(0, &[told]);
    // What was not well before is not told.
    entries("Name=a\n", "Name=b\n", "").conflicts(&[
        "mine:2: conflict: Name in Desktop Entry: \"a\" became \"b\", but was removed in theirs",
    ]);
    is_merged("Name=a\nIcon=b\n", "Name=a\n", "Icon=b\n", "");
}

/// Runs git, of Debian's package git, in the folder and with no settings but the folder's.
fn git(folder: &Folder, words: &[&str]) -> Outcome {
    let mut command = Command::new("git");
    let path = std::env::var_os("PATH").unwrap_or_default();
    command.env_clear().env("PATH", path).env("HOME", &folder.0);
    let words: Vec<&[u8]> = words.iter().map(|word| word.as_bytes()).collect();
    folder.run_by(command, &words)
}

/// As a merge driver of git, set as the README says: changes of neighbouring lines are merged, and a conflict stays one, also where
/// git merges two bases first.
#[test]
fn driver_of_git() {
    let folder = Folder::new().with(b".gitattributes", b"*.desktop merge=kveldrim\n");
    let git = |words: &[&str]| git(&folder, words);
    let does = |words: &[&str]| git(words).writes(b"");
    let words = " merge %O %A %B --output %A --label base --label %P --label theirs";
    let readme =
        fs::read_to_string(concat!(env!("CARGO_MANIFEST_DIR"), "/../../README.md")).unwrap();
    assert!(readme.contains(&format!("merge.kveldrim.driver 'kveldrim{words}'")));
    assert!(readme.contains("git config merge.kveldrim.recursive binary"));
    let driver = env!("CARGO_BIN_EXE_kveldrim").to_string() + words;
    does(&["init", "--quiet"]);
    does(&["config", "merge.kveldrim.driver", &driver]);
    does(&["config", "merge.kveldrim.recursive", "binary"]);
    does(&["config", "user.name", "a"]);
    does(&["config", "user.email", "a@b"]);
    let put = |text: &str| {
        fs::write(folder.0.join("t.desktop"), text).unwrap();
        does(&["add", "."]);
        does(&["commit", "--quiet", "--message", "x"]);
    };
    let commit = |branch: &str, text: &str| {
        does(&["checkout", "--quiet", "-b", branch]);
        put(text);
    };
    let base = std::str::from_utf8(T).unwrap();
    commit("base", base);
    for (branch, old, new) in [
        ("mine", "Lesen", "Read"),
        ("theirs", "Lire", "Lisez"),
        ("other", "Lesen", "Reader"),
    ] {
        commit(branch, &base.replace(old, new));
        does(&["checkout", "--quiet", "base"]);
    }
    does(&["checkout", "--quiet", "mine"]);
    assert_eq!(git(&["merge", "--no-edit", "theirs"]).status, 0);
    let merged = base.replace("Lire", "Lisez").replace("Lesen", "Read");
    assert_eq!(folder.read("t.desktop"), merged.as_bytes());
    let refused = git(&["merge", "--no-edit", "other"]);
    assert_eq!(refused.status, 1);
    let told = String::from_utf8(refused.told).unwrap();
    let conflict = "t.desktop:3: conflict: Name in Desktop Entry: \"Lesen\" became \"Read\", but \"Reader\" in theirs:3\n";
    assert!(told.contains(conflict), "{told}");
    assert_eq!(folder.read("t.desktop"), merged.as_bytes());
    assert_eq!(git(&["status", "--porcelain"]).out, b"UU t.desktop\n");
    // Each takes the other in and keeps its own value; then there are two bases, which differ.
    put(&merged);
    does(&["checkout", "--quiet", "other"]);
    assert_eq!(git(&["merge", "--no-edit", "mine~1"]).status, 1);
    put(&merged.replace("Read", "Reader"));
    let refused = git(&["merge", "--no-edit", "mine"]);
    assert_eq!(refused.status, 1);
    let told = String::from_utf8(refused.told).unwrap();
    assert!(told.contains("t.desktop:3: conflict: Name"), "{told}");
}

/// Messages have other names for the files, in their order.
#[test]
fn labels() {
    let folder = entries("A=1\n", "A=2\n", "A=3\n");
    let conflict = |mine: &str, theirs: &str| {
        format!(
            "{mine}:2: conflict: A in Desktop Entry: \"1\" became \"2\", but \"3\" in {theirs}:2"
        )
    };
    for (labels, expected) in [
        (&["--label", "b"][..], conflict("mine", "theirs")),
        (&["-L", "b", "-L", "m"], conflict("m", "theirs")),
        (&["-L", "b", "--label=m", "-L", "t"], conflict("m", "t")),
    ] {
        folder.merge(labels).tells(1, &[&expected]);
    }
    folder
        .merge(&["-L", "a", "-L", "b", "-L", "c", "-L", "d"])
        .tells(2, &["kveldrim: --label can stand three times"]);
    let folder = entries("A=1\n", "A\n", "A=1\n");
    folder.merge(&["-L", "b", "-L", "m"]).tells(2, &["m:2:2: "]);
}
