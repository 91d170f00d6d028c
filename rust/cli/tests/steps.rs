//! Edits beside the plain ones: several steps at once, dry runs, warnings, and how the log tells them.

mod common;

use std::process::Command;

use common::{Folder, JOURNAL, T};

fn folder() -> Folder {
    Folder::new().with(b"t", T)
}

impl Folder {
    /// Three edits that stand.
    fn edited(self) -> Folder {
        self.does(&["set", "t", "Name", "Les"]);
        self.does(&["set", "t", "Icon", "book"]);
        self.does(&["remove", "t", "Name[fr]"]);
        self
    }
}

#[test]
fn several_steps_at_once() {
    let folder = folder().edited();
    let edited = folder.read("t");
    folder.words(&["undo", "t", "3"]).writes(b"");
    assert_eq!(folder.read("t"), T);
    folder.words(&["redo", "t", "2"]).writes(b"");
    folder.words(&["redo", "t", "1"]).writes(b"");
    assert_eq!(folder.read("t"), edited);
    // All or none.
    folder.words(&["undo", "t"]).writes(b"");
    let before = folder.both();
    folder.words(&["undo", "t", "3"]).tells(
        1,
        &["t: there are only 2 edits to undo; nothing was changed"],
    );
    folder.words(&["redo", "t", "2"]).tells(
        1,
        &["t: there is only one edit to redo; nothing was changed"],
    );
    assert_eq!(folder.both(), before);
    for wrong in ["0", "-1", "x", "99999999999"] {
        assert_eq!(folder.words(&["undo", "t", wrong]).status, 2, "{wrong}");
    }
    assert_eq!(folder.both(), before);
}

#[test]
fn a_dry_run_changes_nothing() {
    let folder = folder().edited();
    folder.words(&["undo", "t"]).writes(b"");
    let before = folder.both();
    let would = |words: &[&str], lines: &str| {
        let words = [words, &["--dry-run"]].concat();
        folder.words(&words).writes(lines.as_bytes());
        assert_eq!(folder.both(), before);
    };
    would(
        &["set", "t", "Name", "a \"b\"\n"],
        "Name in Desktop Entry: \"Les\" would become \"a \\\"b\\\"\\n\"\n",
    );
    would(
        &["set", "t", "Comment", "c"],
        "Comment in Desktop Entry: \"c\" would be added\n",
    );
    would(
        &["remove", "t", "Icon"],
        "Icon in Desktop Entry: \"book\" would be removed\n",
    );
    would(
        &["undo", "t", "2"],
        "Icon in Desktop Entry: \"book\" would be removed\n\
        Name in Desktop Entry: \"Les\" would become \"Lesen\"\n",
    );
    would(
        &["redo", "t"],
        "Name[fr] in Desktop Entry: \"Lire\" would be removed\n",
    );
    folder
        .words(&["undo", "t", "3", "--dry-run"])
        .tells(1, &["t: there are only 2 edits to undo"]);
    folder
        .words(&["remove", "t", "X", "--dry-run"])
        .tells(1, &["t: there is no key X"]);
    // With the journal put aside, another program's change is no hindrance, and the journal stays.
    let folder = folder.with(b"t", T);
    let set = ["set", "t", "Name", "x", "--dry-run"];
    folder.words(&set).tells(1, &["t: another program"]);
    folder
        .words(&[&set[..], &["--discard-journal"]].concat())
        .writes(b"Name in Desktop Entry: \"Lesen\" would become \"x\"\n");
    assert_eq!(folder.read(JOURNAL), before.2);
}

#[test]
fn an_edit_that_leaves_a_file_incomplete_is_warned_of() {
    let complete = "t: warning: with this edit the file is no longer complete: ";
    let folder = folder();
    folder.words(&["remove", "t", "Exec"]).tells(0, &[complete]);
    folder.words(&["undo", "t"]).writes(b"");
    folder.words(&["set", "t", "Type", "Aplication"]).tells(
        0,
        &["t:2: warning: with this edit the file is no longer complete: "],
    );
    // It was incomplete before: nothing new.
    folder.words(&["set", "t", "Name", "x"]).writes(b"");
    folder.words(&["undo", "t", "2"]).writes(b"");
    folder
        .words(&["set", "t", "Hidden", "yes", "--no-warn"])
        .writes(b"");
    folder.words(&["undo", "t"]).writes(b"");
    folder
        .words(&["set", "t", "Hidden", "yes", "--dry-run"])
        .tells_and_writes(
            0,
            &["t:6: warning: with this edit"],
            b"Hidden in Desktop Entry: \"yes\" would be added\n",
        );
}

#[test]
fn an_exec_that_cannot_be_expanded_is_warned_of() {
    let folder = folder();
    let exec = ":5:11: warning: with this edit Exec can no longer be expanded: ";
    folder
        .words(&["set", "t", "Exec", "view '%f'"])
        .tells(0, &[&format!("t{exec}")]);
    folder.words(&["set", "t", "Exec", "view $x"]).writes(b"");
    folder.words(&["set", "t", "Exec", "view %f"]).writes(b"");
    folder
        .words(&["set", "t", "Exec", "view %f %f", "--no-warn"])
        .writes(b"");
    folder.words(&["undo", "t"]).writes(b"");
    // The Name that %c needs cannot be read any more.
    folder.words(&["set", "t", "Exec", "view %c"]).writes(b"");
    let wrong = "[Desktop Entry]\nType=Application\nExec=view\n".as_bytes();
    let folder = Folder::new().with(b"t", wrong);
    folder.words(&["set", "t", "Exec", "view %c"]).tells(
        0,
        &["t: warning: with this edit Exec can no longer be expanded: there is no key Name"],
    );
}

/// That of an action too, if it is listed.
#[test]
fn an_action_that_cannot_be_expanded_is_warned_of() {
    let group = "--group=Desktop Action a";
    let file = "[Desktop Entry]\nType=Application\nName=n\nExec=view\nActions=a;\n\
        [Desktop Action a]\nName=A\nExec=view %c\n[Desktop Action b]\nName=B\nExec='\n";
    let folder = Folder::new().with(b"t", file.as_bytes());
    let exec = "warning: with this edit Exec of the action a can no longer be expanded: ";
    let set = ["set", "t", "Exec", "view '%f'", group];
    folder
        .words(&set)
        .tells(0, &[&format!("t:8:11: {exec}\"'\" cannot stand outside")]);
    // It was wrong before: nothing new.
    folder.does(&["set", "t", "Exec", "view \"", group]);
    folder.does(&["undo", "t", "2"]);
    folder.does(&[&set[..], &["--no-warn"]].concat());
    folder.does(&["undo", "t"]);
    folder
        .words(&[&set[..], &["--dry-run"]].concat())
        .tells_and_writes(
            0,
            &[&format!("t:8:11: {exec}")],
            b"Exec in Desktop Action a: \"view %c\" would become \"view '%f'\"\n",
        );
    // Without the application's Name its %c has none.
    folder.words(&["remove", "t", "Name"]).tells(
        0,
        &[
            "t: warning: with this edit the file is no longer complete: ",
            &format!("t: {exec}there is no key Name in a group Desktop Entry; %c in Exec of the action a"),
        ],
    );
    folder.does(&["undo", "t"]);
    // One that is not listed is no matter, until it is.
    folder.does(&["set", "t", "Exec", "view '", "--group=Desktop Action b"]);
    folder.words(&["set", "t", "Actions", "a;b;"]).tells(
        0,
        &["t:11:11: warning: with this edit Exec of the action b can no longer be expanded: "],
    );
    folder.does(&["remove", "t", "Exec", "--group=Desktop Action b"]);
}

/// Of very many the rest is counted.
#[test]
fn many_actions_that_cannot_be_expanded() {
    let identifiers: Vec<String> = (0..20).map(|number| format!("a{number}")).collect();
    let group = |action: &String| format!("[Desktop Action {action}]\nName=n\nExec=view %c\n");
    let groups: String = identifiers.iter().map(group).collect();
    let list = identifiers.join(";");
    let file = format!("[Desktop Entry]\nType=Link\nURL=u\nName=n\nActions={list}\n{groups}");
    let folder = Folder::new().with(b"t", file.as_bytes());
    let mut starts = vec!["t: warning: with this edit Exec of the action a"; 11];
    starts[0] = "t: warning: with this edit the file is no longer complete: ";
    starts[10] = "t: warning: 11 more actions have an Exec that can no longer be expanded";
    folder.words(&["remove", "t", "Name"]).tells(0, &starts);
}

/// A text that looks like the log's own words cannot be mistaken for them.
#[test]
fn the_log_quotes_texts() {
    let folder = Folder::new().with(b"t", b"[Desktop Entry]\nName=a\\q\nB=\"x\" became \"y\n");
    folder
        .words(&["set", "t", "B", "a\" became \"b\\\n\t"])
        .writes(b"");
    folder.words(&["set", "t", "Name", " n"]).writes(b"");
    folder.words(&["log", "t"]).writes(
        b"stands: B in Desktop Entry: \"\\\"x\\\" became \\\"y\" became \"a\\\" became \\\"b\\\\\\n\\t\"\n\
        stands: Name in Desktop Entry: raw \"a\\\\q\" became \" n\"\n",
    );
}

/// What alters a terminal is written as an escape.
#[test]
fn the_log_is_safe_on_a_terminal() {
    let folder = folder();
    let name = "a\u{9B}31m\u{202E}b\u{2028}\u{FC}";
    let words = "\"Lesen\" would become \"a\\u{9b}31m\\u{202e}b\\u{2028}\u{FC}\"\n";
    folder
        .words(&["set", "t", "Name", name, "--dry-run"])
        .writes(format!("Name in Desktop Entry: {words}").as_bytes());
}

#[test]
fn a_dry_run_that_cannot_be_written() {
    let folder = folder();
    let mut command = Command::new("sh");
    command.env_clear().args([
        "-c",
        "exec \"$0\" \"$@\" > /dev/full",
        env!("CARGO_BIN_EXE_kveldrim"),
    ]);
    let told = "kveldrim: the answer cannot be written: No space left on device";
    folder
        .run_by(command, &[b"set", b"t", b"Name", b"x", b"--dry-run"])
        .tells(2, &[told]);
}

#[test]
fn the_log_as_objects() {
    let folder = folder().edited();
    folder.words(&["undo", "t"]).writes(b"");
    let out = folder.words(&["log", "t", "--json"]).out;
    let lines: Vec<serde_json::Value> = String::from_utf8(out)
        .unwrap()
        .lines()
        .map(|line| serde_json::from_str(line).unwrap())
        .collect();
    let of = |state: &str, key: &str, old: Option<&str>, new: Option<&str>| serde_json::json!({ "state": state, "group": "Desktop Entry", "key": key, "old": old, "new": new, "person": 0, "name": null });
    assert_eq!(
        lines,
        [
            of("stands", "Name", Some("Lesen"), Some("Les")),
            of("stands", "Icon", None, Some("book")),
            of("waits", "Name[fr]", Some("Lire"), None),
        ]
    );
    let folder = Folder::new().with(b"t", T);
    folder.words(&["log", "t", "--json"]).writes(b"");
}
