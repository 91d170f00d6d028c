//! What the command says about faults: in words, of all of them, of folders and as objects.

mod common;

use std::collections::BTreeSet;
use std::fs::{self, Permissions};
use std::os::unix::fs::{symlink, MetadataExt, PermissionsExt};
use std::os::unix::process::CommandExt;
use std::process::Command;

use common::{Folder, Outcome, T};
use serde_json::{json, Value};

const CRLF: &str = "this line ends with CR LF, as Windows writes it; save the file with Unix line ends, or run dos2unix on it";

/// Seven faults that looked alike: where each is told, and its words.
const SEVEN: [(&[u8], &str, &str); 7] = [
    (b"[Desktop Entry]\r\nName=x\r\n", "1:16", CRLF),
    (
        b"\xEF\xBB\xBF[Desktop Entry]\nName=x\n",
        "1:1",
        "the file starts with a byte order mark (0xEF 0xBB 0xBF); save it as UTF-8 without one",
    ),
    (b"[Desktop Entry]\nName=M\xFCller\n", "2:7", "the byte 0xFC is not UTF-8; save the file as UTF-8"),
    (b"[Desktop Entry]\nName=a\tb\n", "2:7", "a tab stands in the value; write \\t for it, or a space"),
    (
        b"[Desktop Entry]\nNa_me=x\n",
        "2:3",
        "\"_\" cannot stand in a key; a key has letters A-Z a-z, digits and \"-\", then comes \"=\"",
    ),
    (
        b"[Desktop Entry] \nName=x\n",
        "1:16",
        "a space stands after \"]\"; a header ends there, so remove what follows",
    ),
    (b"[Desktop Entry]\n  Name=x\n", "2:3", "this line is indented; remove the spaces or tabs before \"N\""),
];

#[test]
fn every_command_tells_each_fault_in_its_own_words() {
    let commands: [&[&[u8]]; 12] = [
        &[b"check", b"f"],
        &[b"check", b"--all", b"f"],
        &[b"complete", b"f"],
        &[b"get", b"f", b"Name"],
        &[b"list", b"f", b"Name", b"--locale", b"de"],
        &[b"actions", b"f"],
        &[b"set", b"f", b"Name", b"y"],
        &[b"remove", b"f", b"Name"],
        &[b"undo", b"f"],
        &[b"redo", b"f"],
        &[b"expand", b"f"],
        &[b"expand", b"f", b"--action", b"a"],
    ];
    for (file, place, words) in SEVEN {
        let folder = Folder::new().with(b"f", file);
        for command in commands {
            let outcome = folder.run(command);
            assert_eq!(outcome.status, 1);
            let told = String::from_utf8(outcome.told).unwrap();
            let first = told.lines().next().unwrap();
            assert_eq!(first, format!("f:{place}: {words}"));
        }
    }
}

#[test]
fn faults_of_a_command_are_told_at_their_byte() {
    let told = |exec: &str, expected: &str| {
        let file = format!("[Desktop Entry]\nName=n\nExec={exec}\n");
        let folder = Folder::new().with(b"f", file.as_bytes());
        folder.run(&[b"expand", b"f"]).tells(1, &[expected]);
    };
    told(
        "view 'a'",
        "f:3:11: \"'\" cannot stand outside double quotes",
    );
    told(
        "view\\s\\s\"\\\\q\"",
        "f:3:15: \"\\\" in quotes may stand only before",
    );
    told(
        "view \"%f\"",
        "f:3:12: codes do not work in quotes; put %f outside",
    );
    told(
        "view %f %u",
        "f:3:14: %u is a second code for files, after %f",
    );
    told("view \\$", "f:3:11: \\$ is no escape; ");
    told("", "f:3:6: Exec names no program");
    let folder = Folder::new().with(b"f", b"[Desktop Entry]\nExec=view %c\nName=a\\q\nA=x\\;\n");
    folder
        .run(&[b"expand", b"f"])
        .tells(1, &["f:3:7: \\q is no escape; "]);
    folder
        .run(&[b"get", b"f", b"A"])
        .tells(1, &["f:4:4: \\; is an escape in lists only; "]);
}

#[test]
fn all_faults_are_told_in_the_order_of_lines() {
    let file = b"[Desktop Entry]\r\nType=Foo\nk[de]=1\nName\t=x\nk2=\nk2=\n[a]\n[a]\n";
    let folder = Folder::new().with(b"f", file).with(b"t", T);
    let lines = [
        &format!("f:1:16: {CRLF}"),
        "f:3: k[de] needs",
        "f:4:5: after the key Name",
        "f:6: the key k2 stands in this group already, in line 5",
        "f:8: the group a starts in line 7",
    ];
    folder
        .run(&[b"check", b"--all", b"t", b"f"])
        .tells(1, &lines);
    let mut lines = lines.to_vec();
    lines.insert(1, "f:2: the value of Type is \"Foo\"");
    folder.run(&[b"complete", b"f", b"--all"]).tells(1, &lines);
    folder.run(&[b"complete", b"f"]).tells(1, &lines[..1]);
}

#[test]
fn a_terminal_is_shown_each_line() {
    let folder = Folder::new().with(
        b"f",
        "[Desktop Entry]\nName=\u{4E2D}\u{6587}\t\nk\t=\r\n".as_bytes(),
    );
    let (status, told) = folder.run_on_terminal(&["check", "--all", "f"]);
    let lines: Vec<&str> = told.lines().collect();
    assert_eq!((status, lines.len()), (1, 6), "{told}");
    assert_eq!(
        lines[1..3],
        ["    Name=\u{4E2D}\u{6587}^I", "             ^"]
    );
    assert_eq!(lines[4..], ["    k^I=^M", "     ^"]);
}

#[test]
fn a_folder_is_searched() {
    let folder = Folder::new()
        .with(b"bad.txt", b"x\n")
        .with(b"other", b"x\n");
    for name in ["d/b/deep", "d/empty", "d/a.desktop", "else"] {
        fs::create_dir_all(folder.0.join(name)).unwrap();
    }
    let folder = folder
        .with(b"d/z.desktop", b"")
        .with(b"d/b/deep/.y.desktop", b"")
        .with(b"d/b/c.desktop", T)
        .with(b"d/b/c.desktop.bak", b"")
        .with(b"d/.desktop", b"")
        .with(b"d/a.desktop/\xFFx.desktop", b"")
        .with(b"else/e.desktop", b"");
    // Links below a folder lead to files alone.
    symlink("../else", folder.0.join("d/linked")).unwrap();
    symlink("..", folder.0.join("d/b/loop")).unwrap();
    symlink("../else/e.desktop", folder.0.join("d/link.desktop")).unwrap();
    symlink("nowhere", folder.0.join("d/wrong.desktop")).unwrap();
    let outcome = folder.run(&[b"check", b"d"]);
    let told: Vec<&[u8]> = outcome
        .told
        .split_inclusive(|byte| *byte == b'\n')
        .collect();
    let expected: [&[u8]; 5] = [
        b"d/a.desktop/\xFFx.desktop: the file is empty",
        b"d/b/deep/.y.desktop: the file is empty",
        b"d/link.desktop: the file is empty",
        b"d/wrong.desktop: cannot be read: No such file or directory\n",
        b"d/z.desktop: the file is empty",
    ];
    assert_eq!((outcome.status, told.len()), (2, expected.len()));
    for (line, start) in told.iter().zip(expected) {
        assert!(line.starts_with(start), "{}", line.escape_ascii());
    }
    // A link that is named is followed.
    folder
        .run(&[b"check", b"d/linked"])
        .tells(1, &["d/linked/e.desktop: the file is empty"]);
    folder.run(&[b"check", b"d/empty", b"other"]).tells(
        2,
        &["d/empty: no .desktop file in this folder", "other:1:2: "],
    );
}

/// A command that runs as somebody whom rights hold back.
fn as_nobody() -> Command {
    let mut command = Command::new(env!("CARGO_BIN_EXE_kveldrim"));
    if fs::metadata("/proc/self").is_ok_and(|own| own.uid() == 0) {
        command.uid(65_534).gid(65_534);
    }
    command
}

#[test]
fn a_folder_that_cannot_be_read_is_told() {
    let folder = Folder::new();
    fs::create_dir_all(folder.0.join("d/closed")).unwrap();
    let folder = folder.with(b"d/t.desktop", T);
    let closed = |mode| {
        fs::set_permissions(folder.0.join("d/closed"), Permissions::from_mode(mode)).unwrap()
    };
    closed(0);
    let outcome = folder.run_by(as_nobody(), &[b"check", b"d"]);
    let as_objects = folder.run_by(as_nobody(), &[b"check", b"--json", b"d"]);
    closed(0o700);
    outcome.tells(2, &["d/closed: cannot be read: Permission denied"]);
    assert_eq!(
        outcome.told.escape_ascii().to_string(),
        "d/closed: cannot be read: Permission denied\\n"
    );
    assert_eq!(
        objects(&as_objects)
            .iter()
            .map(|object| &object["file"])
            .collect::<Vec<_>>(),
        ["d/closed", "d/t.desktop"]
    );
}

#[test]
fn standard_input_is_asked_too() {
    let folder = Folder::new();
    folder.run_with(T, &[b"complete", b"-"]).writes(b"");
    folder
        .run_with(b"[Desktop Entry]\nName\n", &[b"check", b"-"])
        .tells(1, &["-:2:5: there is no \"=\" after the key Name;"]);
    let good = folder.run_with(T, &[b"check", b"--json", b"-"]);
    assert_eq!(objects(&good), [json!({ "file": "-", "ok": true })]);
}

/// The objects of an outcome, each on a line; nothing is told besides.
#[track_caller]
fn objects(outcome: &Outcome) -> Vec<Value> {
    assert_eq!(outcome.told.escape_ascii().to_string(), "");
    let out = String::from_utf8(outcome.out.clone()).unwrap();
    assert!(out.is_empty() || out.ends_with('\n'));
    let objects = out
        .lines()
        .map(|line| serde_json::from_str(line).expect(line));
    objects.collect()
}

#[test]
fn faults_as_objects() {
    let folder = Folder::new()
        .with(b"\xFF", T)
        .with(b"f", b"[Desktop Entry]\nName=a\x1Bb\n[a]\n[a]\n")
        .with(b"none", b"");
    let outcome = folder.run(&[
        b"complete",
        b"--all",
        b"--json",
        b"\xFF",
        b"f",
        b"none",
        b"absent",
    ]);
    assert_eq!(outcome.status, 2);
    let object = |file: &str,
                  line: Option<u32>,
                  byte: Option<u32>,
                  kind: &str,
                  number: Option<u32>,
                  words: &str| {
        json!({ "file": file, "ok": false, "line": line, "byte": byte, "kind": kind, "number": number, "words": words })
    };
    let missing = "the key Type is missing in the group Desktop Entry; every file says what it is: Application, Link or Directory";
    let expected = [
        json!({ "file": { "hex": "ff" }, "ok": true }),
        object(
            "f",
            Some(2),
            Some(7),
            "bad-line",
            Some(2),
            "the control byte 0x1B stands in the value; remove it",
        ),
        object(
            "f",
            Some(4),
            None,
            "group-twice",
            Some(4),
            "the group a starts in line 3 already; put its entries there",
        ),
        object("f", None, None, "incomplete", Some(18), missing),
        object(
            "none",
            None,
            None,
            "first",
            Some(3),
            "the file is empty; it must start with the header [Desktop Entry]",
        ),
        object(
            "absent",
            None,
            None,
            "unreadable",
            None,
            "cannot be read: No such file or directory",
        ),
    ];
    assert_eq!(objects(&outcome), expected);
    let first = folder.run(&[b"check", b"--json", b"f"]);
    assert_eq!(
        (first.status, objects(&first)),
        (1, expected[1..2].to_vec())
    );
}

#[test]
fn quiet_tells_nothing() {
    let folder = Folder::new().with(b"t", T).with(b"f", b"x\n");
    for (words, status) in [
        (["check", "-q", "t"], 0),
        (["complete", "--quiet", "f"], 1),
        (["check", "--quiet", "absent"], 2),
    ] {
        let bytes = words.map(str::as_bytes);
        folder.run(&bytes).tells(status, &[]);
        assert_eq!(folder.run_on_terminal(&words), (status, String::new()));
    }
}

#[test]
fn a_terminal_is_told_that_all_is_well() {
    let folder = Folder::new().with(b"t", T).with(b"f", b"[Desktop Entry]\n");
    fs::create_dir(folder.0.join("d")).unwrap();
    let folder = folder.with(b"d/a.desktop", T).with(b"d/b.desktop", T);
    let told = |words: &[&str]| folder.run_on_terminal(words);
    assert_eq!(
        told(&["check", "t", "f", "d"]),
        (0, "4 files are well formed\n".into())
    );
    assert_eq!(
        told(&["check", "--all", "f"]),
        (0, "1 file is well formed\n".into())
    );
    assert_eq!(told(&["complete", "t"]), (0, "1 file is complete\n".into()));
    assert_eq!(
        told(&["complete", "d"]),
        (0, "2 files are complete\n".into())
    );
    assert_eq!(
        told(&["check", "--json", "t"]),
        (0, "{\"file\":\"t\",\"ok\":true}\n".into())
    );
    let (status, lines) = told(&["complete", "t", "f"]);
    assert_eq!((status, lines.lines().count()), (1, 1), "{lines}");
}

/// What could alter a terminal is escaped, whether it comes from a name, a key or a group; numbers of errors are left out.
#[test]
fn messages_hold_nothing_that_alters_a_terminal() {
    let folder = Folder::new()
        .with(b"t", T)
        .with("\u{1B}[1m\u{9B}2J\u{202E}x\n".as_bytes(), b"x\n");
    let told = |words: &[&[u8]], expected: &str| {
        let outcome = folder.run(words);
        assert!(
            outcome.told.starts_with(expected.as_bytes()),
            "{}",
            outcome.told.escape_ascii()
        );
        let told = String::from_utf8(outcome.told).unwrap();
        let harmful = |letter: char| letter.is_control() || letter == '\u{202E}';
        assert!(
            !told.trim_end().contains(harmful) && !told.contains("os error"),
            "{told:?}"
        );
    };
    told(
        &[b"check", "\u{1B}[1m\u{9B}2J\u{202E}x\n".as_bytes()],
        "\\x1B[1m\\xC2\\x9B2J\\xE2\\x80\\xAEx\\x0A:1:2: ",
    );
    told(
        &[b"check", b"\x1Ba"],
        "\\x1Ba: cannot be read: No such file or directory\n",
    );
    told(&[b"get", b"t", b"\x1B"], "t: \\x1B is no key; ");
    told(
        &[b"get", b"t", b"Name", b"--group", b"Desktop"],
        "t: there is no key Name in a group Desktop\n",
    );
    told(
        &[
            b"set",
            b"t",
            b"Name",
            b"x",
            b"--group",
            "\u{202E}".as_bytes(),
        ],
        "t: \\xE2\\x80\\xAE is no name of a group; ",
    );
    for usage in [&[&b"\x1B[1m"[..]][..], &[b"check", b"--\x1B", b"t"]] {
        let outcome = folder.run(usage);
        assert!(outcome.told.starts_with(b"error: ") && outcome.status == 2);
        assert!(
            !outcome.told.contains(&0x1B),
            "{}",
            outcome.told.escape_ascii()
        );
    }
    fs::create_dir(folder.0.join(".a\n.kveldrim-journal")).unwrap();
    fs::write(folder.0.join("a\n"), T).unwrap();
    let journal =
        "a\\x0A: cannot be read: its journal .a\\x0A.kveldrim-journal is not a plain file\n";
    told(&[b"log", b"a\n"], journal);
    told(&[b"get", b".", b"Name"], ".: cannot be read: ");
    told(
        &[b"get", b"absent", b"Name"],
        "absent: cannot be read: No such file or directory\n",
    );
    told(&[b"set", b"absent", b"Name", b"x"], "absent: cannot be ");
    told(&[b"undo", b"absent/x"], "absent/x: cannot be ");
}

/// The examples of docs/JSON.md are lines that the command writes.
#[test]
fn the_examples_of_the_document() {
    let actions = b"Actions=new;\n[Desktop Action new]\nName=New window\nName[de]=Neues Fenster\n";
    let good = [T, b"Categories=Office;Viewer;\n", actions].concat();
    let folder = Folder::new()
        .with(b"good.desktop", &good)
        .with(b"edited.desktop", T)
        .with(b"kveldrim-persons.txt", b"1 Anna\n")
        .with(b"each.desktop", b"[Desktop Entry]\nName=n\nExec=view %f\n")
        .with(
            b"bad.desktop",
            b"[Desktop Entry]\nName\t=x\nIcon=a\nIcon=b\n",
        );
    let latin = Folder::new().with(b"M\xFCller", T);
    let mut written = BTreeSet::new();
    let mut write =
        |outcome: Outcome| written.extend(objects(&outcome).iter().map(Value::to_string));
    write(folder.run(&[
        b"complete",
        b"--all",
        b"--json",
        b"good.desktop",
        b"bad.desktop",
        b"none.desktop",
    ]));
    write(folder.run(&[b"get", b"--json", b"good.desktop", b"Name"]));
    write(folder.run(&[b"list", b"--json", b"good.desktop", b"Categories"]));
    write(folder.run(&[b"actions", b"--json", b"good.desktop", b"--locale=de"]));
    for words in [
        &["set", "edited.desktop", "Name", " Lire", "--person=Anna"][..],
        &["set", "edited.desktop", "Icon", "book", "--person=2"],
        &["remove", "edited.desktop", "Icon"],
        &["undo", "edited.desktop"],
    ] {
        assert_eq!(folder.words(words).status, 0);
    }
    write(folder.run(&[b"log", b"--json", b"edited.desktop"]));
    write(folder.run(&[b"forget", b"--json", b"edited.desktop", b"1"]));
    let table = b"action,key,text\nset,Icon,pen\nremove,Icon\nremove,Icon\n";
    fs::write(folder.0.join("terms.csv"), table).unwrap();
    let batch = ["batch", "--json", "edited.desktop", "terms.csv"];
    write(folder.words(&[&batch[..], &["--person=Anna"]].concat()));
    write(folder.run(&[b"expand", b"--json", b"good.desktop", b"a b.txt"]));
    write(folder.run(&[b"expand", b"--json", b"--runs", b"each.desktop", b"a", b"b"]));
    let latin = objects(&latin.run(&[b"check", b"--json", b"M\xFCller"]));
    written.insert(latin[0]["file"].to_string());

    let document = concat!(env!("CARGO_MANIFEST_DIR"), "/../../docs/JSON.md");
    let document = fs::read_to_string(document).unwrap();
    let examples = document
        .lines()
        .filter_map(|line| line.strip_prefix("    "));
    let example = |line: &str| serde_json::from_str(line).map(|object: Value| object.to_string());
    let examples: BTreeSet<String> = examples.map(|line| example(line).expect(line)).collect();
    assert_eq!(written, examples);
    // Every kind of the tables is one, with its number.
    for kind in kveldrim::Kind::ALL
        .iter()
        .filter(|kind| matches!(kind.number(), 1..=8 | 10 | 11 | 13 | 17 | 18))
    {
        let name = format!("`{}`", kind.name());
        let row = document
            .lines()
            .find(|line| line.starts_with(&format!("| {name} ")))
            .expect(&name);
        let number = row.split('|').nth(2).unwrap().trim();
        assert_eq!(number, kind.number().to_string());
    }
}
