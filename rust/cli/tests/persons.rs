//! Who edits: the options and variables that say so, the file of persons, and where persons are told.

mod common;

use std::fs;
use std::os::unix::fs::symlink;
use std::process::{Command, Stdio};

use common::{tool, Folder, Outcome, JOURNAL, T, TABLE};

/// The file of persons that is looked for, and one.
const BESIDE: &str = "kveldrim-persons.txt";
const PERSONS: &[u8] = b"# Evening courses\n\n1 Anna Berg\n 2\t Ben \r\n";

/// Each command that takes a person; the first three record it.
const EDITS: [&[&str]; 5] = [
    &["set", "t", "Name", "x"],
    &["remove", "t", "Exec", "--no-warn"],
    &["batch", "t", TABLE],
    &["undo", "t"],
    &["redo", "t"],
];

/// Each command that takes no person, but tells whose edits there are.
const TELLERS: [&[&str]; 2] = [&["log", "t"], &["forget", "t", "1"]];

/// What an undo or redo warns of where it is not known who runs it.
const NOT_TOLD: &str = "warning: edits of others are not told as such";

/// A file with an edit of person 7 that stands and one of person 1 that waits.
fn folder() -> Folder {
    let folder = Folder::new().with(b"t", T);
    folder.does(&["set", "t", "Name", "a", "--person", "7"]);
    folder.does(&["set", "t", "Name", "b", "--person", "1"]);
    folder.does(&["undo", "t"]);
    folder
}

impl Folder {
    /// The file of persons in the folder, as it is told.
    fn beside(&self) -> String {
        let folder = fs::canonicalize(&self.0).unwrap();
        folder.join(BESIDE).to_str().unwrap().into()
    }

    /// The numbers and names of persons in the log's objects; the lines on standard error start so.
    fn persons(&self, starts: &[&str]) -> Vec<(u64, Option<String>)> {
        let log = self.words(&["log", "t", "--json"]);
        log.tells_and_writes(0, starts, &log.out);
        let person = |line: &str| {
            let object: serde_json::Value = serde_json::from_str(line).unwrap();
            let name = object["name"].as_str().map(String::from);
            assert!(name.is_some() || object["name"].is_null());
            (object["person"].as_u64().unwrap(), name)
        };
        let lines = std::str::from_utf8(&log.out).unwrap().lines();
        lines.map(person).collect()
    }
}

impl Outcome {
    /// The edits of [`folder`] are told as those of these persons, and the lines on standard error start so.
    fn logs(&self, persons: [&str; 2], starts: &[&str]) {
        let [stands, waits] = persons;
        let name = "Name in Desktop Entry:";
        let expected = format!(
            "stands: {name} \"Lesen\" became \"a\", by {stands}\n\
            waits: {name} \"a\" became \"b\", by {waits}\n"
        );
        self.tells_and_writes(0, starts, expected.as_bytes());
    }
}

#[test]
fn who_edits_is_said_by_an_option_or_a_variable() {
    let folder = Folder::new().with(b"t", T).with(BESIDE.as_bytes(), PERSONS);
    let anna = ", by \"Anna Berg\" (person 1)";
    let ben = ", by \"Ben\" (person 2)";
    let cases = [
        (None, None, ""),
        (None, Some("01"), anna),
        (None, Some("Anna Berg"), anna),
        (Some("Ben"), None, ben),
        (Some("Ben"), Some("1"), anna),
        (Some("Ben"), Some("0"), ""),
        (Some("0"), None, ""),
        (Some("0"), Some("1"), anna),
        (Some(""), None, ""),
        (Some(""), Some("Ben"), ben),
        (Some(""), Some(""), ""),
    ];
    let mut log = String::new();
    for (number, (variable, option, person)) in cases.into_iter().enumerate() {
        let key = format!("X-{number}");
        let variables: Vec<_> = variable
            .map(|who| ("KVELDRIM_PERSON", who))
            .into_iter()
            .collect();
        let option = option.map(|who| format!("--person={who}"));
        let run = |words: &[&str]| {
            let words = [words, &option.as_deref().into_iter().collect::<Vec<_>>()].concat();
            folder.words_in(&variables, &words)
        };
        let edit = format!("{key} in Desktop Entry: \"x\"");
        let would = format!("{edit} would be added{person}\n");
        run(&["set", "t", &key, "x", "--dry-run"]).writes(would.as_bytes());
        run(&["set", "t", &key, "x"]).writes(b"");
        run(&["remove", "t", &key]).writes(b"");
        for act in ["added", "removed"] {
            log += &format!("stands: {edit} was {act}{person}\n");
        }
    }
    folder.words(&["log", "t"]).writes(log.as_bytes());
}

/// A record has the person's number in the two bytes after its kind.
#[test]
fn the_number_is_in_the_record() {
    let folder = Folder::new().with(b"t", T);
    folder.does(&["set", "t", "Name", "Les", "--person", "513"]);
    let record = b"\x1c\0\0\0\x04\0\x01\x02\x26\0\0\0\x05\0\0\0\x03\0\0\0LesenLes";
    let journal = folder.read(JOURNAL);
    assert_eq!(
        journal[journal.len() - 32 - record.len()..][..record.len()],
        *record
    );
}

/// An empty option is bad usage, unless its variable is empty too.
#[test]
fn empty_options() {
    let folder = folder();
    let before = folder.both();
    let who = ("--person", "KVELDRIM_PERSON", "a number or a name");
    let names = ("--persons", "KVELDRIM_PERSONS", "a file");
    for edit in EDITS.into_iter().chain(TELLERS) {
        for (option, variable, needed) in [who, names] {
            if TELLERS.contains(&edit) && option == "--person" {
                continue;
            }
            let words = [edit, &[option, ""]].concat();
            let told = format!(
                "kveldrim: {option} needs {needed} (kveldrim {} --help tells more)",
                edit[0]
            );
            folder.words(&words).tells(2, &[&told]);
            folder
                .words_in(&[(variable, "1")], &words)
                .tells(2, &[&told]);
        }
    }
    assert_eq!(folder.both(), before);
    let empty = [("KVELDRIM_PERSON", ""), ("KVELDRIM_PERSONS", "")];
    for edit in EDITS {
        let words = [edit, &["--person", "", "--persons", "", "--dry-run"]].concat();
        let outcome = folder.words_in(&empty, &words);
        assert_eq!((outcome.status, &outcome.told[..]), (0, &b""[..]));
    }
}

/// A word that is no person keeps nobody from an undo or redo.
#[test]
fn words_that_name_nobody() {
    let refuses = |folder: &Folder, word: &[u8], told: &str| {
        for edit in EDITS {
            let before = folder.both();
            let words = edit.iter().map(|word| word.as_bytes());
            let words: Vec<&[u8]> = words.chain([&b"--person"[..], word]).collect();
            let outcome = folder.run(&words);
            let is_step = ["undo", "redo"].contains(&edit[0]);
            match is_step {
                true => outcome.tells(0, &[&format!("kveldrim: {NOT_TOLD}: {told}")]),
                false => outcome.tells(2, &[&format!("kveldrim: {told}")]),
            }
            assert_eq!(folder.both() != before, is_step);
            let help = format!(" (kveldrim {} --help tells more)\n", edit[0]);
            assert!(outcome.told.ends_with(help.as_bytes()));
        }
    };
    let rule = "(--person or KVELDRIM_PERSON) is neither a number from 0 to 65535 nor a name in";
    let folder = folder();
    let beside = folder.beside();
    let told = format!("\"Anna Berg\" {rule} {beside}, which is not there (");
    refuses(&folder, b"Anna Berg", &told);
    let folder = folder.with(BESIDE.as_bytes(), PERSONS);
    for word in [
        "Anna",
        "anna berg",
        "Anna Berg ",
        "65536",
        "1.0",
        "+1",
        " 1",
        "#",
    ] {
        let told = format!("\"{word}\" {rule} {beside} (");
        refuses(&folder, word.as_bytes(), &told);
    }
    refuses(&folder, b"\xFF", &format!("\"\u{FFFD}\" {rule}"));
    refuses(&folder, b"\x1B[1m", &format!("\"\\u{{1b}}[1m\" {rule}"));
    let variable = [("KVELDRIM_PERSON", "Anna")];
    let told = format!("kveldrim: \"Anna\" {rule} {beside} (");
    folder.words_in(&variable, EDITS[0]).tells(2, &[&told]);
}

/// A number that has no name, where others have one, may be a slip.
#[test]
fn numbers_without_a_name() {
    let folder = folder();
    let set = |person: &str, more: &[&str]| {
        let words = ["set", "t", "Name", "x", "--person", person];
        folder.words(&[&words, more].concat())
    };
    set("11", &[]).writes(b"");
    fs::write(folder.0.join(BESIDE), PERSONS).unwrap();
    let told = |file: &str| format!("t: warning: person 11 has no name in {file}");
    set("11", &[]).tells(0, &[&told(&folder.beside())]);
    set("11", &["--persons", BESIDE]).tells(0, &[&told(BESIDE)]);
    set("11", &["--dry-run"]).tells_and_writes(
        0,
        &[&told(&folder.beside())],
        b"Name in Desktop Entry: \"x\" would become \"x\", by person 11\n",
    );
    set("11", &["--no-warn"]).writes(b"");
    set("0", &[]).writes(b"");
    folder.does(&["undo", "t", "--person", "0"]);
    let remove = ["remove", "t", "Exec", "--person", "11"];
    let lost = "t: warning: with this edit the file is no longer complete";
    folder
        .words(&remove)
        .tells(0, &[&told(&folder.beside()), lost]);
    folder.does(&["undo", "t", "--person", "11"]);
}

/// The file of persons that is named counts before the one of the variable, and that before the one beside the edited file.
#[test]
fn where_the_file_of_persons_is() {
    let folder = folder().with(b"a", b"1 A\n").with(b"b", b"1 B\n");
    let log = |variable: &str, words: &[&str]| {
        let variables = [("KVELDRIM_PERSONS", variable)];
        folder.words_in(&variables, &[&["log", "t"], words].concat())
    };
    let tells = |outcome: Outcome, name: &str| outcome.logs(["person 7", name], &[]);
    tells(log("", &[]), "person 1");
    fs::write(folder.0.join(BESIDE), PERSONS).unwrap();
    tells(log("", &[]), "\"Anna Berg\" (person 1)");
    tells(log("b", &[]), "\"B\" (person 1)");
    tells(log("b", &["--persons", "a"]), "\"A\" (person 1)");
    // A link is followed.
    symlink("a", folder.0.join("link")).unwrap();
    tells(log("link", &[]), "\"A\" (person 1)");
}

/// A file of persons that is named must be there for a set, a remove, a batch, a log and a forget; nothing is waited for.
#[test]
fn a_named_file_of_persons_that_cannot_be_read() {
    let folder = folder();
    tool("mkfifo", "coreutils", &[], &folder.0.join("fifo"));
    let by = "the file of persons (--persons or KVELDRIM_PERSONS) cannot be read";
    let plain = format!("{by}: it is not a plain file");
    for (name, why) in [
        ("Ben", &format!("{by}: No such file or directory")),
        ("fifo", &plain),
        (".", &plain),
    ] {
        let told = format!("{name}: {why}");
        let run = |words: &[&str], more: &[&str]| {
            folder.run_in_time(&[words, &["--persons", name], more].concat())
        };
        for words in EDITS[..3].iter().copied().chain(TELLERS) {
            run(words, &[]).tells(2, &[&told]);
        }
        let without_names = format!("{name}: warning: persons are told without names: {why}");
        let another = "t: warning: Name in Desktop Entry: ";
        for (step, back) in [("undo", "redo"), ("redo", "undo")] {
            let by_name = run(&[step, "t"], &["--person", "Ben"]);
            by_name.tells(0, &[&format!("{name}: {NOT_TOLD}: {why}")]);
            run(&[back, "t"], &[]).writes(b"");
            let by_number = run(&[step, "t"], &["--person", "9"]);
            by_number.tells(0, &[&without_names, another]);
        }
        let variable = [("KVELDRIM_PERSONS", name)];
        folder.words_in(&variable, &["log", "t"]).tells(2, &[&told]);
        folder.words_in(&variable, &["undo", "t"]).writes(b"");
        folder.words_in(&variable, &["redo", "t"]).writes(b"");
    }
    // A pipe has a name as well.
    let mut command = Command::new(env!("CARGO_BIN_EXE_kveldrim"));
    command.env_clear().stdin(Stdio::piped());
    let log: [&[u8]; 4] = [b"log", b"t", b"--persons", b"/dev/stdin"];
    let told = format!("/dev/stdin: {plain}");
    folder.run_by(command, &log).tells(2, &[&told]);
}

/// A link to the edited file is followed first, so all who share a folder have one file of persons.
#[test]
fn persons_beside_the_file_that_a_link_leads_to() {
    let folder = Folder::new().with(BESIDE.as_bytes(), b"1 Wrong\n");
    fs::create_dir(folder.0.join("real")).unwrap();
    let folder = folder
        .with(b"real/f", T)
        .with(format!("real/{BESIDE}").as_bytes(), PERSONS);
    symlink("real/f", folder.0.join("t")).unwrap();
    folder.does(&["set", "t", "Name", "x", "--person", "Anna Berg"]);
    let edit = "stands: Name in Desktop Entry: \"Lesen\" became \"x\"";
    let log = format!("{edit}, by \"Anna Berg\" (person 1)\n");
    folder.words(&["log", "t"]).writes(log.as_bytes());
}

/// A file of persons beside the edited one that has a fault is an error where a set, a remove or a batch needs a name of it. Else
/// it is a warning where persons are told.
fn is_faulty(folder: &Folder, fault: &str) {
    let beside = folder.beside();
    let (place, why) = fault.split_once(": ").unwrap();
    let told = format!("{beside}{place}: {why}");
    let not_told = format!("{beside}{place}: {NOT_TOLD}: {why}");
    let warning = format!("{beside}{place}: warning: persons are told without names: {why}");
    let before = folder.both();
    for edit in &EDITS[..3] {
        let words = [edit, &["--person", "Ben"][..]].concat();
        folder.run_in_time(&words).tells(2, &[&told]);
    }
    assert_eq!(folder.both(), before);
    let log = folder.run_in_time(&["log", "t"]);
    log.logs(["person 7", "person 1"], &[&warning]);
    let forget = folder.run_in_time(&["forget", "t", "1", "--dry-run"]);
    let edit = "Name in Desktop Entry: \"Lesen\" became \"a\", by person 7";
    let lines = format!("would be forgotten: {edit}\nthen standing: 0, waiting: 1\n");
    forget.tells_and_writes(0, &[&warning], lines.as_bytes());
    let set = ["set", "t", "Name", "b", "--person", "1"];
    let dry = |words: &[&str], told: &[&str]| {
        let line = b"Name in Desktop Entry: \"a\" would become \"b\", by person 1\n";
        let words = [&set, &["--dry-run"][..], words].concat();
        folder.run_in_time(&words).tells_and_writes(0, told, line);
    };
    dry(&[], &[&warning]);
    dry(&["--no-warn"], &[]);
    let batch = ["batch", "t", TABLE, "--person", "1", "--dry-run"];
    let lines =
        "Name in Desktop Entry: \"a\" would become \"x\", by person 1\n1 request would be done\n";
    let outcome = folder.run_in_time(&batch);
    outcome.tells_and_writes(0, &[&warning], lines.as_bytes());
    folder.run_in_time(&set).writes(b"");
    let back = "Name in Desktop Entry: \"b\" would become \"a\", taking back an edit by person 1\n";
    for (person, told) in [("1", &warning), ("Ben", &not_told)] {
        let undo = ["undo", "t", "--dry-run", "--person", person];
        let outcome = folder.run_in_time(&undo);
        outcome.tells_and_writes(0, &[told], back.as_bytes());
    }
    let another = "t: warning: Name in Desktop Entry: ";
    let of = |word: &'static str, person: &'static str| [word, "t", "--person", person];
    let undo = of("undo", "Ben");
    folder.run_in_time(&undo).tells(0, &[&not_told]);
    let undo = of("undo", "9");
    folder.run_in_time(&undo).tells(0, &[&warning, another]);
    for quiet in [of("redo", "7"), of("redo", "1"), of("undo", "1")] {
        folder.run_in_time(&quiet).writes(b"");
    }
}

#[test]
fn faults_of_the_file_of_persons() {
    let shape = "in a file of persons each line has a number, a space and a name";
    let number = "is no number from 1 to 65535; each line of a file of persons starts with one";
    let nobody = "0 is nobody named; persons have the numbers 1 to 65535";
    let read = "is a number; after --person it would be read as one";
    let control = "a name has no control characters";
    let cases: [(&[u8], &str); 20] = [
        (b"1 A\n\n2\n", &format!(":3: {shape}")),
        (b"1 A\n2 \t\n", &format!(":2: {shape}")),
        (b"Anna\n", &format!(":1: {shape}")),
        (b"\x0C\n", &format!(":1: {shape}")),
        (b"Anna 1\n", &format!(":1: \"Anna\" {number}")),
        (b"65535 A\n65536 B\n", &format!(":2: \"65536\" {number}")),
        (b"-1 A\n", &format!(":1: \"-1\" {number}")),
        (b"+1 A\n", &format!(":1: \"+1\" {number}")),
        (b"\x1B 1\n", &format!(":1: \"\\u{{1b}}\" {number}")),
        // A byte order mark counts elsewhere than at the start.
        (
            b"1 A\n\xEF\xBB\xBF2 B\n",
            &format!(":2: \"\\u{{feff}}2\" {number}"),
        ),
        (b"1 A\n0 B\n", &format!(":2: {nobody}")),
        (b"00 A\n", &format!(":1: {nobody}")),
        (b"1 2\n", &format!(":1: the name \"2\" {read}")),
        (b"1 65536 \n", &format!(":1: the name \"65536\" {read}")),
        (b"1 A\tB\n", &format!(":1: {control}")),
        (b"1 A\r2 B\r", &format!(":1: {control}")),
        (b"1 A\n2 \x1BB\n", &format!(":2: {control}")),
        (
            b"1 A\n# 1 A\n01 B\n",
            ":3: the number 1 stands in line 1 already",
        ),
        (
            b"1 A b\n2 A\n3\tA b \n",
            ":3: the name \"A b\" stands in line 1 already",
        ),
        (
            b"1 A\n2 M\xFCller\n",
            ":2: a file of persons is UTF-8, and this line is not",
        ),
    ];
    for (bytes, fault) in cases {
        let folder = folder().with(BESIDE.as_bytes(), bytes);
        is_faulty(&folder, fault);
        let told = format!("{BESIDE}{fault}");
        let named = ["--persons", BESIDE];
        for words in [&["log", "t"], EDITS[0]] {
            let words = [words, &named].concat();
            folder.words(&words).tells(2, &[&told]);
        }
    }
}

/// Names that look like faults and are none.
#[test]
fn names_that_are_taken() {
    let name = "-1 a\u{A0}";
    let persons = format!("\u{FEFF}1 {name}\r\n2 +2\n3 #\n");
    let folder = folder().with(BESIDE.as_bytes(), persons.as_bytes());
    let log = folder.words(&["log", "t"]);
    log.logs(["person 7", &format!("\"{name}\" (person 1)")], &[]);
    for (number, name) in [("1", name), ("2", "+2"), ("3", "#")] {
        let who = format!("--person={name}");
        let line = format!(
            "Name in Desktop Entry: \"a\" would become \"x\", by \"{name}\" (person {number})\n"
        );
        folder
            .words(&["set", "t", "Name", "x", "--dry-run", &who])
            .writes(line.as_bytes());
    }
}

/// A list without use is told of only where it has a use.
#[test]
fn a_fault_that_nobody_needs_to_know() {
    let folder = Folder::new()
        .with(b"t", T)
        .with(BESIDE.as_bytes(), b"Anna\n");
    let log = folder.words(&["log", "t"]);
    log.writes(b"no edit is recorded\n");
    let edit = "Name in Desktop Entry: \"Lesen\"";
    let dry = folder.words(&["set", "t", "Name", "x", "--dry-run"]);
    dry.writes(format!("{edit} would become \"x\"\n").as_bytes());
    folder.does(&["set", "t", "Name", "x"]);
    let log = folder.words(&["log", "t"]);
    log.writes(format!("stands: {edit} became \"x\"\n").as_bytes());
    folder.does(&["undo", "t", "--person", "1"]);
    folder.does(&["redo", "t", "--person", "1"]);
}

#[test]
fn a_file_of_persons_that_cannot_be_read() {
    let longest = [b"1 A\n#", &[b'x'; 65_531][..]].concat();
    let folder = folder().with(BESIDE.as_bytes(), &longest);
    let log = folder.words(&["log", "t"]);
    log.logs(["person 7", "\"A\" (person 1)"], &[]);
    let folder = folder.with(BESIDE.as_bytes(), &[&longest[..], b"x"].concat());
    let is_unread = |why: &str| {
        is_faulty(
            &folder,
            &format!(": the file of persons cannot be read: {why}"),
        )
    };
    is_unread("it is over 65,536 bytes");
    let path = folder.0.join(BESIDE);
    fs::remove_file(&path).unwrap();
    tool("mkfifo", "coreutils", &[], &path);
    is_unread("it is not a plain file");
    fs::remove_file(&path).unwrap();
    fs::create_dir(&path).unwrap();
    is_unread("it is not a plain file");
    fs::remove_dir(&path).unwrap();
    for target in ["t", "none"] {
        symlink(target, &path).unwrap();
        is_unread("it is a link, which is not followed (--persons FILE names another)");
        fs::remove_file(&path).unwrap();
    }
}

/// A name cannot be mistaken for the words around it, and alters no terminal.
#[test]
fn names_are_quoted() {
    let name = "A\" (person 9)\u{202E}\u{200B}\u{2060}\u{FEFF}\u{FC}";
    let folder = folder().with(BESIDE.as_bytes(), format!("1 {name}\n").as_bytes());
    let quoted = "\"A\\\" (person 9)\\u{202e}\\u{200b}\\u{2060}\\u{feff}\u{FC}\" (person 1)";
    folder.words(&["log", "t"]).logs(["person 7", quoted], &[]);
    assert_eq!(folder.persons(&[]), [(7, None), (1, Some(name.into()))]);
}

/// With a list that cannot be used, objects have the numbers alone.
#[test]
fn objects_without_names() {
    let folder = folder().with(BESIDE.as_bytes(), b"1 Anna\n2\n");
    let warning = "2: warning: persons are told without names: ";
    let told = format!("{}:{warning}", folder.beside());
    assert_eq!(folder.persons(&[&told]), [(7, None), (1, None)]);
}

/// Who takes back an edit of another person, or makes it once more, is told so.
#[test]
fn edits_of_others() {
    let folder = Folder::new().with(b"t", T).with(BESIDE.as_bytes(), PERSONS);
    folder.does(&["set", "t", "Name", "a"]);
    folder.does(&["set", "t", "Name", "b", "--person", "1"]);
    folder.does(&["set", "t", "Name", "c", "--person", "2"]);
    let name = "Name in Desktop Entry:";
    let run = |person: &str, words: &[&str]| folder.words_in(&[("KVELDRIM_PERSON", person)], words);
    let back =
        format!("{name} \"b\" became \"a\", taking back an edit by \"Anna Berg\" (person 1)");
    let again =
        format!("{name} \"a\" became \"b\", making once more an edit by \"Anna Berg\" (person 1)");
    run("Ben", &["undo", "t", "3"]).tells(0, &[&format!("t: warning: {back}")]);
    run("Ben", &["redo", "t", "3"]).tells(0, &[&format!("t: warning: {again}")]);
    run("Anna Berg", &["undo", "t"]).tells(
        0,
        &[&format!("t: warning: {name} \"c\" became \"b\", taking")],
    );
    run("Anna Berg", &["undo", "t", "2"]).writes(b"");
    // Without a person nothing is compared.
    run("", &["redo", "t", "3"]).writes(b"");
    run("0", &["undo", "t", "3"]).writes(b"");
    run("Ben", &["redo", "t", "3", "--person", "0"]).writes(b"");
    let dry = format!(
        "{name} \"c\" would become \"b\", taking back an edit by \"Ben\" (person 2)\n\
        {}\n",
        back.replace("became", "would become")
    );
    for person in ["", "Ben"] {
        run(person, &["undo", "t", "2", "--dry-run"]).writes(dry.as_bytes());
    }
    // The record keeps its person, whoever makes it once more.
    run("7", &["undo", "t"]).tells(0, &["t: warning: "]);
    run("7", &["redo", "t"]).tells(0, &["t: warning: "]);
    let log = folder.words(&["log", "t"]).out;
    assert!(log.ends_with(b"\"b\" became \"c\", by \"Ben\" (person 2)\n"));
}
