//! Runs `kveldrim actions` as a user does: which actions it lists, what it warns of, what it refuses.

mod common;

use std::process::{Command, Stdio};

use common::{run_the_readme, Folder, T};

/// A file whose groups come in another order than the list has them.
const FILE: &str = "[Desktop Entry]\nType=Application\nName=Write\nName[de]=Schreiben\nExec=writer %F\nActions=new;print;\n\
    [Desktop Action print]\nName=Print\nName[de]=Drucken\nExec=writer -p\n\
    [Desktop Action new]\nName=New letter\nName[de]=Neuer Brief\nName[fr]=Nouvelle lettre\nExec=writer -n\n";

fn folder() -> Folder {
    Folder::new().with(b"t", FILE.as_bytes())
}

/// A folder with the file `t`, which has this raw list in line 2 and then these lines.
fn with_list(list: &str, lines: &str) -> Folder {
    let file = format!("[Desktop Entry]\nActions={list}\n{lines}");
    Folder::new().with(b"t", file.as_bytes())
}

#[test]
fn actions_come_in_the_order_of_the_list() {
    folder()
        .words(&["actions", "t"])
        .writes(b"new\tNew letter\nprint\tPrint\n");
    // The last element may end without a semicolon, and an identifier may have capitals, digits and -.
    let groups = "[Desktop Action -B-0]\nName=b\n[Desktop Action a]\nName=a\n";
    with_list("a;-B-0", groups)
        .words(&["actions", "t"])
        .writes(b"a\ta\n-B-0\tb\n");
}

#[test]
fn nothing_is_listed_without_a_list() {
    let groups = "[Desktop Action new]\nName=New\n";
    for file in [
        "[Desktop Entry]\n".to_string(),
        format!("[Desktop Entry]\n{groups}"),
        format!("[Desktop Entry]\nActions=\n{groups}"),
        format!("[Desktop Entry]\n{groups}[X]\nActions=new;\n"),
    ] {
        let folder = Folder::new().with(b"t", file.as_bytes());
        for option in [&[][..], &["--json"], &["--null"], &["--locale=de"]] {
            folder
                .words(&[&["actions", "t"], option].concat())
                .writes(b"");
        }
        // Who looks at a terminal is told so.
        assert_eq!(
            folder.run_on_terminal(&["actions", "t"]),
            (0, "t: no action is listed\n".into())
        );
    }
    // A list with a locale is not asked.
    with_list(
        "new;",
        "Actions[de]=old;\n[Desktop Action new]\nName=New\n[Desktop Action old]\nName=Old\n",
    )
    .words(&["actions", "t", "--locale=de"])
    .writes(b"new\tNew\n");
}

#[test]
fn labels_are_in_the_language_that_is_asked_for() {
    let folder = folder();
    let lists = |variables: &[(&str, &str)], options: &[&str], [new, print]: [&str; 2]| {
        folder
            .words_in(variables, &[&["actions", "t"], options].concat())
            .writes(format!("new\t{new}\nprint\t{print}\n").as_bytes());
    };
    let plain = ["New letter", "Print"];
    let german = ["Neuer Brief", "Drucken"];
    let french = ["Nouvelle lettre", "Print"];
    lists(&[], &["--locale=de_AT.UTF-8@euro"], german);
    lists(&[], &["--locale", "fr"], french);
    for locale in ["", "C", "POSIX.UTF-8", "sv"] {
        lists(&[], &["--locale", locale], plain);
    }
    // The environment counts only if asked.
    lists(&[("LANG", "de")], &[], plain);
    let auto = ["--locale=auto"];
    lists(&[], &auto, plain);
    lists(&[("LANG", "de_DE.UTF-8")], &auto, german);
    lists(&[("LC_ALL", "C"), ("LANG", "de")], &auto, plain);
    // Of several locales one is taken for all labels: the first with a label of its own.
    lists(&[("LANGUAGE", "sv:fr:de")], &auto, french);
    lists(&[("LANGUAGE", "sv:C:de")], &auto, plain);
    lists(&[("LANGUAGE", "sv:nb")], &auto, plain);
    let odd = folder.words_in(
        &[("LANGUAGE", "de utf8:de")],
        &["actions", "t", "--locale=auto"],
    );
    odd.tells_and_writes(
        0,
        &["kveldrim: warning: de utf8 of LANGUAGE is not a locale"],
        b"new\tNeuer Brief\nprint\tDrucken\n",
    );
}

/// A label of its own may be the same text as the plain one.
#[test]
fn a_label_of_its_own_counts_even_if_it_is_the_same() {
    let group = "[Desktop Action a]\nName=Colour\nName[en_GB]=Colour\nName[de]=Farbe\n";
    with_list("a;", group)
        .words_in(
            &[("LANGUAGE", "en_GB:de")],
            &["actions", "t", "--locale=auto"],
        )
        .writes(b"a\tColour\n");
    // One of a group that is not listed does not count.
    let groups =
        "[Desktop Action b_]\nName=b\nName[en_GB]=b\n[Desktop Action a]\nName=a\nName[de]=c\n";
    with_list("a;b_;", groups)
        .words_in(
            &[("LANGUAGE", "en_GB:de")],
            &["actions", "t", "--locale=auto", "--no-warn"],
        )
        .writes(b"a\tc\n");
}

/// Each action is one line with one tab, whatever its label.
#[test]
fn labels_that_a_line_cannot_hold() {
    let raw = "\\sa\\tb\\nc\\r\\\\ \u{202E}\u{9B}M\u{FC}ller\u{5D0}";
    let text = " a\tb\nc\r\\ \u{202E}\u{9B}M\u{FC}ller\u{5D0}";
    let groups = format!("[Desktop Action a]\nName={raw}\n[Desktop Action b]\nName=\n");
    let folder = with_list("a;b;", &groups);
    let line = " a\\x09b\\x0Ac\\x0D\\ \\xE2\\x80\\xAE\\xC2\\x9BM\u{FC}ller\u{5D0}";
    folder
        .words(&["actions", "t"])
        .writes(format!("a\t{line}\nb\t\n").as_bytes());
    folder
        .words(&["actions", "t", "--null"])
        .writes(format!("a\0{text}\0b\0\0").as_bytes());
    let out = folder.words(&["actions", "t", "--json"]).out;
    let objects: Vec<serde_json::Value> = String::from_utf8(out)
        .unwrap()
        .lines()
        .map(|line| serde_json::from_str(line).unwrap())
        .collect();
    let object = |identifier, label| serde_json::json!({ "file": "t", "identifier": identifier, "label": label });
    assert_eq!(objects, [object("a", text), object("b", "")]);
}

#[test]
fn objects() {
    let folder = folder().with(b"\xFF", FILE.as_bytes());
    folder
        .words(&["actions", "--json", "t", "--locale=de"])
        .writes(
            "{\"file\":\"t\",\"identifier\":\"new\",\"label\":\"Neuer Brief\"}\n\
        {\"file\":\"t\",\"identifier\":\"print\",\"label\":\"Drucken\"}\n"
                .as_bytes(),
        );
    let outcome = folder.run(&[b"actions", b"--json", b"\xFF"]);
    assert!(outcome
        .out
        .starts_with(b"{\"file\":{\"hex\":\"ff\"},\"identifier\":\"new\","));
    assert_eq!((outcome.status, outcome.told.len()), (0, 0));
}

/// Who has an identifier in the list and no line for it is told why.
#[test]
fn what_is_not_listed_is_warned_of() {
    let groups =
        "[Desktop Action a]\nName=A\n[Desktop Action b]\nExec=b\n[Desktop Action a_b]\nName=x\n\
        [desktop Action c]\nName=c\n[Desktop Action d ]\nName=d\n[Desktop Action]\nName=e\n";
    let told = |list: &str, why: &[&str]| {
        let folder = with_list(list, groups);
        let lines: Vec<String> = why
            .iter()
            .map(|why| format!("t:2: warning: the action {why}\n"))
            .collect();
        let outcome = folder.words(&["actions", "t"]);
        assert_eq!(String::from_utf8_lossy(&outcome.told), lines.concat());
        assert_eq!((outcome.status, &outcome.out[..]), (0, &b"a\tA\n"[..]));
        folder
            .words(&["actions", "t", "--no-warn"])
            .writes(b"a\tA\n");
        // Beside objects they are the same.
        let objects = folder.words(&["actions", "t", "--json"]);
        assert_eq!(objects.told, outcome.told);
    };
    const LETTERS: &str = "cannot stand in an identifier; it has letters A-Z a-z, digits and \"-\"";
    told("a;", &[]);
    told(
        "x;a;",
        &["x is not listed: there is no group Desktop Action x"],
    );
    told(
        "a;b;c;d",
        &[
            "b is not listed: the key Name is missing in the group Desktop Action b",
            "c is not listed: there is no group Desktop Action c",
            "d is not listed: there is no group Desktop Action d",
        ],
    );
    told(
        "a_b; a;a;d ;a[de];\u{FC};\\s\\;\\n",
        &[
            &format!("a_b is not listed: \"_\" {LETTERS}"),
            &format!(" a is not listed: a space {LETTERS}"),
            &format!("d  is not listed: a space {LETTERS}"),
            &format!("a[de] is not listed: \"[\" {LETTERS}"),
            &format!("\u{FC} is not listed: \"\u{FC}\" (0xC3 0xBC) {LETTERS}"),
            &format!(" ;\\x0A is not listed: a space {LETTERS}"),
        ],
    );
    told("a;;", &["'' is not listed: an identifier cannot be empty"]);
    told(
        "a;x;a;x;a;",
        &[
            "a stands in Actions more than once; it is listed where it first stands",
            "x is not listed: there is no group Desktop Action x",
        ],
    );
}

#[test]
fn a_repeated_identifier_is_listed_where_it_first_stands() {
    let groups = "[Desktop Action a]\nName=A\n[Desktop Action b]\nName=B\n";
    with_list("b;a;b;a;", groups)
        .words(&["actions", "t"])
        .tells_and_writes(
            0,
            &[
                "t:2: warning: the action b stands in Actions more than once; it is listed where",
                "t:2: warning: the action a stands in Actions more than once; it is listed where",
            ],
            b"b\tB\na\tA\n",
        );
}

/// Of very many the rest is counted, and of long names the start is told.
#[test]
fn a_long_list_is_warned_of_in_a_few_lines() {
    for (count, rest) in [
        (10, None),
        (11, Some("1 more action is not listed, or stands")),
        (3_000, Some("2990 more actions are not listed, or stand")),
    ] {
        let list: String = (0..count).map(|number| format!("{number};")).collect();
        let outcome = with_list(&list, "").words(&["actions", "t"]);
        let mut starts = vec!["t:2: warning: the action ".to_string(); 10];
        starts.extend(rest.map(|rest| format!("t: warning: {rest} in Actions more than once")));
        outcome.tells(0, &starts.iter().map(String::as_str).collect::<Vec<_>>());
    }
    let outcome = with_list(&"x".repeat(5_000), "").words(&["actions", "t"]);
    outcome.tells(0, &["t:2: warning: the action xxx"]);
    assert!(outcome.told.len() < 300);
}

#[test]
fn refusals_are_told_in_words() {
    let folder = folder()
        .with(b"tab", b"[Desktop Entry]\nName\t=x\n")
        .with(b"first", b"[Other]\n")
        .with(b"group", b"[Desktop Entry]\n[a]\n[a]\n")
        .with(b"key", b"[Desktop Entry]\na=1\na=2\n")
        .with(b"plain", b"[Desktop Entry]\na[de]=1\n")
        .with(b"long", &[b'\n'; 32_769]);
    for (file, status, told) in [
        ("tab", 1, "tab:2:5: after the key Name only spaces"),
        ("first", 1, "first:1: the first header must be"),
        ("group", 1, "group:3: the group a starts in line 2 already"),
        ("key", 1, "key:3: the key a stands in this group already"),
        ("plain", 1, "plain:2: a[de] needs the key a without"),
        ("long", 1, "long: the file is over 32,768 bytes"),
        ("none", 2, "none: cannot be read: No such file or directory"),
        (".", 2, ".: cannot be read: "),
    ] {
        for option in [&[][..], &["--json"], &["--locale=_"]] {
            folder.refuses(status, &[&["actions", file], option].concat(), told);
        }
    }
    folder.refuses(
        1,
        &["actions", "t", "--locale", "de_"],
        "t: the locale is not well written; it is as de, de_AT, de_AT.UTF-8 or de_AT.UTF-8@euro",
    );
}

/// The list comes before the labels, and these in the order of the list.
#[test]
fn a_wrong_escape_is_told_where_it_stands() {
    let groups =
        "[Desktop Action a]\nName=a\\q\nName[de]=A\n[Desktop Action b]\nName=b\nName[de]= b\\\n";
    let told = |list: &str, locale: &str, told: &str| {
        let option = format!("--locale={locale}");
        let folder = with_list(list, groups);
        folder.refuses(1, &["actions", "t", &option, "--json"], told);
    };
    told("a;b;c\\q;", "", "t:2:14: \\q is no escape; a backslash may");
    told(
        "a;b\\",
        "",
        "t:2:12: the value ends with a single backslash",
    );
    told("a;b;", "", "t:4:7: \\q is no escape; ");
    told("b;a;", "fr", "t:4:7: \\q is no escape; ");
    told(
        "a;b;",
        "de",
        "t:8:12: the value ends with a single backslash",
    );
    told("x;b;b;a;", "de", "t:8:12: the value ends with");
    // Only labels are read that are written.
    with_list("b;", groups)
        .words(&["actions", "t"])
        .writes(b"b\tb\n");
    with_list("a;", groups)
        .words(&["actions", "t", "--locale=de"])
        .writes(b"a\tA\n");
    let unlisted = "[Desktop Action a_b]\nName=\\q\n[Desktop Action a]\nName=\\;\n";
    with_list("a_b;a;", unlisted)
        .words(&["actions", "t"])
        .tells(1, &["t:6:6: \\; is an escape in lists only"]);
    let (status, told) = with_list("a;", unlisted).run_on_terminal(&["actions", "t"]);
    let (words, line) = told.split_once('\n').unwrap();
    assert!(words.starts_with("t:6:6: \\; is an escape"), "{told}");
    assert_eq!((status, line), (1, "    Name=\\;\n         ^\n"));
}

#[test]
fn standard_input() {
    let folder = Folder::new();
    folder
        .run_with(FILE.as_bytes(), &[b"actions", b"-"])
        .writes(b"new\tNew letter\nprint\tPrint\n");
    folder
        .run_with(b"[Desktop Entry]\nActions=a\n", &[b"actions", b"-"])
        .tells(0, &["-:2: warning: the action a is not listed: "]);
    folder
        .run_with(b"", &[b"actions", b"-"])
        .tells(1, &["-: the file is empty"]);
    folder.run_with(T, &[b"actions", b"-"]).writes(b"");
}

/// A reader that stops early is no error; an answer that cannot be written is told.
#[test]
fn the_reader_of_the_answer() {
    let label = "x".repeat(20_000);
    let folder = with_list("a;", &format!("[Desktop Action a]\nName={label}\n"));
    let mut child = Command::new(env!("CARGO_BIN_EXE_kveldrim"))
        .args(["actions", "t"])
        .current_dir(&folder.0)
        .stdout(Stdio::piped())
        .stderr(Stdio::piped())
        .spawn()
        .unwrap();
    drop(child.stdout.take());
    let ended = child.wait_with_output().unwrap();
    assert_eq!(
        (ended.status.code(), &ended.stderr[..]),
        (Some(0), &b""[..])
    );
    let mut command = Command::new("sh");
    let script = "exec \"$0\" \"$@\" > /dev/full";
    command.args(["-c", script, env!("CARGO_BIN_EXE_kveldrim")]);
    folder.run_by(command, &[b"actions", b"t"]).tells(
        2,
        &["kveldrim: the answer cannot be written: No space left on device"],
    );
}

/// Nothing is written, and a file that is read-only can be asked.
#[test]
fn the_folder_stays_as_it_is() {
    let folder = folder();
    folder.mode("t", 0o444);
    let before = folder.all();
    assert_eq!(folder.words(&["actions", "t"]).status, 0);
    assert_eq!(folder.all(), before);
}

#[test]
fn the_example_of_the_readme() {
    run_the_readme("An application's other ways to start");
}
