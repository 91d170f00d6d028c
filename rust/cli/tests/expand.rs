//! Runs `kveldrim expand` as a user does: what it writes, what it tells, how it ends.

mod common;

use std::ffi::OsStr;
use std::os::unix::ffi::OsStrExt;
use std::process::Command;

use common::{Folder, Outcome};

const COMPOSED: &str = "M\u{FC}ller.odt";
const DECOMPOSED: &str = "Mu\u{308}ller.odt";

/// A folder with the file `t`, which has this Exec, a Name and an Icon.
fn with_exec(exec: &str) -> Folder {
    let lines = format!("Name=Read it\nName[de]=Lies!\nIcon=book\nExec={exec}\n");
    with_lines(lines.as_bytes())
}

fn with_lines(lines: &[u8]) -> Folder {
    let file = [b"[Desktop Entry]\nType=Application\n", lines].concat();
    Folder::new().with(b"t", &file)
}

/// A folder with the file `t`, whose action `new` has this Exec in line 14 and then these lines.
fn with_action(exec: &str, lines: &str) -> Folder {
    let lines = format!(
        "Name=Read it\nName[de]=Lies!\nIcon=book\nExec=view %F\nActions=old;new;\n\
        [Desktop Action old]\nName=Old\nExec=view --old\n\
        [Desktop Action new]\nName=New\nName[de]=Neu\nExec={exec}\n{lines}"
    );
    with_lines(lines.as_bytes())
}

impl Folder {
    /// Runs `kveldrim expand` in the folder, with a German locale in the environment.
    fn expand(&self, words: &[&[u8]]) -> Outcome {
        let words = [&[&b"expand"[..]], words].concat();
        self.run_in(&[("LANG", "de_AT.UTF-8")], &words)
    }
}

#[test]
fn a_run_is_a_line() {
    let folder = with_exec("view --x=1 %F");
    folder.expand(&[b"t"]).writes(b"view --x=1\n");
    let items: [&[u8]; 5] = [b"t", b"a b.txt", b"c%f.txt", b"it's", b"\xFF"];
    folder
        .expand(&items)
        .writes(b"view --x=1 'a b.txt' c%f.txt 'it'\\''s' '\xFF'\n");
    folder
        .expand(&[b"--null", b"t", b"a b", b"it's"])
        .writes(b"view\0--x=1\0a b\0it's\0");
    folder
        .expand(&[b"t", b"--", b"-x", b"--null", b"--", b"=ls", b"~"])
        .writes(b"view --x=1 -x --null -- '=ls' '~'\n");
}

/// Two pupils' files that look alike on a screen keep their own bytes.
#[test]
fn pupils_files_are_not_mixed_up() {
    let names = [COMPOSED.as_bytes(), DECOMPOSED.as_bytes()];
    with_exec("view %F")
        .expand(&[b"--null", b"t", names[0], names[1]])
        .writes(format!("view\0{COMPOSED}\0{DECOMPOSED}\0").as_bytes());
    with_exec("view %f")
        .expand(&[b"--all", b"t", names[0], names[1]])
        .writes(format!("view '{COMPOSED}'\nview '{DECOMPOSED}'\n").as_bytes());
}

#[test]
fn runs_are_numbered_from_0() {
    let folder = with_exec("view %f");
    let first = folder.expand(&[b"t", b"a", b"b"]);
    assert_eq!((first.status, &first.out[..]), (0, &b"view a\n"[..]));
    assert!(first.told.starts_with(b"t: this is run 0 of 2;"));
    folder
        .expand(&[b"--run=0", b"t", b"a", b"b"])
        .writes(b"view a\n");
    folder
        .expand(&[b"t", b"a", b"b", b"--run", b"1"])
        .writes(b"view b\n");
    folder
        .expand(&[b"--run", b"2", b"t", b"a", b"b"])
        .tells(1, &["t: there is no such run; the last is 1"]);
    folder
        .expand(&[b"--all", b"t", b"a b", b"b"])
        .writes(b"view 'a b'\nview b\n");
    folder.expand(&[b"--runs", b"t", b"a", b"b"]).writes(b"2\n");
    folder.expand(&[b"--runs", b"t"]).writes(b"1\n");
    folder.expand(&[b"--all", b"t"]).writes(b"view\n");
    let folder = with_exec("view %U");
    folder.expand(&[b"--runs", b"t", b"a", b"b"]).writes(b"1\n");
    folder
        .expand(&[b"--run=1", b"t", b"a", b"b"])
        .tells(1, &["t: there is no such run; there is only run 0"]);
}

/// An empty argument would look like a run's end, so zero bytes are for one run alone.
#[test]
fn zero_bytes_are_for_one_run() {
    let folder = with_exec("view \"\" %f");
    folder
        .expand(&[b"--null", b"--run=1", b"t", b"a", b"b"])
        .writes(b"view\0\0b\0");
    let both = folder.expand(&[b"--null", b"--all", b"t", b"a", b"b"]);
    assert_eq!((both.status, both.out.len()), (2, 0));
    let help = folder.expand(&[b"--help"]);
    let words = String::from_utf8(help.out).unwrap();
    let words: Vec<&str> = words.split_whitespace().collect();
    let words = words.join(" ");
    assert!(
        words.contains("not with --all: ask for each by --run N"),
        "{words}"
    );
}

#[test]
fn objects() {
    let folder = with_exec("view %f");
    folder
        .expand(&[b"--json", b"--all", b"t", b"a \"b", b"\xFF"])
        .writes(
            b"{\"arguments\":[\"view\",\"a \\\"b\"],\"run\":0}\n\
            {\"arguments\":[\"view\",{\"hex\":\"ff\"}],\"run\":1}\n",
        );
    folder
        .expand(&[b"--json", b"--runs", b"t"])
        .writes(b"{\"runs\":1}\n");
}

#[test]
fn name_icon_and_location() {
    let folder = with_exec("view %i %c %k");
    folder
        .expand(&[b"t"])
        .writes(b"view --icon book 'Read it' t\n");
    let german = b"view --icon book 'Lies!' /a\n";
    folder
        .expand(&[b"--locale", b"de", b"--location=/a", b"t"])
        .writes(german);
    folder
        .expand(&[b"--locale=auto", b"--location", b"/a", b"t"])
        .writes(german);
    folder
        .expand(&[b"--location=", b"t"])
        .writes(b"view --icon book 'Read it' ''\n");
    // Of a list the first is taken that has a Name of its own.
    folder
        .run_in(
            &[("LANGUAGE", "sv:de:fr"), ("LANG", "fr")],
            &[b"expand", b"--locale=auto", b"--location=/a", b"t"],
        )
        .writes(german);
}

#[test]
fn name_and_icon_by_keys_with_an_encoding() {
    let lines = "Name=Read it\nName[de_AT.UTF-8]=Lies!\nIcon[de.UTF-8]=buch\nIcon[de]=heft\nIcon=book\nExec=view %i %c\n";
    let folder = with_lines(lines.as_bytes());
    let german = b"view --icon buch 'Lies!'\n";
    for locale in ["de_AT", "de_AT.ISO-8859-1@euro", "auto"] {
        folder
            .expand(&[b"--locale", locale.as_bytes(), b"t"])
            .writes(german);
    }
    folder
        .expand(&[b"--locale=de", b"t"])
        .writes(b"view --icon buch 'Read it'\n");
    folder
        .run_in(
            &[("LANGUAGE", "sv.UTF-8:de_AT:fr")],
            &[b"expand", b"--locale=auto", b"t"],
        )
        .writes(german);
    // A wrong escape is told where it stands.
    for key in ["Name", "Icon"] {
        let lines = format!("Name=Read it\n{key}[de.UTF-8]=\\q\nIcon=book\nExec=view %i %c\n");
        with_lines(lines.as_bytes())
            .expand(&[b"--locale=de", b"t"])
            .tells(1, &["t:4:16: \\q is no escape; "]);
    }
}

/// Each shell reads a pasted line as the arguments that it stands for.
#[test]
fn lines_can_be_pasted_into_dash_bash_and_zsh() {
    let folder = with_exec("printf \"[%%s]\" %F");
    let items: &[&[u8]] = &[
        b"a b",
        b"it's",
        b"'",
        b"''x",
        b"x''",
        b"$HOME",
        b"`ls`",
        b"~",
        b"~root",
        b"*",
        b"\\",
        b"if",
        b"repeat",
        b"#x",
        b"!!",
        b"=ls",
        b"=",
        b"a=~",
        b"{a,b}",
        b"[a]",
        b"^x",
        b"a;b",
        b"&",
        b"-n",
        b"%",
        b"%1",
        b"\xFF\xFE",
    ];
    let line = folder.expand(&[&[&b"t"[..], b"--"], items].concat());
    let expected: Vec<u8> = items
        .iter()
        .flat_map(|item| [b"[", *item, b"]"].concat())
        .collect();
    for shell in [
        &["dash"][..],
        &["bash"],
        &["zsh", "-f"],
        &["zsh", "-f", "-o", "extendedglob"],
    ] {
        let read = Command::new(shell[0])
            .args(&shell[1..])
            .arg("-c")
            .arg(OsStr::from_bytes(&line.out))
            .output()
            .unwrap_or_else(|error| panic!("Debian's package {} is needed: {error}", shell[0]));
        let (out, expected) = (read.stdout.escape_ascii(), expected.escape_ascii());
        assert_eq!(out.to_string(), expected.to_string(), "{shell:?}");
    }
}

/// A terminal acts on control bytes while a line is pasted, whatever the quotes.
#[test]
fn control_bytes_are_warned_of() {
    let folder = with_exec("view %F");
    let outcome = folder.expand(&[b"t", b"x\x03\ny"]);
    assert_eq!(
        (outcome.status, &outcome.out[..]),
        (0, &b"view 'x\x03\ny'\n"[..])
    );
    assert!(outcome
        .told
        .starts_with(b"t: warning: an argument has control bytes"));
    folder
        .expand(&[b"--null", b"t", b"x\x03\ny"])
        .writes(b"view\0x\x03\ny\0");
    folder
        .expand(&[b"--json", b"t", b"\x03"])
        .writes(b"{\"arguments\":[\"view\",\"\\u0003\"],\"run\":0}\n");
}

/// No pupil's file is left out unseen.
#[test]
fn files_that_exec_does_not_take_are_told_of() {
    for exec in ["view", "view %c", "view %%f"] {
        let outcome = with_exec(exec).expand(&[b"t", b"a", b"b"]);
        assert_eq!(outcome.status, 0);
        let told = "t: Exec has none of %f, %F, %u and %U, so no file is handed to the program\n";
        assert_eq!(String::from_utf8(outcome.told).unwrap(), told);
    }
}

/// A program whose name is a word of a shell's own is run as a program.
#[test]
fn keywords_are_quoted() {
    for word in ["if", "time", "repeat", "foreach", "end", "coproc"] {
        with_exec(word)
            .expand(&[b"t"])
            .writes(format!("'{word}'\n").as_bytes());
    }
}

#[test]
fn faults_are_told_at_their_byte() {
    let of = |exec: &str| with_exec(exec).expand(&[b"t", b"a"]);
    of("view \"%f\"").tells(1, &["t:6:12: "]);
    of("view %f %u").tells(1, &["t:6:14: "]);
    of("view\\s\\s$").tells(1, &["t:6:14: "]);
    of("").tells(1, &["t:6:6: "]);
    of("view \\q").tells(1, &["t:6:11: "]);
    with_lines(b"Exec=view %c\nName=a\\q\n")
        .expand(&[b"t"])
        .tells(1, &["t:4:7: "]);
    with_lines(b"Exec=view %i\nName=\\q\nIcon=a\\q\n")
        .expand(&[b"t"])
        .tells(1, &["t:5:7: "]);
}

#[test]
fn refusals_are_told_in_words() {
    let folder = with_exec("view %f");
    let long = [b'l'; 4_097];
    folder.expand(&[b"--location", &long, b"t"]).tells(
        1,
        &["t: the name of a file to open is empty, or the location"],
    );
    folder
        .expand(&[b"t", b""])
        .tells(1, &["t: the name of a file"]);
    folder.expand(&[b"t", &[b'i'; 65_531]]).tells(
        1,
        &["t: the names of the files to open are over 65,536 bytes"],
    );
    folder
        .expand(&[b"--locale=_", b"t"])
        .tells(1, &["t: the locale is not well written"]);
    with_lines(b"Name=a\n")
        .expand(&[b"t"])
        .tells(1, &["t: there is no key Exec"]);
    with_lines(b"Exec=view %c\n")
        .expand(&[b"--all", b"t"])
        .tells(1, &["t: there is no key Name"]);
    with_lines(b"x\n")
        .expand(&[b"--runs", b"t"])
        .tells(1, &["t:3:2: "]);
    folder
        .expand(&[b"absent"])
        .tells(2, &["absent: cannot be read"]);
}

#[test]
fn an_action_has_its_own_exec() {
    let folder = with_action("view --new %f", "");
    folder
        .expand(&[b"t", b"--action", b"old"])
        .writes(b"view --old\n");
    folder
        .expand(&[b"t", b"--action=new", b"a b"])
        .writes(b"view --new 'a b'\n");
    let new = |words: &[&[u8]]| {
        let words = [&[&b"--action=new"[..], b"t", b"a b", b"c%f"], words].concat();
        folder.expand(&words)
    };
    new(&[]).tells_and_writes(0, &["t: this is run 0 of 2;"], b"view --new 'a b'\n");
    new(&[b"--all"]).writes(b"view --new 'a b'\nview --new c%f\n");
    new(&[b"--run=1"]).writes(b"view --new c%f\n");
    new(&[b"--runs"]).writes(b"2\n");
    new(&[b"--runs", b"--json"]).writes(b"{\"runs\":2}\n");
    new(&[b"--null", b"--run=0"]).writes(b"view\0--new\0a b\0");
    new(&[b"--json", b"--run=1"])
        .writes(b"{\"arguments\":[\"view\",\"--new\",\"c%f\"],\"run\":1}\n");
    new(&[b"--run=2"]).tells(1, &["t: there is no such run; the last is 1"]);
    for (code, expected) in [
        ("%F", &b"view a '\xFF'\n"[..]),
        ("%U", b"view a '\xFF'\n"),
        ("%u", b"view a\nview '\xFF'\n"),
        ("x%f%d", b"view xa\nview 'x\xFF'\n"),
    ] {
        with_action(&format!("view {code}"), "")
            .expand(&[b"t", b"--action=new", b"--all", b"a", b"\xFF"])
            .writes(expected);
    }
    // The application's own Exec is expanded as ever.
    folder.expand(&[b"t", b"a"]).writes(b"view a\n");
    let mut command = Command::new("sh");
    command.args([
        "-c",
        "exec \"$0\" \"$@\" < t",
        env!("CARGO_BIN_EXE_kveldrim"),
    ]);
    folder
        .run_by(command, &[b"expand", b"-", b"--action=old"])
        .writes(b"view --old\n");
}

/// An action has its own Icon, and the Name of the application.
#[test]
fn name_and_icon_of_an_action() {
    let folder = with_action("view %i %c %k", "Icon=pen\nIcon[de]=stift\n");
    folder
        .expand(&[b"t", b"--action=new"])
        .writes(b"view --icon pen 'Read it' t\n");
    let german = b"view --icon stift 'Lies!' /a\n";
    for locale in ["de", "auto", "de_AT.UTF-8@euro"] {
        let option = format!("--locale={locale}");
        folder
            .expand(&[b"t", b"--action=new", option.as_bytes(), b"--location=/a"])
            .writes(german);
    }
    // That of the application does not stand for one that is missing or empty.
    for icon in ["", "Icon=\n"] {
        with_action("view %i %c", icon)
            .expand(&[b"t", b"--action=new"])
            .writes(b"view 'Read it'\n");
    }
}

/// Faults are told where they stand, and those that an action does not meet are not told.
#[test]
fn faults_of_an_action_are_told_at_their_byte() {
    let of = |exec: &str, lines: &str, words: &str| {
        let folder = with_action(exec, lines);
        folder
            .expand(&[b"t", b"--action=new", b"a"])
            .tells(1, &[words]);
        // They are nothing to the others.
        folder.expand(&[b"t"]).writes(b"view\n");
        folder
            .expand(&[b"t", b"--action=old"])
            .writes(b"view --old\n");
    };
    of("view \"%f\"", "", "t:14:12: codes do not work in quotes");
    of("view %f %u", "", "t:14:14: %u is a second code for files");
    of("view 'a'", "", "t:14:11: \"'\" cannot stand outside");
    of("view\\s\\s$", "", "t:14:14: \"$\" cannot stand");
    of("", "", "t:14:6: Exec names no program");
    of("view \\q", "", "t:14:11: \\q is no escape; ");
    of(
        "view %i",
        "Icon=a\\\n",
        "t:15:7: the value ends with a single",
    );
    let wrong = |lines: &str, words: &str| {
        let file = format!("[Desktop Entry]\n{lines}");
        let folder = Folder::new().with(b"t", file.as_bytes());
        folder
            .expand(&[b"t", b"--action=a", b"--locale=de"])
            .tells(1, &[words]);
    };
    let action = "[Desktop Action a]\nName=\\q\nExec=view %c %i\nIcon=\\q\n";
    wrong(
        &format!("Name=n\nName[de]=a\\q\nActions=a\n{action}"),
        "t:3:11: \\q is no escape; ",
    );
    wrong(
        &format!("Name=n\nActions=a\n{action}"),
        "t:7:6: \\q is no escape; ",
    );
    wrong(
        &format!("Actions=a\\n;a;b\\q\nName=\\q\n{action}"),
        "t:2:16: \\q is no escape; ",
    );
    // A wrong list is no matter to the application's own Exec.
    with_lines(b"Actions=\\q\nExec=view a\\q\n")
        .expand(&[b"t"])
        .tells(1, &["t:4:12: \\q is no escape; "]);
    // A wrong Exec or Icon of the application, and a wrong label, are no matter.
    let lines = "Name=n\nExec=view '\nIcon=\\q\nActions=a;b\n\
        [Desktop Action a]\nName=\\q\nExec=view %i %c\n[Desktop Action b]\nName=\\\n";
    with_lines(lines.as_bytes())
        .expand(&[b"t", b"--action=a"])
        .writes(b"view n\n");
    let folder = with_action("view 'a'", "");
    let (status, told) = folder.run_on_terminal(&["expand", "t", "--action=new"]);
    let (words, line) = told.split_once('\n').unwrap();
    assert!(words.starts_with("t:14:11: "), "{told}");
    assert_eq!((status, line), (1, "    Exec=view 'a'\n              ^\n"));
}

/// It is told why an action cannot be asked for, and which can.
#[test]
fn an_action_that_is_not_listed() {
    let groups = "[Desktop Action a]\nName=A\nExec=a\n[Desktop Action b]\nExec=b\n[Desktop Action c]\nName=C\nExec=c\n\
        [Desktop Action a_b]\nName=x\nExec=x\n[Desktop Action e]\nName=E\nExec=e\n";
    let told = |list: &str, action: &str, why: &str| {
        let folder = with_lines(format!("Name=n\nExec=n\n{list}{groups}").as_bytes());
        let action = format!("--action={action}");
        for option in ["--all", "--runs", "--json", "--run=0"] {
            let outcome = folder.expand(&[b"t", action.as_bytes(), option.as_bytes()]);
            assert_eq!(
                String::from_utf8_lossy(&outcome.told),
                format!("t: the action {why}\n")
            );
            assert_eq!((outcome.status, outcome.out.len()), (1, 0));
        }
    };
    let list = "Actions=c;b;a;a_b;x;;a\n";
    let listed = "; listed are c, a";
    told(
        list,
        "e",
        &format!("e is not listed: it does not stand in Actions{listed}"),
    );
    told(
        list,
        "New letter",
        &format!("New letter is not listed: it does not stand in Actions{listed}"),
    );
    told(
        list,
        "A",
        &format!("A is not listed: it does not stand in Actions{listed}"),
    );
    told(
        list,
        "x",
        &format!("x is not listed: there is no group Desktop Action x{listed}"),
    );
    told(
        list,
        "b",
        &format!("b is not listed: the key Name is missing in the group Desktop Action b{listed}"),
    );
    told(
        list,
        "a_b",
        &format!("a_b is not listed: \"_\" cannot stand in an identifier; it has letters A-Z a-z, digits and \"-\"{listed}"),
    );
    told(
        list,
        "",
        &format!("'' is not listed: an identifier cannot be empty{listed}"),
    );
    told(
        "Actions=\n",
        "a",
        "a is not listed: it does not stand in Actions; no action is listed",
    );
    told(
        "",
        "a",
        "a is not listed: the key Actions is missing in the group Desktop Entry; no action is listed",
    );
    // Any bytes may be asked for, and what alters a terminal is not told as it is.
    let folder = with_lines(format!("{list}{groups}").as_bytes());
    let outcome = folder.expand(&[b"t", b"--action", b"\x1B\xFF"]);
    assert!(outcome.told.starts_with(b"t: the action \\x1B"));
    assert_eq!(outcome.status, 1);
    // Of many the first are told.
    let identifiers: Vec<String> = (0..20).map(|number| format!("a{number}")).collect();
    let groups = identifiers
        .iter()
        .map(|action| format!("[Desktop Action {action}]\nName=n\n"));
    let lines = format!(
        "Actions={}\n{}",
        identifiers.join(";"),
        groups.collect::<String>()
    );
    let outcome = with_lines(lines.as_bytes()).expand(&[b"t", b"--action=a"]);
    let told = String::from_utf8(outcome.told).unwrap();
    assert!(
        told.ends_with("; listed are a0, a1, a2, a3, a4, a5, a6, a7, a8, a9, ...\n"),
        "{told}"
    );
}

#[test]
fn refusals_of_an_action_are_told_in_words() {
    let without = "Actions=a\n[Desktop Action a]\nName=A\n";
    with_lines(format!("Name=n\nExec=n\n{without}").as_bytes())
        .expand(&[b"t", b"--action=a"])
        .tells(1, &["t: there is no key Exec in a group Desktop Action a"]);
    with_lines(format!("{without}Exec=view %c\n").as_bytes())
        .expand(&[b"t", b"--action=a"])
        .tells(
            1,
            &["t: there is no key Name in a group Desktop Entry; %c in Exec of the action a needs it"],
        );
    let folder = with_action("view --new", "");
    let told = "t: Exec of the action new has none of %f, %F, %u and %U, so no file is handed";
    folder
        .expand(&[b"t", b"--action=new", b"a"])
        .tells_and_writes(0, &[told], b"view --new\n");
    folder
        .expand(&[b"t", b"--action=new", b"--run=1", b"a", b"b"])
        .tells(1, &["t: there is no such run; there is only run 0"]);
    folder
        .expand(&[b"t", b"--action=new", b""])
        .tells(1, &["t: the name of a file"]);
    folder
        .expand(&[b"absent", b"--action=new"])
        .tells(2, &["absent: cannot be read"]);
    // What is handed in is asked before the list and the action.
    let folder = with_lines(b"Actions=\\q\n");
    folder
        .expand(&[b"t", b"--action=x", b"--locale=_"])
        .tells(1, &["t: the locale is not well written"]);
    folder
        .expand(&[b"t", b"--action=x", b""])
        .tells(1, &["t: the name of a file"]);
    folder
        .expand(&[b"t", b"--action=x"])
        .tells(1, &["t:3:9: \\q is no escape; "]);
    with_lines(b"x\n")
        .expand(&[b"t", b"--action=x"])
        .tells(1, &["t:3:2: "]);
}

#[test]
fn standard_input() {
    let folder = with_exec("view %k %f");
    let mut command = Command::new("sh");
    let script = "exec \"$0\" \"$@\" < t";
    command.args(["-c", script, env!("CARGO_BIN_EXE_kveldrim")]);
    folder
        .run_by(command, &[b"expand", b"-", b"a"])
        .writes(b"view '' a\n");
}

#[test]
fn wrong_usage() {
    let folder = with_exec("view %f");
    let wrong: &[&[&[u8]]] = &[
        &[],
        &[b"--raw", b"t"],
        &[b"--all=1", b"t"],
        &[b"t", b"--run"],
        &[b"t", b"--run=x"],
        &[b"t", b"--run=-1"],
        &[b"t", b"--run="],
        &[b"t", b"--run=1", b"--run=1"],
        &[b"t", b"--run=1", b"--all"],
        &[b"t", b"--action"],
        &[b"t", b"--action=a", b"--action=b"],
        &[b"t", b"--runs", b"--null"],
        &[b"t", b"--json", b"--null"],
    ];
    for words in wrong {
        let outcome = folder.expand(words);
        assert_eq!((outcome.status, outcome.out.len()), (2, 0), "{words:?}");
        assert!(outcome.told.starts_with(b"error: "), "{words:?}");
    }
}
