//! Runs the command as a user does: what it writes, what it tells, how it ends.

mod common;

use common::{Folder, T};

#[test]
fn check_is_quiet_about_a_good_file() {
    let folder = Folder::new().with(b"t.desktop", T);
    folder.run(&[b"check", b"t.desktop"]).writes(b"");
    folder
        .run(&[b"complete", b"t.desktop", b"t.desktop"])
        .writes(b"");
}

#[test]
fn check_tells_file_and_line() {
    let folder = Folder::new()
        .with(b"good", T)
        .with(b"bad", b"[Desktop Entry]\nName\n")
        .with(b"empty", b"")
        .with(b"first", b"# a\n[Other]\n")
        .with(b"group", b"[Desktop Entry]\n[a]\n[a]\n")
        .with(b"key", b"[Desktop Entry]\na=1\na=2\n")
        .with(b"plain", b"[Desktop Entry]\na[de]=1\n")
        .with(b"long", &vec![b'\n'; 40_000]);
    let outcome = folder.run(&[
        b"check", b"good", b"bad", b"empty", b"first", b"group", b"key", b"plain", b"long",
    ]);
    outcome.tells(
        1,
        &[
            "bad:2:5: there is no \"=\" after the key Name",
            "empty: the file is empty",
            "first:2: the first header must be [Desktop Entry]",
            "group:3: the group a starts in line 2",
            "key:3: the key a stands in this group already, in line 2",
            "plain:2: a[de] needs the key a",
            "long: the file is over 32,768 bytes",
        ],
    );
}

/// The byte counts from 1; a line that is only unfinished is told behind its end.
#[test]
fn every_command_tells_the_byte_of_a_bad_line() {
    let folder = Folder::new()
        .with(b"tab", b"[Desktop Entry]\nName\t=x\n")
        .with(b"cut", b"[Desktop Entry]\nName[de")
        .with(b"header", b"[Desktop Entry]\r\nName=x\n")
        .with(b"latin", b"[Desktop Entry]\nName=M\xFCller\n");
    folder
        .run(&[b"check", b"tab", b"cut", b"header", b"latin"])
        .tells(
            1,
            &["tab:2:5: ", "cut:2:8: ", "header:1:16: ", "latin:2:7: "],
        );
    let commands: &[&[&[u8]]] = &[
        &[b"complete", b"tab"],
        &[b"get", b"tab", b"Name"],
        &[b"get", b"tab", b"Name", b"--locale", b"de"],
        &[b"list", b"tab", b"Name"],
        &[b"set", b"tab", b"Name", b"y"],
        &[b"remove", b"tab", b"Name"],
        &[b"undo", b"tab"],
        &[b"redo", b"tab"],
        &[b"actions", b"tab"],
        &[b"expand", b"tab"],
        &[b"expand", b"tab", b"--action", b"a"],
    ];
    for words in commands {
        folder
            .run(words)
            .tells(1, &["tab:2:5: after the key Name only spaces"]);
    }
    assert_eq!(folder.read("tab"), b"[Desktop Entry]\nName\t=x\n");
}

#[test]
fn a_terminal_is_shown_the_line() {
    let folder = Folder::new()
        .with(b"tab", b"[Desktop Entry]\nName\t=x\n")
        .with(b"latin", b"[Desktop Entry]\nName=M\xFCller\n")
        .with(b"escape", b"[Desktop Entry]\nName =  ab\\q\n")
        .with(b"exec", b"[Desktop Entry]\nExec=view 'a'\n")
        .with(b"twice", b"[Desktop Entry]\na=1\na=2\n");
    let shown = |words: &[&str], expected: [&str; 3]| {
        let (status, told) = folder.run_on_terminal(words);
        assert_eq!(status, 1);
        let lines: Vec<&str> = told.lines().collect();
        assert!(lines[0].starts_with(expected[0]), "{told}");
        assert_eq!(lines[1..], expected[1..], "{told}");
    };
    shown(
        &["check", "tab"],
        ["tab:2:5: after the key Name", "    Name^I=x", "        ^"],
    );
    shown(
        &["get", "latin", "Name"],
        [
            "latin:2:7: the byte 0xFC is not UTF-8",
            "    Name=M\\xFCller",
            "          ^",
        ],
    );
    shown(
        &["get", "escape", "Name"],
        [
            "escape:2:11: \\q is no escape",
            "    Name =  ab\\q",
            "              ^",
        ],
    );
    shown(
        &["expand", "exec"],
        [
            "exec:2:11: \"'\" cannot stand",
            "    Exec=view 'a'",
            "              ^",
        ],
    );
    // Where no byte is known, nothing follows.
    let (status, told) = folder.run_on_terminal(&["check", "twice"]);
    assert_eq!((status, told.lines().count()), (1, 1), "{told}");
}

#[test]
fn complete_tells_what_is_missing() {
    let folder = Folder::new()
        .with(b"type", b"[Desktop Entry]\nName=n\n")
        .with(b"name", b"[Desktop Entry]\nType=Link\n")
        .with(b"exec", b"[Desktop Entry]\nType=Application\nName=n\n")
        .with(b"url", b"[Desktop Entry]\nType=Link\nName=n\n")
        .with(
            b"boolean",
            b"[Desktop Entry]\nType=Directory\nName=n\nHidden=yes\n",
        )
        .with(b"bad", b"[Desktop Entry]\n=\n");
    let outcome = folder.run(&[
        b"complete",
        b"type",
        b"name",
        b"exec",
        b"url",
        b"boolean",
        b"bad",
    ]);
    outcome.tells(
        1,
        &[
            "type: the key Type is missing",
            "name: the key Name is missing",
            "exec: the key Exec is missing",
            "url: the key URL is missing",
            "boolean:4: the value of Hidden is \"yes\"",
            "bad:2:1: there is no key before \"=\"",
        ],
    );
}

#[test]
fn a_file_that_cannot_be_read_is_2() {
    let folder = Folder::new().with(b"bad", b"x\n");
    folder.run(&[b"check", b"none", b"bad", b"none/x"]).tells(
        2,
        &[
            "none: cannot be read",
            "bad:1:2: ",
            "none/x: cannot be read",
        ],
    );
    for file in ["none", "."] {
        folder
            .run(&[b"get", file.as_bytes(), b"Name"])
            .tells(2, &[&format!("{file}: cannot be read: ")]);
    }
}

#[test]
fn get_writes_the_value() {
    let file =
        b"[Desktop Entry]\nName=a\\sb\\n\\\\\nName[fr]=Lire\nEmpty=\n[Other group]\nName = x \n";
    let folder = Folder::new().with(b"f", file);
    folder.run(&[b"get", b"f", b"Name"]).writes(b"a b\n\\\n");
    folder
        .run(&[b"get", b"f", b"Name", b"--raw"])
        .writes(b"a\\sb\\n\\\\\n");
    folder.run(&[b"get", b"f", b"Name[fr]"]).writes(b"Lire\n");
    folder.run(&[b"get", b"f", b"Empty"]).writes(b"\n");
    folder
        .run(&[b"get", b"--group", b"Other group", b"f", b"Name"])
        .writes(b"x \n");
    folder
        .run(&[b"get", b"f", b"--group=Other group", b"--", b"Name"])
        .writes(b"x \n");
}

#[test]
fn get_tells_refusals() {
    let folder = Folder::new()
        .with(b"t", T)
        .with(b"escape", b"[Desktop Entry]\nA=1\nName =  ab\\q\n")
        .with(b"bad", b"[Desktop Entry]\n\x80\n");
    let refused = |words: &[&[u8]], told: &str| folder.run(words).tells(1, &[told]);
    refused(
        &[b"get", b"t", b"Icon"],
        "t: there is no key Icon in a group Desktop Entry",
    );
    refused(
        &[b"get", b"t", b"Name", b"--group", b"X"],
        "t: there is no key Name in a group X",
    );
    refused(
        &[b"get", b"t", b"Na me"],
        "t: Na me is no key; it has letters",
    );
    refused(&[b"get", b"t", b""], "t: '' is no key; it has letters");
    refused(
        &[b"get", b"t", b"Name", b"--group", b"[Desktop Entry]"],
        "t: [Desktop Entry] is no name of a group; it has ASCII characters other than [ and ], so leave",
    );
    refused(
        &[b"get", b"t", b"Name[fr]", b"--locale", b"fr"],
        "t: Name[fr] has a [locale] already, so --locale cannot",
    );
    refused(
        &[b"get", b"t", b"Name", b"--locale", b"de_"],
        "t: the locale is not well written; it is as de, de_AT",
    );
    folder
        .run(&[b"get", b"", b"Name"])
        .tells(2, &["'': cannot be read: No such file"]);
    refused(
        &[b"get", b"escape", b"Name"],
        "escape:3:11: \\q is no escape",
    );
    refused(&[b"get", b"bad", b"Name"], "bad:2:1: ");
    folder
        .run(&[b"get", b"escape", b"Name", b"--raw"])
        .writes(b"ab\\q\n");
}

#[test]
fn list_writes_each_element() {
    let file = b"[Desktop Entry]\nA=a\\;b;;c\\s\nB=\nC=x;y\\;\\\n[G]\nA=1;2;\n";
    let folder = Folder::new().with(b"f", file);
    folder.run(&[b"list", b"f", b"A"]).writes(b"a;b\n\nc \n");
    folder.run(&[b"list", b"f", b"B"]).writes(b"");
    folder
        .run(&[b"list", b"f", b"A", b"--group", b"G"])
        .writes(b"1\n2\n");
    folder
        .run(&[b"list", b"f", b"C"])
        .tells(1, &["f:4:8: the value ends with a single backslash"]);
}

/// Bytes go through as they are: a file's name that is not UTF-8, both spellings of Müller.
#[test]
fn bytes_are_not_altered() {
    let file = "[Desktop Entry]\nA=M\u{FC}ller\nB=Mu\u{308}ller\n";
    let folder = Folder::new()
        .with(b"f\xFF", file.as_bytes())
        .with(b"\xC0", b"x\n");
    folder
        .run(&[b"get", b"f\xFF", b"A"])
        .writes("M\u{FC}ller\n".as_bytes());
    folder
        .run(&[b"get", b"f\xFF", b"B"])
        .writes("Mu\u{308}ller\n".as_bytes());
    let outcome = folder.run(&[b"check", b"\xC0"]);
    assert!(outcome.told.starts_with(b"\xC0:1:2: "));
    let outcome = folder.run(&[b"get", b"f\xFF", b"\xFE"]);
    assert!(outcome.told.starts_with(b"f\xFF: "));
    assert_eq!(outcome.status, 1);
}
