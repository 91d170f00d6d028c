//! Which value `--locale` reads, and what `set --locale` says where it is not the one that was set.

mod common;

use common::Folder;

const FILE: &[u8] =
    b"[Desktop Entry]\nType=Application\nName=Read\nName[fr]=Lire\nName[de]=Lesen\n\
    Keywords=a;b;\nKeywords[de]=c\\;d;e;\nExec=view\n";

fn folder() -> Folder {
    Folder::new().with(b"t", FILE)
}

/// A folder with the file `t`, whose only group has these lines from the second on.
fn with_lines(lines: &str) -> Folder {
    let file = format!("[Desktop Entry]\n{lines}");
    Folder::new().with(b"t", file.as_bytes())
}

impl Folder {
    /// Runs words that are accepted, write nothing and tell just this line.
    fn warns(&self, words: &[&str], told: &str) {
        let outcome = self.words(words);
        assert_eq!(String::from_utf8_lossy(&outcome.told), format!("{told}\n"));
        outcome.tells(0, &[told]);
    }
}

#[test]
fn get_chooses_by_locale_only_if_asked() {
    let folder = folder();
    let french = [("LANG", "fr_FR.UTF-8")];
    folder
        .run_in(&french, &[b"get", b"t", b"Name"])
        .writes(b"Read\n");
    folder
        .run(&[b"get", b"t", b"Name", b"--locale", b"fr_CA@x"])
        .writes(b"Lire\n");
    folder
        .run(&[b"get", b"t", b"Name", b"--locale="])
        .writes(b"Read\n");
}

#[test]
fn auto_follows_the_environment() {
    let folder = folder();
    let reads = |variables: &[(&str, &str)], value: &str| {
        let words: &[&[u8]] = &[b"get", b"t", b"Name", b"--locale", b"auto"];
        folder
            .run_in(variables, words)
            .writes(format!("{value}\n").as_bytes());
    };
    reads(&[], "Read");
    reads(&[("LANG", "fr_FR.UTF-8")], "Lire");
    reads(
        &[("LC_ALL", ""), ("LC_MESSAGES", "fr"), ("LANG", "de")],
        "Lire",
    );
    reads(&[("LC_ALL", "C"), ("LANG", "fr")], "Read");
    // Each of a list in turn, before the plain key.
    reads(&[("LANGUAGE", "sv:de_CH:fr"), ("LC_ALL", "fr")], "Lesen");
    reads(&[("LANGUAGE", "sv:nb"), ("LC_ALL", "fr")], "Read");
    reads(&[("LANGUAGE", "sv:C:fr")], "Read");
    reads(&[("LANGUAGE", ""), ("LANG", "de")], "Lesen");
}

#[test]
fn what_is_no_locale_is_passed_over() {
    let words: &[&[u8]] = &[b"get", b"t", b"Name", b"--locale=auto"];
    let outcome = folder().run_in(&[("LANGUAGE", "de utf8:fr")], words);
    assert_eq!((outcome.status, &outcome.out[..]), (0, &b"Lire\n"[..]));
    let told = "kveldrim: warning: de utf8 of LANGUAGE is not a locale";
    assert!(outcome.told.starts_with(told.as_bytes()));
    assert_eq!(
        outcome.told.iter().filter(|byte| **byte == b'\n').count(),
        1
    );
    let outcome = folder().run_in(&[("LC_ALL", "de.utf\u{1B}")], words);
    assert_eq!((outcome.status, &outcome.out[..]), (0, &b"Read\n"[..]));
    assert!(outcome
        .told
        .starts_with(b"kveldrim: warning: de.utf\\x1B of LC_ALL"));
    // One that was asked for by its name is refused.
    folder()
        .run(&[b"get", b"t", b"Name", b"--locale", b"de utf8"])
        .tells(1, &["t: the locale is not well written; it is as"]);
}

#[test]
fn list_by_locale_and_with_zero_bytes() {
    let folder = folder();
    folder
        .run(&[b"list", b"t", b"Keywords", b"--locale=de_AT"])
        .writes(b"c;d\ne\n");
    folder
        .run(&[b"list", b"t", b"Keywords", b"--locale=fr", b"--null"])
        .writes(b"a\0b\0");
    folder
        .run_in(
            &[("LANG", "de")],
            &[b"list", b"t", b"Keywords", b"--locale=auto", b"--null"],
        )
        .writes(b"c;d\0e\0");
}

/// Neither that of the locale that is asked for nor that of a key in the file.
#[test]
fn encodings_do_not_count() {
    let folder = with_lines(
        "Name=Read\nName[de_DE.UTF-8]=Lesen\nName[sr.UTF-8@latin]=Citaj\nName[C.UTF-8]=No\n",
    );
    for locale in [
        "de_DE",
        "de_DE.UTF-8",
        "de_DE.ISO-8859-1",
        "de_DE@euro",
        "de_DE.UTF-8@euro",
    ] {
        folder.reads(locale, "Lesen");
    }
    for locale in ["sr@latin", "sr_RS.UTF-8@latin"] {
        folder.reads(locale, "Citaj");
    }
    // Country and modifier do.
    for locale in [
        "de",
        "de.UTF-8",
        "de_AT.UTF-8",
        "sr",
        "sr.UTF-8",
        "C",
        "C.UTF-8",
        "POSIX.UTF-8",
        "",
    ] {
        folder.reads(locale, "Read");
    }
    for variable in [("LANG", "de_DE.UTF-8"), ("LANGUAGE", "sv.UTF-8:de_DE:sr")] {
        folder
            .words_in(&[variable], &["get", "t", "Name", "--locale=auto"])
            .writes(b"Lesen\n");
    }
    // A key that is asked for by its name is taken whole.
    folder
        .words(&["get", "t", "Name[de_DE.UTF-8]"])
        .writes(b"Lesen\n");
    folder.refuses(
        1,
        &["get", "t", "Name[de_DE]"],
        "t: there is no key Name[de_DE] in a group Desktop Entry",
    );
}

#[test]
fn of_keys_that_differ_in_encoding_the_earlier_line_is_read() {
    for [first, second] in [
        ["de", "de.UTF-8"],
        ["de.UTF-8", "de"],
        ["de.ISO-8859-1", "de.UTF-8"],
        ["de.UTF-8", "de.ISO-8859-1"],
    ] {
        let folder = with_lines(&format!(
            "Name[{first}]=a\nName[{second}]=b\nName=c\nKeywords[{first}]=d;e;\nKeywords=f;\nKeywords[{second}]=g;\n"
        ));
        for locale in ["de", "de.UTF-8", "de.ISO-8859-1", "de_AT.UTF-8@euro"] {
            folder.reads(locale, "a");
            let option = format!("--locale={locale}");
            folder
                .words(&["list", "t", "Keywords", &option])
                .writes(b"d\ne\n");
        }
        folder.reads("fr.UTF-8", "c");
    }
    // A key that suits better is read before one in an earlier line.
    let folder = with_lines("Name=a\nName[de.UTF-8]=b\nName[de_AT]=c\nName[de_AT.UTF-8@x]=d\n");
    folder.reads("de", "b");
    folder.reads("de_AT.UTF-8", "c");
    folder.reads("de_AT@x", "d");
}

#[test]
fn list_by_a_key_with_an_encoding() {
    let folder = with_lines("Keywords=a;b;\nKeywords[de_DE.UTF-8]=c;d;\n");
    folder
        .words(&["list", "t", "Keywords", "--locale=de_DE"])
        .writes(b"c\nd\n");
    folder
        .words(&["list", "t", "Keywords", "--locale=de"])
        .writes(b"a\nb\n");
}

#[test]
fn a_key_that_its_locale_reads_is_not_warned_of() {
    for locale in [
        "de",
        "de_DE.UTF-8",
        "de_DE.UTF-8@euro",
        "de_DE@euro",
        "de.UTF-8@euro",
        "fr_FR.UTF-8",
        "c",
        "C@x",
        "C.UTF-8@x",
    ] {
        let folder = folder();
        let option = format!("--locale={locale}");
        folder.does(&["set", "t", "Name", "x", &option]);
        folder.reads(locale, "x");
    }
}

#[test]
fn a_key_that_its_locale_does_not_read_is_warned_of() {
    let [plain, earlier] = [("Name", "t:3:6", "Read"), ("Name[de]", "t:5:10", "Lesen")];
    for (locale, (read, place, value)) in [
        ("C", plain),
        ("POSIX", plain),
        ("C.UTF-8", plain),
        ("de.UTF-8", earlier),
        ("de.ISO-8859-1", earlier),
    ] {
        let folder = folder();
        let words = match read {
            "Name" => format!("the plain Name in this line, not Name[{locale}]; set Name instead"),
            _ => format!(
                "{read} in this earlier line, not Name[{locale}]; set {read} instead, or remove it"
            ),
        };
        let told = format!("{place}: warning: the locale {locale} reads {words}");
        let option = format!("--locale={locale}");
        let set = ["set", "t", "Name", "x", &option];
        let key = format!("Name[{locale}]");
        let dry = folder.words(&[&set[..], &["--dry-run"]].concat());
        let would = format!("{key} in Desktop Entry: \"x\" would be added\n");
        dry.tells_and_writes(0, &[&told], would.as_bytes());
        folder.warns(&set, &told);
        folder.reads(locale, value);
        // It is set all the same, and can be asked for by its whole name.
        folder.words(&["get", "t", &key]).writes(b"x\n");
        folder.does(&[&set[..], &["--no-warn"]].concat());
        // What is told can be done.
        folder.does(&["set", "t", read, "y"]);
        folder.reads(locale, "y");
        // To remove it is no reason to warn.
        folder.does(&["remove", "t", &key]);
    }
}

/// Who sets a key without an encoding is told of one with an encoding that stands earlier.
#[test]
fn an_earlier_key_with_an_encoding_is_told() {
    let folder = with_lines("Name=Read\n# a note\nName[de_DE.UTF-8] = Lesen\n");
    let set = ["set", "t", "Name", "Lies!", "--locale", "de_DE"];
    folder.warns(
        &set,
        "t:4:21: warning: the locale de_DE reads Name[de_DE.UTF-8] in this earlier line, not Name[de_DE]; \
        set Name[de_DE.UTF-8] instead, or remove it",
    );
    folder.reads("de_DE", "Lesen");
    folder.does(&["remove", "t", "Name", "--locale=de_DE.UTF-8"]);
    folder.reads("de_DE.UTF-8", "Lies!");
    folder.does(&set);
    // Put back, it is the earlier line again.
    folder.does(&["undo", "t", "2"]);
    folder.reads("de_DE", "Lesen");
}

/// A key of another group is no reason to warn.
#[test]
fn a_warning_is_of_the_group_of_the_key() {
    let lines = "Name=Read\n[Desktop Action new]\nName=New\nName[de]=Neu\n";
    let set = ["set", "t", "Name", "x", "--locale=de.UTF-8"];
    with_lines(lines).does(&set);
    with_lines(lines).warns(
        &[&set[..], &["--group=Desktop Action new"]].concat(),
        "t:5:10: warning: the locale de.UTF-8 reads Name[de] in this earlier line, not Name[de.UTF-8]; \
        set Name[de] instead, or remove it",
    );
}

#[test]
fn a_terminal_is_shown_what_is_read() {
    let words = ["set", "t", "Name", "x", "--locale=de.UTF-8"];
    let (status, told) = folder().run_on_terminal(&words);
    assert_eq!(status, 0);
    let (warning, line) = told.split_once('\n').unwrap();
    assert!(warning.starts_with("t:5:10: warning: "), "{told}");
    assert_eq!(line, "    Name[de]=Lesen\n             ^\n");
}

/// A key may be as long as its file.
#[test]
fn of_long_names_the_start_is_told() {
    let key = "N".repeat(5_000);
    let folder = with_lines(&format!("{key}=a\n"));
    let outcome = folder.words(&["set", "t", &key, "x", "--locale=C"]);
    outcome.tells(0, &["t:2:5002: warning: the locale C reads the plain NNN"]);
    assert!(outcome.told.len() < 400);
}
