//! Every way a file can be wrong has words of its own, which name what is there.

use kveldrim::{check, complete, Kind};

use super::{escape, exec, Ask, Fault};

/// The first fault of a file.
fn first(file: &[u8], ask: Ask) -> Fault {
    Fault::of(file, ask(file).unwrap_err())
}

/// A bad line in a file of some more lines: the byte that is told, and the words.
fn bad(line: &[u8]) -> (usize, String) {
    let file = [b"[Desktop Entry]\n", line, b"\nA=1\n"].concat();
    let fault = first(&file, check);
    assert_eq!((fault.kind, fault.line), (Kind::BadLine, Some(2)));
    (fault.byte.unwrap(), fault.words)
}

#[test]
fn each_way_of_a_bad_line() {
    let told = |line: &[u8], byte: usize, words: &str| {
        assert_eq!(
            bad(line),
            (byte, words.to_string()),
            "{}",
            line.escape_ascii()
        );
    };
    let crlf = "this line ends with CR LF, as Windows writes it; save the file with Unix line ends, or run dos2unix on it";
    for line in [
        "Name=x\r",
        "[a]\r",
        "\r",
        "  \r",
        "Name\r",
        "Name[de\r",
        "[a\r",
        "Name=\r",
    ] {
        told(line.as_bytes(), line.len() - 1, crlf);
    }
    told(b"=x", 0, "there is no key before \"=\"; write Key=value");
    let start = |spot: &str| {
        format!(
            "a line cannot start with {spot}; a comment starts with \"#\", a header with \"[\", \
                an entry with its key (letters A-Z a-z, digits and \"-\")"
        )
    };
    told(b"; x", 0, &start("\";\""));
    told(b"\"a\"=x", 0, &start("'\"'"));
    told(b"\xFF", 0, &start("the byte 0xFF"));
    told(b"\x1Bx", 0, &start("the control byte 0x1B"));
    told("\u{E4}=x".as_bytes(), 0, &start("\"\u{E4}\" (0xC3 0xA4)"));
    told("\u{A0}A=x".as_bytes(), 0, &start("U+00A0 (0xC2 0xA0)"));
    told(
        "\u{FEFF}A=x".as_bytes(),
        0,
        &start("U+FEFF (0xEF 0xBB 0xBF)"),
    );
    told(b"\rName=x", 0, &start("a CR"));
    told(
        b" Name=x",
        1,
        "this line is indented; remove the spaces or tabs before \"N\"",
    );
    told(
        b"\t \t[a]",
        3,
        "this line is indented; remove the spaces or tabs before \"[\"",
    );
    told(
        b"[]",
        1,
        "this header has no name; write one between \"[\" and \"]\"",
    );
    told(
        b"[a[b]",
        2,
        "a second \"[\" stands in this header; its name can hold neither \"[\" nor \"]\"",
    );
    let header = "cannot stand in a header; its name takes letters without accents, digits, spaces and signs (ASCII)";
    told(
        "[M\u{FC}]".as_bytes(),
        2,
        &format!("\"\u{FC}\" (0xC3 0xBC) {header}"),
    );
    told(b"[a\tb]", 2, &format!("a tab {header}"));
    told(
        b"[a",
        2,
        "this header is not closed; write \"]\" at its end",
    );
    told(b"[", 1, "this header is not closed; write \"]\" at its end");
    told(
        b"[a]x",
        3,
        "\"x\" stands after \"]\"; a header ends there, so remove what follows",
    );
    told(
        b"[a] ",
        3,
        "a space stands after \"]\"; a header ends there, so remove what follows",
    );
    told(
        b"[a]]",
        3,
        "\"]\" stands after \"]\"; a header ends there, so remove what follows",
    );
    told(b"Name", 4, "there is no \"=\" after the key Name; write Name=value, or \"#\" first if this is a comment");
    told(b"Name  ", 6, "there is no \"=\" after the key Name; write Name=value, or \"#\" first if this is a comment");
    told(b"N[de] ", 6, "there is no \"=\" after the key N[de]; write N[de]=value, or \"#\" first if this is a comment");
    told(
        b"Name\t=x",
        4,
        "after the key Name only spaces and \"=\" may come, not a tab",
    );
    told(
        b"Na me=x",
        3,
        "after the key Na only spaces and \"=\" may come, not \"m\"",
    );
    told(
        b"N[de]x=",
        5,
        "after the key N[de] only spaces and \"=\" may come, not \"x\"",
    );
    told(
        b"N[de] [",
        6,
        "after the key N[de] only spaces and \"=\" may come, not \"[\"",
    );
    told(
        b"N [de]=",
        2,
        "a space stands between the key N and \"[\"; write the [locale] right behind the key",
    );
    let key =
        "cannot stand in a key; a key has letters A-Z a-z, digits and \"-\", then comes \"=\"";
    told(b"Na_me=x", 2, &format!("\"_\" {key}"));
    told(b"Name: x", 4, &format!("\":\" {key}"));
    told(b"N\x1B=x", 1, &format!("the control byte 0x1B {key}"));
    let locale = "a locale is as de, de_AT, de_AT.UTF-8 or de_AT.UTF-8@euro";
    told(
        b"N[de",
        4,
        &format!("the [locale] of this key is not closed by \"]\"; {locale}"),
    );
    told(b"N[]=x", 2, "there is no locale between \"[\" and \"]\"; write one, as de or de_AT, or leave the brackets out");
    told(
        b"N[de_]=x",
        5,
        &format!("the locale is not finished before \"]\"; {locale}"),
    );
    told(
        b"N[d e]=x",
        3,
        &format!("a space cannot stand here in a locale; {locale}"),
    );
    told(
        b"N[de@a.b]=x",
        6,
        &format!("\".\" cannot stand here in a locale; {locale}"),
    );
    told(
        b"Name=a\tb",
        6,
        "a tab stands in the value; write \\t for it, or a space",
    );
    told(
        b"Name=\tb",
        5,
        "a tab stands in the value; write \\t for it, or a space",
    );
    told(
        b"Name=a\rb",
        6,
        "a CR stands in the value; write \\r for it, or remove it",
    );
    told(
        b"Name=a\x01",
        6,
        "the control byte 0x01 stands in the value; remove it",
    );
    told(
        b"Name=a\x7F",
        6,
        "the control byte 0x7F stands in the value; remove it",
    );
    told(
        b"Name=M\xFCller",
        6,
        "the byte 0xFC is not UTF-8; save the file as UTF-8",
    );
    told(
        b"Name=Caf\xE9s",
        9,
        "the bytes 0xE9 0x73 are not UTF-8; save the file as UTF-8",
    );
    told(
        b"Name=\xE0\x80",
        6,
        "the bytes 0xE0 0x80 are not UTF-8; save the file as UTF-8",
    );
    told(
        b"Name=Caf\xE9",
        9,
        "the line ends within a character (0xE9), so it is not UTF-8; save the file as UTF-8",
    );
}

/// What is true of a line only at the start or the end of the file.
#[test]
fn bad_lines_by_their_place() {
    let told = |file: &[u8]| first(file, check).words;
    let mark =
        "the file starts with a byte order mark (0xEF 0xBB 0xBF); save it as UTF-8 without one";
    assert_eq!(told(b"\xEF\xBB\xBF[Desktop Entry]\n"), mark);
    assert_ne!(told(b"\n\xEF\xBB\xBF[Desktop Entry]\n"), mark);
    assert_eq!(
        told(b"[Desktop Entry]\nA=1\r"),
        "this line ends with a CR; remove it"
    );
    let mac =
        "this file has CR but no LF, as if an old Mac had written it; save it with Unix line ends";
    assert_eq!(told(b"[Desktop Entry]\rA=1\r"), mac);
    for other in [
        &b"[Desktop Entry]\r"[..],
        b"=\rA=1",
        b"[Desktop Entry]\rA=1\n",
    ] {
        assert_ne!(told(other), mac);
    }
}

#[test]
fn faults_of_lines_that_are_good() {
    let told = |file: &[u8], line: Option<usize>, words: &str| {
        let fault = first(file, complete);
        assert_eq!((fault.line, fault.byte, &*fault.words), (line, None, words));
    };
    told(
        b"",
        None,
        "the file is empty; it must start with the header [Desktop Entry]",
    );
    told(
        b"\n#a\n",
        None,
        "the file has only blank lines and comments; it must start with the header [Desktop Entry]",
    );
    told(
        b"#\n[Other]\n[Desktop Entry]\n",
        Some(2),
        "the first header must be [Desktop Entry], but this is [Other]",
    );
    told(
        b"\nName[de] = x\n[Desktop Entry]\n",
        Some(2),
        "the key Name[de] stands before any header; the first line that is neither blank nor a comment must be [Desktop Entry]",
    );
    told(
        b"[Desktop Entry]\n[a b]\n#\n[c]\n[a b]\n",
        Some(5),
        "the group a b starts in line 2 already; put its entries there",
    );
    told(
        b"[Desktop Entry]\nA=1\n[g]\n#A=0\nA = 1\n\nA[de]=2\nA=3\n",
        Some(8),
        "the key A stands in this group already, in line 5; keep one of the two",
    );
    told(
        b"[Desktop Entry]\nA=1\n[g]\nB=\n#\nA[de] =2\nA[fr]=2\n",
        Some(6),
        "A[de] needs the key A without a [locale] beside it in the group g; add A=",
    );
    let missing = |key: &str, reason: &str| {
        format!("the key {key} is missing in the group Desktop Entry; {reason}")
    };
    told(
        b"[Desktop Entry]\n",
        None,
        &missing(
            "Type",
            "every file says what it is: Application, Link or Directory",
        ),
    );
    told(
        b"[Desktop Entry]\nType=Link\n[a]\nName=x\n",
        None,
        &missing("Name", "every file says what it is called in a menu"),
    );
    told(
        b"[Desktop Entry]\nType=Application\nName=x\nDBusActivatable=false\n",
        None,
        &missing(
            "Exec",
            "an Application says which command it runs, unless DBusActivatable is true",
        ),
    );
    told(
        b"[Desktop Entry]\nType=Link\nName=x\n",
        None,
        &missing("URL", "a Link says which address it opens"),
    );
    let of_type = "but it may only be Application, Link or Directory";
    told(
        b"[Desktop Entry]\nType =  Link \n",
        Some(2),
        &format!("the value of Type is \"Link \", {of_type}"),
    );
    told(
        b"[Desktop Entry]\nType=\n",
        Some(2),
        &format!("the value of Type is empty, {of_type}"),
    );
    told(
        b"[Desktop Entry]\nType=Directory\nName=\nHidden=1\n",
        Some(4),
        "the value of Hidden is \"1\", but it may only be true or false",
    );
}

/// Of long names and values the start is told, and what may alter a terminal is escaped.
#[test]
fn names_and_values_are_shown_with_care() {
    let long = "k".repeat(1_000);
    let (_, words) = bad(long.as_bytes());
    assert!(words.starts_with(&format!(
        "there is no \"=\" after the key {}...;",
        "k".repeat(60)
    )));
    let fault = first(
        "[Desktop Entry]\nType=a\u{9B}1m\u{202E}\n".as_bytes(),
        complete,
    );
    assert!(
        fault.words.contains("\"a\\xC2\\x9B1m\\xE2\\x80\\xAE\""),
        "{}",
        fault.words
    );
}

#[test]
fn wrong_escapes() {
    let told = |value: &str, words: &str| {
        let file = ["A=", value, "\nB="].concat();
        let refusal = kveldrim::read_text_vec(value.as_bytes()).unwrap_err();
        assert_eq!(escape(file.as_bytes(), 2 + refusal.place as usize), words);
    };
    let allowed = "a backslash may stand before s, n, t, r and \\ (in a list also before ;), and a backslash itself is written \\\\";
    told("C:\\path", &format!("\\p is no escape; {allowed}"));
    told("\\\\\\\u{E4}", &format!("\\\u{E4} is no escape; {allowed}"));
    told(
        "a\\ b",
        &format!("a backslash before a space is no escape; {allowed}"),
    );
    told(
        "a\\\u{202E}",
        &format!("a backslash before U+202E (0xE2 0x80 0xAE) is no escape; {allowed}"),
    );
    told(
        "a\\;b",
        "\\; is an escape in lists only; in other values write ; alone",
    );
    told(
        "a\\",
        "the value ends with a single backslash; a backslash itself is written \\\\",
    );
    assert_eq!(
        escape(b"A=\\", 2),
        "the value ends with a single backslash; a backslash itself is written \\\\"
    );
    assert_eq!(escape(b"A=x", 2), Kind::Escape.words());
}

/// The place and the words that are told of a command, whose text is this.
fn told_of_exec(text: &[u8]) -> Option<(Kind, usize, String)> {
    let raw = kveldrim::write_text_vec(text).unwrap();
    let file = [b"[Desktop Entry]\nName=n\nExec=", &raw[..], b"\n"].concat();
    let refusal = kveldrim::runs(&file, b"", b"", &[b""; 0]).err()?;
    Some((refusal.kind, refusal.place as usize, exec(text, refusal)))
}

#[test]
fn each_way_of_a_bad_command() {
    let told = |text: &str, place: usize, words: &str| {
        let (_, at, told) = told_of_exec(text.as_bytes()).unwrap();
        assert_eq!((at, &*told), (place, words), "{text}");
    };
    told("", 0, "Exec names no program; write its name first");
    told("  ", 0, "Exec names no program; write its name first");
    told(
        "\"\" a",
        0,
        "the program's name between '\"' and '\"' is empty; write it there",
    );
    told(
        "\"\"x",
        0,
        "the program's name between '\"' and '\"' is empty; write it there",
    );
    let unclosed =
        "the quote that starts here is not closed; write another '\"' where the argument ends";
    told("v \"a$b", 2, unclosed);
    told("v \"a\\\"", 2, unclosed);
    told("\"", 0, unclosed);
    let after =
        "stands right after a closing quote; put a space between, or take it into the quotes";
    told("v \"a\"b", 5, &format!("\"b\" {after}"));
    told("v \"a\"%z", 5, &format!("\"%\" {after}"));
    told("v \"a\"\"b\"", 5, &format!("'\"' {after}"));
    told(
        "v 'a'",
        2,
        "\"'\" cannot stand outside double quotes; to quote an argument use '\"'",
    );
    told(
        "v --a=\"b c\"",
        6,
        "'\"' can only start an argument; put the whole argument in quotes, as \"--title=a b\"",
    );
    let bare = "cannot stand outside quotes; put the argument in quotes (\"..\")";
    told("v a>b", 3, &format!("\">\" {bare}"));
    told("v ~", 2, &format!("\"~\" {bare}"));
    told("v\ta", 1, &format!("a tab {bare}"));
    told("v\na", 1, &format!("a line feed {bare}"));
    told(
        "v $H",
        2,
        &format!("\"$\" {bare} and write \\\\$ for it in the file"),
    );
    told(
        "v `a`",
        2,
        &format!("\"`\" {bare} and write \\\\` for it in the file"),
    );
    told(
        "v a\\b",
        3,
        &format!("\"\\\" {bare} and write \\\\\\\\ for it in the file"),
    );
    let quoted = "in quotes needs a backslash before it, which is doubled in the file: write \\\\";
    told("v \"a $H\"", 5, &format!("\"$\" {quoted}$"));
    told("v \"`a`\"", 3, &format!("\"`\" {quoted}`"));
    told(
        "v \"a\\b\"",
        4,
        "\"\\\" in quotes may stand only before '\"', \"`\", \"$\" and \"\\\"; for a backslash itself write \\\\\\\\ in the file",
    );
    let equals = "the program's name cannot hold \"=\"; to set a variable write env NAME=value before the program";
    told("A=1 v", 1, equals);
    told("\"a=\" v", 2, equals);
    told(
        "v \u{E4}",
        2,
        "\"\u{E4}\" (0xC3 0xA4) cannot stand in Exec, which takes ASCII alone",
    );
    told(
        "v \"\u{E4}\"",
        3,
        "\"\u{E4}\" (0xC3 0xA4) cannot stand in Exec, which takes ASCII alone",
    );
    told(
        "v \"%f\"",
        3,
        "codes do not work in quotes; put %f outside of them, or write %% for a percent sign",
    );
    told(
        "v \"%x\"",
        3,
        "%x is no code; the codes are %f %F %u %U %i %c and %k, and %% is a percent sign",
    );
    for (text, place) in [
        ("v \"5%\"", 4),
        ("v %", 2),
        ("v % a", 2),
        ("v a%%%", 5),
        ("v %\t", 2),
    ] {
        told(
            text,
            place,
            "a single \"%\" is no code; write %% for a percent sign",
        );
    }
    told(
        "v %x",
        2,
        "%x is no code; the codes are %f %F %u %U %i %c and %k, and %% is a percent sign",
    );
    told(
        "%f",
        0,
        "%f cannot stand in the program's name; write the program first",
    );
    told(
        "v%d",
        1,
        "%d cannot stand in the program's name; write the program first",
    );
    for code in ["%F", "%U", "%i"] {
        let words = format!("{code} must be an argument of its own; put spaces round it");
        told(&format!("v a{code}"), 3, &words);
        told(&format!("v {code}%%"), 2, &words);
    }
    for (codes, earlier) in [
        ("%f %u", "%f"),
        ("%F %u", "%F"),
        ("%u\u{20}%u", "%u"),
        ("%%%f %u", "%f"),
    ] {
        let words = format!("%u is a second code for files, after {earlier}; only one of %f %F %u %U may stand in Exec");
        told(&format!("v {codes}"), codes.len(), &words);
    }
}

/// All sequences of up to `most` of these.
fn sequences(of: &[&[u8]], most: usize) -> Vec<Vec<u8>> {
    let mut all = vec![Vec::new()];
    let mut longest = all.clone();
    for _ in 0..most {
        let longer = |start: &Vec<u8>| -> Vec<Vec<u8>> {
            of.iter().map(|end| [start, *end].concat()).collect()
        };
        longest = longest.iter().flat_map(longer).collect();
        all.extend_from_slice(&longest);
    }
    all
}

/// Whether words name the byte at a place of a line, or say that the line ends too early.
fn names(words: &str, line: &[u8], at: usize) -> bool {
    let ends = ["not closed", "no \"=\" after", "ends within"];
    match line.get(at) {
        None => ends.iter().any(|end| words.contains(end)),
        Some(byte) if words.contains("not UTF-8") => words.contains(&format!("0x{byte:02X}")),
        Some(b'"') => words.contains("'\"'"),
        Some(b' ') => words.contains("a space"),
        Some(b'\t') => words.contains("a tab"),
        Some(b'\n') => words.contains("a line feed"),
        Some(b'\r') => words.contains("CR"),
        Some(byte) if byte.is_ascii_graphic() => words.contains(&format!("\"{}\"", *byte as char)),
        Some(byte) => words.contains(&format!("0x{byte:02X}")),
    }
}

/// What words claim of a line besides, and whether it is so.
fn is_so(words: &str, line: &[u8], at: usize) -> bool {
    let before = &line[..at];
    let is_header = line.starts_with(b"[");
    let claims = [
        (
            "ends with CR LF",
            line.ends_with(b"\r") && at + 1 == line.len(),
        ),
        ("cannot start with", at == 0),
        ("no key before", at == 0),
        (
            "is indented",
            before.iter().all(|byte| b" \t".contains(byte)) && at > 0,
        ),
        ("header has no name", before == b"["),
        ("second \"[\" stands", is_header && !before.contains(&b']')),
        (
            "cannot stand in a header",
            is_header && !before.contains(&b']'),
        ),
        ("stands after \"]\"", is_header && before.ends_with(b"]")),
        ("header is not closed", is_header && !line.contains(&b']')),
        (
            "no \"=\" after the key",
            !is_header && !line.contains(&b'='),
        ),
        ("after the key", !is_header && !before.contains(&b'=')),
        (
            "a space stands between",
            before.ends_with(b" ") && line.get(at) == Some(&b'['),
        ),
        (
            "cannot stand in a key",
            before.iter().all(u8::is_ascii_alphanumeric),
        ),
        (
            "[locale] of this key is not closed",
            line.contains(&b'[') && !line.contains(&b']'),
        ),
        (
            "no locale between",
            line[..=at.min(line.len() - 1)].ends_with(b"[]"),
        ),
        (
            "locale is not finished",
            before.last().is_some_and(|byte| b"_.@".contains(byte)),
        ),
        (
            "here in a locale",
            before.contains(&b'[') && !before.contains(&b']'),
        ),
        (
            "stands in the value",
            before.contains(&b'=') && std::str::from_utf8(before).is_ok(),
        ),
        (
            "not UTF-8",
            std::str::from_utf8(&line[..line.len().min(at + 1)]).is_err(),
        ),
    ];
    let mut made = claims
        .iter()
        .filter(|(claim, _)| words.contains(claim))
        .peekable();
    made.peek().is_some() && made.all(|(_, is_so)| *is_so)
}

#[test]
fn words_for_all_short_lines() {
    let bytes: Vec<&[u8]> = b"[]=# \t\rk_.;\"\x01\xC3\xA4\xE0".chunks(1).collect();
    let mut count = 0;
    for start in [
        &b""[..],
        b"[k",
        b"k[",
        b"k[k_",
        b"k[k]",
        b"k ",
        b"k=",
        b"k=\xE0",
    ] {
        let most = if start.is_empty() { 4 } else { 3 };
        for end in sequences(&bytes, most) {
            let line = [start, &end].concat();
            let refusal = check(&line).err();
            if refusal.is_none_or(|refusal| refusal.kind != Kind::BadLine) {
                continue;
            }
            let (at, words) = bad(&line);
            assert!(
                words != Kind::BadLine.words() && names(&words, &line, at),
                "{}:{at}: {words}",
                line.escape_ascii()
            );
            assert!(
                is_so(&words, &line, at),
                "{}:{at}: {words}",
                line.escape_ascii()
            );
            count += 1;
        }
    }
    assert!(count > 50_000, "{count}");
}

#[test]
fn words_for_all_short_commands() {
    let parts = [
        "a", " ", "\"", "'", "\\", "$", "%", "f", "F", "x", "=", "\t", "\u{E4}", "%%", "%u ",
    ];
    let parts: Vec<&[u8]> = parts.iter().map(|part| part.as_bytes()).collect();
    let mut count = 0;
    for start in ["", "v ", "v \"", "v %f "] {
        for end in sequences(&parts, 4 - start.len().min(1)) {
            let text = [start.as_bytes(), &end].concat();
            let Some((kind, at, words)) = told_of_exec(&text) else {
                continue;
            };
            assert!(words != kind.words(), "{}: {words}", text.escape_ascii());
            let is_named = match kind {
                Kind::BadCode => words.contains('%') && text[at] == b'%',
                _ => words.contains("names no program") || names(&words, &text, at),
            };
            assert!(is_named, "{}:{at}: {words}", text.escape_ascii());
            count += 1;
        }
    }
    assert!(count > 20_000, "{count}");
}
