//! Every fault of a file is told, and nothing that is none.

use kveldrim::complete;

use super::*;

/// Line and number of each fault of a file; 0 where there is no line.
fn told(file: &[u8]) -> Vec<(usize, u32)> {
    let faults = all(file, complete);
    let told = faults
        .iter()
        .map(|fault| (fault.line.unwrap_or(0), fault.kind.number()));
    told.collect()
}

#[track_caller]
fn tells(lines: &[&str], expected: &[(usize, u32)]) {
    assert_eq!(told(lines.join("\n").as_bytes()), expected);
}

const GOOD: [&str; 4] = ["[Desktop Entry]", "Type=Directory", "Name=n", "Name[de]=m"];

/// These lines after a good start, which takes four lines.
#[track_caller]
fn tells_after(lines: &[&str], expected: &[(usize, u32)]) {
    tells(&[&GOOD, lines].concat(), expected);
}

#[test]
fn a_good_file_has_none() {
    tells(&GOOD, &[]);
    tells_after(&["", "#[a", " \t", "[a]", "k=", "k[de]=", "[b]", "k="], &[]);
}

#[test]
fn each_line_of_a_windows_file() {
    tells(
        &[
            "[Desktop Entry]\r",
            "Type=Directory\r",
            "\r",
            "# a\r",
            "Name=n\r",
            "",
        ],
        &[(1, 2), (2, 2), (3, 2), (5, 2)],
    );
    tells(
        &[
            "\u{FEFF}[Desktop Entry]\r",
            "Type=x\r",
            "Name=n\r",
            "Name=n\r",
            "b[de]=\r",
            "[a\r",
        ],
        &[
            (1, 2),
            (1, 2),
            (2, 2),
            (2, 18),
            (3, 2),
            (4, 2),
            (4, 5),
            (5, 2),
            (5, 6),
            (6, 2),
            (6, 2),
        ],
    );
    let faults = all(b"\xEF\xBB\xBF[Desktop Entry]\r\n", check);
    assert_eq!(
        faults.iter().map(|fault| fault.byte).collect::<Vec<_>>(),
        [Some(0), Some(18)]
    );
}

#[test]
fn a_bad_entry_keeps_its_key() {
    for line in [
        "Name=a\u{1}b",
        "Name\t=x",
        "  Name=x",
        "Name",
        "Name=\t",
        "Name x",
        "Name:x",
        "Name\0=x",
    ] {
        tells(
            &["[Desktop Entry]", "Type=Directory", line, "Name[de]=x"],
            &[(3, 2)],
        );
    }
    // The locale of a bad line is no plain key, and another key is none.
    for line in ["Name[d e]=x", "Name [de]=x", "Na me=x", "Name[fr"] {
        tells(
            &["[Desktop Entry]", "Type=Directory", line, "Name[de]=x"],
            &[(3, 2), (4, 6), (0, 18)],
        );
    }
    // Neither of two lines is told as a repeat where one is a guess.
    tells_after(&["k\t=1", "k=2", "l=1", "l\t=2"], &[(5, 2), (8, 2)]);
}

#[test]
fn a_bad_header_counts_as_what_was_meant() {
    for header in [
        "[Desktop Entry] ",
        "[Desktop Entry]x",
        "[Desktop Entry",
        " [Desktop Entry]",
    ] {
        tells(&[header, "Type=Directory", "Name=x"], &[(1, 2)]);
        tells(&[header, "Type=Directory"], &[(1, 2), (0, 18)]);
    }
    tells_after(&["[a]x", "k=1", "[b]", "k[de]=1"], &[(5, 2), (8, 6)]);
    // What follows is a group of its own, whatever its name.
    for header in ["[]", "[\u{E4}]", "[a[b]", "[a\tb]"] {
        tells_after(
            &[header, "Name=x", "k[de]=x", header, "Name=x"],
            &[(5, 2), (7, 6), (8, 2)],
        );
        tells(
            &[header, "Type=x", "[a]", "[a]", "[Desktop Entry]"],
            &[(1, 2), (4, 4)],
        );
    }
    // A repeat is not told where one of the two is a guess.
    tells_after(&["[a]x", "[a]", "[b]", "[b]x"], &[(5, 2), (8, 2)]);
}

#[test]
fn repeats() {
    tells_after(
        &["[a]", "k=", "[a]", "k=", "[a]", "k=", "k=", "k="],
        &[(7, 4), (9, 4), (11, 5), (12, 5)],
    );
    tells_after(&["k[de]=", "k[de]=", "k=", "k="], &[(6, 5), (8, 5)]);
    // The plain key of a repeated group may stand in the other of its name, before or behind.
    tells_after(
        &["[a]", "k=", "l[de]=", "[a]", "k[de]=", "l=", "m[de]="],
        &[(8, 4), (11, 6)],
    );
    // So may a key that is needed.
    tells(
        &[
            "[Desktop Entry]",
            "Type=Link",
            "[Desktop Entry]",
            "Name=n",
            "URL=u",
        ],
        &[(3, 4)],
    );
}

#[test]
fn what_comes_first() {
    tells(
        &["[a]", "Type=x", "[Desktop Entry]", "[b]", "[b]", "[a]"],
        &[(1, 3), (5, 4), (6, 4)],
    );
    tells(
        &["[a]", "[a]", "[Desktop Entry]", "[Desktop Entry]"],
        &[(1, 3), (2, 4), (4, 4)],
    );
    tells(&["[a]", "k=", "k=", "[b]"], &[(1, 3), (3, 5)]);
    tells(
        &["Type=x", "k[de]=", "Type=x", "[Desktop Entry]", "k=", "k="],
        &[(1, 3), (6, 5)],
    );
    tells(&["k=", "[a]", "k="], &[(1, 3)]);
    tells(&["k=", "", "l="], &[(1, 3)]);
    // A bad line before may have been meant as the header.
    tells(
        &["]Desktop Entry]", "k=", "[a]", "k=", "k="],
        &[(1, 2), (5, 5)],
    );
    tells(&["", "# a"], &[(0, 3)]);
    tells(&["="], &[(1, 2)]);
    assert_eq!(told(b""), [(0, 3)]);
    assert_eq!(told(&vec![b'\n'; 32_769]), [(0, 1)]);
    assert_eq!(told(b"[Desktop Entry]\rType=Link\rName=n\r"), [(1, 2)]);
}

#[test]
fn what_is_needed() {
    tells(&["[Desktop Entry]"], &[(0, 18), (0, 18)]);
    tells(
        &["[Desktop Entry]", "Type=Application"],
        &[(0, 18), (0, 18)],
    );
    tells(&["[Desktop Entry]", "Type=Link", "Name=n"], &[(0, 18)]);
    // Whether Exec or URL is needed is not known without Type.
    tells(
        &[
            "[Desktop Entry]",
            "Type=Foo",
            "Hidden=1",
            "Terminal=",
            "[a]",
            "Hidden=1",
        ],
        &[(2, 18), (3, 18), (4, 18), (0, 18)],
    );
    tells(&["[Desktop Entry]", "Type\t=Link", "Name=n"], &[(2, 2)]);
    tells(
        &["[Desktop Entry]", "Type=Link", "Type=Directory", "Name=n"],
        &[(3, 5)],
    );
    tells(
        &[
            "[Desktop Entry]",
            "Type=Application",
            "Name=n",
            "DBusActivatable=tr\tue",
        ],
        &[(4, 2)],
    );
    tells(
        &[
            "[Desktop Entry]",
            "Type=Application",
            "Name=n",
            "DBusActivatable=yes",
        ],
        &[(4, 18), (0, 18)],
    );
    // A value is not told of a bad line.
    tells_after(
        &["Hidden=1\t", "Terminal\t=1", "NoDisplay=1"],
        &[(5, 2), (6, 2), (7, 18)],
    );
    assert!(all(b"[Desktop Entry]\nType=x\n", check).is_empty());
}

/// The words speak of the lines of the file, not of the parts that were asked.
#[test]
fn words_name_the_lines_of_the_file() {
    let lines = [
        "[b]",
        "x",
        "[a]x",
        "[Desktop Entry]",
        "k=",
        "[b]",
        "l=",
        "k=",
        "l=",
        "[Desktop Entry]",
        "[]",
        "l=",
        "m[de]=",
        "l=",
    ];
    let faults = all(lines.join("\n").as_bytes(), check);
    let told = faults.iter().filter(|fault| fault.kind != Kind::BadLine);
    let told: Vec<(usize, &str)> = told
        .map(|fault| (fault.line.unwrap(), &*fault.words))
        .collect();
    let expected = [
        (
            1,
            "the first header must be [Desktop Entry], but this is [b]",
        ),
        (
            6,
            "the group b starts in line 1 already; put its entries there",
        ),
        (
            9,
            "the key l stands in this group already, in line 7; keep one of the two",
        ),
        (
            10,
            "the group Desktop Entry starts in line 4 already; put its entries there",
        ),
        (
            13,
            "m[de] needs the key m without a [locale] beside it in its group; add m=",
        ),
        (
            14,
            "the key l stands in this group already, in line 12; keep one of the two",
        ),
    ];
    assert_eq!(told, expected);
}

/// Numbers that look random and are the same in each run.
struct Numbers(u64);

impl Numbers {
    fn below(&mut self, end: usize) -> usize {
        self.0 ^= self.0 << 13;
        self.0 ^= self.0 >> 7;
        self.0 ^= self.0 << 17;
        (self.0 % end as u64) as usize
    }

    fn one_of<T: Copy>(&mut self, of: &[T]) -> T {
        of[self.below(of.len())]
    }
}

/// A line and the numbers of the faults that were planted in it.
type Planted = (String, Vec<u32>);

/// A good file of several groups.
fn good_file(numbers: &mut Numbers) -> Vec<Planted> {
    let mut lines: Vec<String> = vec![
        "# a".into(),
        "[Desktop Entry]".into(),
        "Type=Link".into(),
        "URL=u".into(),
    ];
    lines.extend([
        "Terminal=false".into(),
        "Hidden = true".into(),
        "Name=n".into(),
    ]);
    for group in 0..numbers.below(4) {
        lines.push(format!("[Group {group}]"));
        for key in 0..1 + numbers.below(4) {
            let mut entries = vec![
                format!("Key{key}=v"),
                format!("Key{key}[de] = w"),
                format!("Key{key}[fr]="),
            ];
            entries.truncate(1 + numbers.below(3));
            if numbers.below(2) == 0 {
                entries.reverse();
            }
            lines.extend(entries);
            lines.extend(
                numbers
                    .one_of(&[None, Some(""), Some("#[x")])
                    .map(String::from),
            );
        }
    }
    lines.into_iter().map(|line| (line, Vec::new())).collect()
}

/// Plants a fault that has nothing to do with others.
fn plant(lines: &mut Vec<Planted>, numbers: &mut Numbers, serial: usize) {
    let first = lines
        .iter()
        .position(|(line, _)| line.contains("[Desktop Entry]"))
        .unwrap();
    let at = first + 1 + numbers.below(lines.len() - first);
    let one = |line: String, number: u32| (line, vec![number]);
    match numbers.below(9) {
        0 => {
            let bad = [
                "=x",
                "Zz{}: x",
                "Zz{}\t=x",
                " Zz{}=x",
                "Zz{}",
                "Zz{}=\u{1}",
                "Zz{}[=x",
                "\u{E4}=x",
                "Zz{}=a\tb\r",
                "Zz{} x",
            ];
            let line = numbers.one_of(&bad).replace("{}", &serial.to_string());
            lines.insert(at, one(line, 2));
        }
        1 => {
            let end = numbers.one_of(&["", " ", "x", "]"]);
            let open = if end.is_empty() { "" } else { "]" };
            lines.push(one(format!("[Bad {serial}{open}{end}"), 2));
        }
        2 => {
            let (line, planted) = &mut lines[at - 1];
            if !planted.is_empty() || line.is_empty() || line.starts_with('#') {
                return;
            }
            line.push('\r');
            planted.push(2);
        }
        3 => lines.insert(at, one(format!("No{serial}[de]=x"), 6)),
        4 => {
            lines.push((format!("[Twice {serial}]"), vec![]));
            lines.push(("Q[de]=x".into(), vec![]));
            lines.push(one(format!("[Twice {serial}]"), 4));
            lines.push(("Q=x".into(), vec![]));
        }
        5 => {
            lines.insert(at, (format!("Dup{serial}=x"), vec![]));
            lines.insert(at + 1, one(format!("Dup{serial} = y"), 5));
        }
        6 => {
            let value = numbers.one_of(&["Terminal=0", "Hidden=TRUE"]);
            let key = value.split('=').next().unwrap();
            let found = lines
                .iter_mut()
                .find(|(line, planted)| line.starts_with(key) && planted.is_empty());
            if let Some((line, planted)) = found {
                *line = value.into();
                planted.push(18);
            }
        }
        7 => {
            let found = lines
                .iter()
                .position(|(line, planted)| line == "Name=n" && planted.is_empty());
            if let Some(found) = found {
                lines.remove(found);
            }
        }
        _ => {
            let line = numbers.one_of(&["Stray{}=x", "Stray{}[de]=x"]);
            lines.insert(
                numbers.below(first + 1),
                one(line.replace("{}", &serial.to_string()), 3),
            );
        }
    }
}

/// What was planted: of entries before the first header the first, and 18 only where there are none.
fn planted(lines: &[Planted]) -> Vec<(usize, u32)> {
    let is_first = !lines.iter().any(|(_, planted)| planted.contains(&3));
    let is_asked = |number: u32| is_first || number != 18;
    let mut expected: Vec<(usize, u32)> = Vec::new();
    for ((_, planted), number) in lines.iter().zip(1..) {
        expected.extend(
            planted
                .iter()
                .filter(|fault| is_asked(**fault))
                .map(|fault| (number, *fault)),
        );
    }
    let first = expected.iter().find(|(_, number)| *number == 3).copied();
    expected.retain(|fault| fault.1 != 3 || Some(*fault) == first);
    let has_name = lines.iter().any(|(line, _)| line.trim_end() == "Name=n");
    expected.extend((!has_name && is_first).then_some((0, 18)));
    expected
}

#[test]
fn just_the_faults_that_were_planted() {
    let mut numbers = Numbers(7);
    let mut most = 0;
    for _ in 0..4_000 {
        let mut lines = good_file(&mut numbers);
        for serial in 0..numbers.below(8) {
            plant(&mut lines, &mut numbers, serial);
        }
        let text: Vec<&str> = lines.iter().map(|(line, _)| &**line).collect();
        let file = [&text.join("\n"), "\n"].concat();
        let expected = planted(&lines);
        assert_eq!(told(file.as_bytes()), expected, "{}", file.escape_debug());
        most = most.max(expected.len());
    }
    assert!(most >= 7);
}

/// Files of any lines: all is well where the core says so, and what it tells first is told.
#[test]
fn what_the_core_tells_first_is_told() {
    let pool = [
        "[Desktop Entry]",
        "[Desktop Entry]",
        "[a]",
        "[a]",
        "[b]",
        "[a",
        "[]",
        "[a] ",
        "[Desktop Entry]\r",
        "Type=Link",
        "Type=x",
        "Type\t=",
        "Name=n",
        "Name[de]=n",
        "Name=n\r",
        " Name=n",
        "URL=",
        "URL=\t",
        "Exec=",
        "Hidden=true",
        "Hidden=1",
        "Terminal",
        "k=",
        "k[de]=",
        "k[fr]=",
        "k[",
        "=",
        "",
        "#",
        " \t",
        "x y",
        "\u{FEFF}",
        "\r",
    ];
    let mut numbers = Numbers(3);
    let mut good = 0;
    for round in 0..60_000 {
        let length = numbers.below(9);
        let mut lines: Vec<&str> = (0..length).map(|_| numbers.one_of(&pool)).collect();
        if round % 2 == 0 {
            lines.splice(0..0, GOOD);
        }
        let file = lines.join("\n");
        let faults = all(file.as_bytes(), complete);
        assert!(faults.len() <= 4 * lines.len() + 10);
        assert!(faults
            .iter()
            .all(|fault| fault.line.is_none_or(|line| line <= lines.len() + 1)));
        match complete(file.as_bytes()) {
            Ok(()) => {
                good += 1;
                assert!(faults.is_empty(), "{file:?}");
            }
            Err(refusal) => {
                let first = Fault::of(file.as_bytes(), refusal);
                let same = |fault: &&Fault| {
                    (fault.kind, fault.line, fault.byte) == (first.kind, first.line, first.byte)
                };
                let found = faults.iter().find(same).expect(&file);
                assert_eq!(found.words, first.words, "{file:?}");
            }
        }
    }
    assert!(good > 500, "{good}");
}

/// The worst files end soon too.
#[test]
fn files_of_nothing_but_faults_end() {
    let full = |line: &str| {
        let mut file = b"[Desktop Entry]\n".to_vec();
        while file.len() + line.len() <= FILE_BOUND {
            file.extend(line.as_bytes());
        }
        file
    };
    for (line, faults) in [
        ("=\n", 16_376),
        ("k=\n", 10_916),
        ("[a]\n", 8_187),
        ("k[a]=\n", 5_458),
        ("[a]\nk[b]=\n", 2 * 3_275 - 1),
    ] {
        let file = full(line);
        assert_eq!(all(&file, check).len(), faults, "{line:?}");
    }
}
