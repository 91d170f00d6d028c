//! Generated questions, seeded: the library and the reference must agree on every one. See `compare::run` for replaying.

use compare::asker::Asker;
use compare::case::Case;
use compare::files;
use compare::pieces::{self, BORDERS, UTF8_BORDERS};
use compare::run::{came_up, run, run_with_encodings, Outcomes};

const SOUND: u64 = 60_000;
const SPOILT: u64 = 120_000;
const LINES: u64 = 80_000;
const WILD: u64 = 40_000;
const COMPLETE: u64 = 40_000;
const LANGUAGES: u64 = 40_000;
const TEXTS: u64 = 120_000;
const LONGER: u64 = 1_500;
const HUNDREDS: u64 = 2_000;
const THOUSANDS: u64 = 200;
const NEAR_BOUND: u64 = 400;
const LONG_NAMES: u64 = 4_000;
const LONG_TEXTS: u64 = 300;

const _: () = assert!(SOUND + SPOILT + LINES + WILD + COMPLETE + LANGUAGES + TEXTS >= 200_000);

const OUTPUTS: Outcomes = &[
    ("read_text", &[0, 9, 11]),
    ("write_text", &[0, 10, 11]),
    ("read_list", &[0, 9, 11]),
];

#[test]
fn sound_files() {
    let outcomes: Outcomes = &[
        ("check", &[0]),
        ("complete", &[0, 18]),
        ("lookup", &[0, 7, 8]),
        ("choose", &[0, 7, 8]),
    ];
    run("sound_files", SOUND, outcomes, |random| {
        let file = files::sound(random, 4, 6);
        Case::File(files::asked(file, 3, random))
    });
}

#[test]
fn spoilt_files() {
    let outcomes: Outcomes = &[
        ("check", &[0, 2, 3, 4, 5, 6]),
        ("complete", &[0, 2, 3, 4, 5, 6, 18]),
        ("lookup", &[0, 2, 3, 4, 5, 6, 7, 8]),
        ("choose", &[0, 2, 3, 4, 5, 6, 7, 8]),
    ];
    run("spoilt_files", SPOILT, outcomes, |random| {
        let mut file = files::sound(random, 4, 5);
        for _ in 0..random.within(1, 2) {
            files::spoil(&mut file, random);
        }
        Case::File(files::asked(file, 2, random))
    });
}

#[test]
fn lines_of_all_kinds() {
    let outcomes: Outcomes = &[("check", &[0, 2, 3, 4, 5, 6])];
    run("lines_of_all_kinds", LINES, outcomes, |random| {
        let file = files::lines(random);
        Case::File(files::asked(file, 1, random))
    });
}

#[test]
fn wild_files() {
    let outcomes: Outcomes = &[("check", &[0, 2, 3])];
    run("wild_files", WILD, outcomes, |random| {
        let mut file = pieces::wild(random, 60);
        if random.once_in(2) {
            file.splice(0..0, *b"[Desktop Entry]\n");
        }
        Case::File(files::asked(file, 1, random))
    });
}

#[test]
fn nearly_complete_files() {
    let outcomes: Outcomes = &[("complete", &[0, 2, 3, 5, 6, 18])];
    run("nearly_complete_files", COMPLETE, outcomes, |random| {
        let mut file = files::nearly_complete(random);
        if random.once_in(4) {
            files::spoil(&mut file, random);
        }
        Case::File(files::asked(file, 1, random))
    });
}

#[test]
fn languages() {
    let outcomes: Outcomes = &[("lookup", &[0, 7, 8]), ("choose", &[0, 7, 8])];
    let choices = [("choose", 3_000)];
    run_with_encodings("languages", LANGUAGES, outcomes, &choices, |random| {
        let file = files::many_languages(random);
        Case::File(files::asked(file, 4, random))
    });
}

#[test]
fn longer_files() {
    let outcomes: Outcomes = &[("check", &[0, 2, 5, 6]), ("lookup", &[0, 8])];
    run("longer_files", LONGER, outcomes, |random| {
        let mut file = files::sound(random, 30, 40);
        if random.once_in(2) {
            files::spoil(&mut file, random);
        }
        Case::File(files::asked(file, 2, random))
    });
}

#[test]
fn hundreds_of_names() {
    let outcomes: Outcomes = &[("check", &[0, 4, 5, 6]), ("lookup", &[0, 8])];
    run("hundreds_of_names", HUNDREDS, outcomes, |random| {
        let file = files::many_names(random, 4_000);
        Case::File(files::asked(file, 2, random))
    });
}

#[test]
fn thousands_of_names() {
    let outcomes: Outcomes = &[("check", &[0, 4, 5, 6]), ("lookup", &[0])];
    run("thousands_of_names", THOUSANDS, outcomes, |random| {
        let file = files::many_names(random, 32_768);
        Case::File(files::asked(file, 1, random))
    });
}

#[test]
fn files_near_the_bound() {
    let outcomes: Outcomes = &[("check", &[0, 1, 2]), ("lookup", &[0, 1])];
    run("files_near_the_bound", NEAR_BOUND, outcomes, |random| {
        let file = files::near_bound(random);
        Case::File(files::asked(file, 2, random))
    });
}

#[test]
fn long_names() {
    let outcomes: Outcomes = &[
        ("check", &[0, 1, 5]),
        ("lookup", &[0, 7, 8]),
        ("choose", &[0, 7, 8]),
    ];
    let choices = [("choose", 100)];
    run_with_encodings("long_names", LONG_NAMES, outcomes, &choices, |random| {
        Case::File(files::long_names(random))
    });
}

#[test]
fn texts() {
    run("texts", TEXTS, OUTPUTS, |random| {
        Case::Text(pieces::text(random))
    });
}

#[test]
fn long_texts() {
    run("long_texts", LONG_TEXTS, OUTPUTS, |random| {
        Case::Text(files::long_text(random))
    });
}

/// Every four bytes of those that decide what UTF-8 is: as text, and as the value of an entry.
#[test]
fn utf8_borders() {
    let mut asker = Asker::new(1);
    let kinds = UTF8_BORDERS.len();
    for number in 0..kinds.pow(4) {
        let at = |power| UTF8_BORDERS[number / kinds.pow(power) % kinds];
        let bytes = [at(0), at(1), at(2), at(3)];
        let file = [b"[Desktop Entry]\nk=", &bytes[..]].concat();
        let compared = asker.write_text(&bytes).and_then(|()| asker.check(&file));
        if let Err(difference) = compared {
            panic!("{}: {difference}", bytes.escape_ascii());
        }
    }
    let outcomes: Outcomes = &[("write_text", &[0, 10, 11]), ("check", &[0, 2])];
    came_up("utf8_borders", &asker.tally, outcomes);
}

/// The bytes that decide what a line is, and where it goes wrong.
const LINE_BYTES: &[u8] = b"[]a=_.@ \t#;\x80\xC3\xE0\x7F";

/// Every line of up to five of them, with its LF and as the last one without, behind good lines.
#[test]
fn short_lines() {
    let mut asker = Asker::new(3);
    let kinds = LINE_BYTES.len();
    for length in 0..=5 {
        for number in 0..kinds.pow(length) {
            let at = |power| LINE_BYTES[number / kinds.pow(power) % kinds];
            let line: Vec<u8> = (0..length).map(at).collect();
            let end: &[u8] = if number % 2 == 0 { b"\n#\n" } else { b"" };
            let file = [b"[Desktop Entry]\nb=\n", &line[..], end].concat();
            if let Err(difference) = asker.check(&file) {
                panic!("{}: {difference}", line.escape_ascii());
            }
        }
    }
    for number in [0, 2] {
        let times = asker.tally.get(&("check", number));
        assert!(times.is_some_and(|times| *times > 50_000), "{number}");
    }
}

/// Every byte of the borders at every place of runs of up to four machine words and more, in text and in every kind of line.
#[test]
fn borders_in_runs() {
    let mut asker = Asker::new(2);
    for length in 1..=40 {
        for at in 0..length {
            for byte in BORDERS {
                let mut run = vec![b'a'; length];
                run[at] = *byte;
                let lines = [
                    &b"[Desktop Entry]\n"[..],
                    b"k=",
                    &run,
                    b"\n",
                    b"#",
                    &run,
                    b"\n",
                ];
                let key = [&b"[Desktop Entry]\n"[..], &run, b"=\n"].concat();
                let postfix = [&b"[Desktop Entry]\nk=\nk["[..], &run, b"]=\n"].concat();
                let header = [&b"[Desktop Entry]\n["[..], &run, b"]\n"].concat();
                let compared = Case::Text(run.clone())
                    .compare(&mut asker)
                    .and_then(|()| asker.check(&lines.concat()))
                    .and_then(|()| asker.check(&key))
                    .and_then(|()| asker.check(&postfix))
                    .and_then(|()| asker.check(&header));
                if let Err(difference) = compared {
                    panic!("{}: {difference}", run.escape_ascii());
                }
            }
        }
    }
    came_up("borders_in_runs", &asker.tally, OUTPUTS);
    came_up("borders_in_runs", &asker.tally, &[("check", &[0, 2])]);
}
