//! Times the library against GLib's GKeyFile and GDesktopAppInfo, from bytes in memory to answers, and prints a table.
//! `cargo run --release --offline [FOLDER]`; the folder of .desktop files is /usr/share/applications if none is given.

mod actions;
mod glib;
mod renames;

use std::ffi::{CStr, CString, OsStr};
use std::hint::black_box;
use std::os::unix::ffi::OsStrExt;
use std::time::{Duration, Instant};
use std::{env, fs};

use actions::Actions;
use glib::KeyFile;
use kveldrim::DESKTOP_ENTRY;
use renames::Renames;

/// Nine keys that a launcher asks for.
const NINE: [&CStr; 9] = [
    c"Type",
    c"Name",
    c"GenericName",
    c"Comment",
    c"Icon",
    c"Exec",
    c"Terminal",
    c"Categories",
    c"NoDisplay",
];

const LOCALE: &CStr = c"de_AT.UTF-8";

const ROUNDS: usize = 101;

/// A file, and what is asked of it.
struct Input {
    bytes: Vec<u8>,
    nine: [CString; 9],
    /// The keys whose text is read, and where their raw values stand.
    texts: Vec<(CString, std::ops::Range<usize>)>,
}

impl Input {
    /// The file with its questions, if both accept it.
    fn new(bytes: Vec<u8>, nine: [CString; 9]) -> Option<Input> {
        kveldrim::check(&bytes).ok()?;
        KeyFile::load(&bytes)?;
        let texts = nine.iter().filter_map(|key| {
            let ends = kveldrim::lookup_ends(&bytes, DESKTOP_ENTRY, key.to_bytes()).ok()?;
            kveldrim::read_text_vec(&bytes[ends.clone()]).ok()?;
            Some((key.clone(), ends))
        });
        let texts = texts.collect();
        Some(Input { bytes, nine, texts })
    }
}

fn main() {
    // GDesktopAppInfo takes its locale from here.
    env::remove_var("LANGUAGE");
    env::set_var("LC_ALL", OsStr::from_bytes(LOCALE.to_bytes()));
    let folder = env::args_os().nth(1);
    let folder = folder.unwrap_or("/usr/share/applications".into());
    let real = real_files(&folder);
    let short = short_keys();
    let same_ends = same_ends();
    let long = long_value();
    let renames = Renames::new();
    let actions = Actions::all(&real.0);
    let refused = real.1;
    println!(
        "{} real files, {refused} more left out (refused by one of both)",
        real.0.len()
    );
    println!(
        "the 32 KB file of short keys has {} keys, the one of long keys {}",
        short.1, same_ends.1
    );
    agree(&real.0);
    agree(&short.0);
    renames.agree();
    actions.iter().for_each(Actions::agree);
    println!();
    println!("| input | call | Kveldrim, µs a file | GLib, µs a file | GLib / Kveldrim |");
    println!("|---|---|---:|---:|---:|");
    if !real.0.is_empty() {
        table("real files", &real.0);
        read_text("real files", &real.0);
    }
    table("32 KB of short keys", &short.0);
    table(
        "32 KB of long keys, alike at start, middle and end",
        &same_ends.0,
    );
    read_text("one value of 30 KB", &long);
    renames.rows();
    actions.iter().for_each(Actions::row);
}

/// The rows of calls on whole files.
fn table(name: &str, inputs: &[Input]) {
    let mut out = vec![0; kveldrim::FILE_BOUND];
    row(
        name,
        "check",
        inputs,
        |input| {
            let _ = black_box(kveldrim::check(black_box(&input.bytes)));
        },
        |input| drop(black_box(KeyFile::load(black_box(&input.bytes)))),
    );
    row(
        name,
        "nine lookups",
        inputs,
        |input| {
            for key in &input.nine {
                let found =
                    kveldrim::lookup(black_box(&input.bytes), DESKTOP_ENTRY, key.to_bytes());
                let _ = black_box(found);
            }
        },
        |input| {
            let file = KeyFile::load(black_box(&input.bytes));
            for key in &input.nine {
                black_box(file.as_ref().and_then(|file| file.value(key)));
            }
        },
    );
    row(
        name,
        "choice, its text read",
        inputs,
        |input| {
            let (key, locale) = (input.nine[1].to_bytes(), LOCALE.to_bytes());
            let chosen = kveldrim::choose(black_box(&input.bytes), DESKTOP_ENTRY, key, locale);
            let _ = black_box(chosen.and_then(|raw| kveldrim::read_text(raw, &mut out)));
        },
        |input| {
            let file = KeyFile::load(black_box(&input.bytes));
            black_box(file.and_then(|file| file.chosen(&input.nine[1], LOCALE)));
        },
    );
}

/// Reading text alone: the library gets raw values, GLib the keys of a file that it has read before.
fn read_text(name: &str, inputs: &[Input]) {
    let mut out = vec![0; kveldrim::FILE_BOUND];
    let mut loaded = inputs
        .iter()
        .filter_map(|input| KeyFile::load(&input.bytes))
        .collect::<Vec<_>>();
    let loaded: Vec<(&Input, KeyFile)> = inputs.iter().zip(loaded.drain(..)).collect();
    row(
        name,
        "read text",
        &loaded,
        |(input, _)| {
            for (_, ends) in &input.texts {
                let raw = black_box(&input.bytes[ends.clone()]);
                let _ = black_box(kveldrim::read_text(raw, &mut out));
            }
        },
        |(input, file)| {
            for (key, _) in &input.texts {
                black_box(file.text(black_box(key)));
            }
        },
    );
}

/// Times both in turn, many rounds, and prints the medians.
fn row<A>(name: &str, call: &str, inputs: &[A], ours: impl FnMut(&A), theirs: impl FnMut(&A)) {
    timed(ROUNDS, name, call, inputs, ours, theirs);
}

/// As [`row`], so many rounds.
fn timed<A>(
    rounds: usize,
    name: &str,
    call: &str,
    inputs: &[A],
    mut ours: impl FnMut(&A),
    mut theirs: impl FnMut(&A),
) {
    let passes = passes(inputs, &mut theirs);
    let mut times = [Vec::new(), Vec::new()];
    for _ in 0..rounds {
        times[0].push(pass(inputs, passes, &mut ours));
        times[1].push(pass(inputs, passes, &mut theirs));
    }
    let [ours, theirs] = times.map(|mut times| {
        times.sort();
        times[rounds / 2].as_secs_f64() * 1e6 / (passes * inputs.len()) as f64
    });
    println!(
        "| {name} | {call} | {ours:.2} | {theirs:.2} | {:.2} |",
        theirs / ours
    );
}

/// How many passes over the inputs take about two milliseconds.
fn passes<A>(inputs: &[A], call: &mut impl FnMut(&A)) -> usize {
    let mut passes = 1;
    while pass(inputs, passes, call) < Duration::from_millis(2) {
        passes *= 2;
    }
    passes
}

fn pass<A>(inputs: &[A], passes: usize, call: &mut impl FnMut(&A)) -> Duration {
    let start = Instant::now();
    for _ in 0..passes {
        for input in inputs {
            call(input);
        }
    }
    start.elapsed()
}

/// Says how often the two differ in a value, a chosen text or a text; they are only comparable if that is rare.
fn agree(inputs: &[Input]) {
    let (mut asked, mut differ) = (0, 0);
    for input in inputs {
        let Some(file) = KeyFile::load(&input.bytes) else {
            continue;
        };
        for key in &input.nine {
            let ours = kveldrim::lookup(&input.bytes, DESKTOP_ENTRY, key.to_bytes()).ok();
            let theirs = file.value(key);
            asked += 1;
            differ += usize::from(ours != theirs.as_ref().map(glib::Made::bytes));
        }
        let chosen = kveldrim::choose(
            &input.bytes,
            DESKTOP_ENTRY,
            input.nine[1].to_bytes(),
            LOCALE.to_bytes(),
        );
        let ours = chosen
            .ok()
            .and_then(|raw| kveldrim::read_text_vec(raw).ok());
        let theirs = file.chosen(&input.nine[1], LOCALE);
        asked += 1;
        differ += usize::from(ours.as_deref() != theirs.as_ref().map(glib::Made::bytes));
    }
    println!("{asked} answers compared, {differ} differ");
}

/// The .desktop files of a folder, and how many are left out.
fn real_files(folder: &OsStr) -> (Vec<Input>, usize) {
    let entries = fs::read_dir(folder).into_iter().flatten().flatten();
    let mut paths: Vec<_> = entries
        .map(|entry| entry.path())
        .filter(|path| path.extension().is_some_and(|end| end == "desktop"))
        .collect();
    paths.sort();
    let files: Vec<_> = paths
        .iter()
        .filter_map(|path| fs::read(path).ok())
        .collect();
    let count = files.len();
    let nine = NINE.map(CStr::to_owned);
    let inputs: Vec<_> = files
        .into_iter()
        .filter_map(|bytes| Input::new(bytes, nine.clone()))
        .collect();
    let left_out = count - inputs.len();
    (inputs, left_out)
}

/// A file of 32,768 bytes with as many keys as fit.
fn short_keys() -> (Vec<Input>, usize) {
    synthetic(short_key)
}

/// The number-th shortest key: all of one byte, then all of two, and so on.
fn short_key(number: usize) -> Vec<u8> {
    const BYTES: &[u8] = b"ABCDEFGHIJKLMNOPQRSTUVWXYZabcdefghijklmnopqrstuvwxyz0123456789-";
    let mut key = Vec::new();
    let mut rest = number + 1;
    while rest > 0 {
        rest -= 1;
        key.push(BYTES[rest % BYTES.len()]);
        rest /= BYTES.len();
    }
    key
}

/// A file of as many bytes whose keys differ only between start, middle and end: the worst that is known for the check.
fn same_ends() -> (Vec<Input>, usize) {
    synthetic(|number| format!("abcdefgh{number:05}abcdefgh{number:05}abcdefgh").into())
}

/// A full file of keys without values; the nine asked are spread over it.
fn synthetic(key: impl Fn(usize) -> Vec<u8>) -> (Vec<Input>, usize) {
    let mut bytes = b"[Desktop Entry]\n".to_vec();
    let mut keys = Vec::new();
    loop {
        let name = key(keys.len());
        if bytes.len() + name.len() + 2 > kveldrim::FILE_BOUND {
            break;
        }
        bytes.extend([&name[..], b"=\n"].concat());
        keys.push(name);
    }
    let nine = std::array::from_fn(|at| {
        CString::new(keys[at * (keys.len() - 1) / 8].clone()).unwrap_or_default()
    });
    (Input::new(bytes, nine).into_iter().collect(), keys.len())
}

/// A file with a single value, of words and escapes.
fn long_value() -> Vec<Input> {
    let mut bytes = b"[Desktop Entry]\nName=".to_vec();
    while bytes.len() < 30_000 {
        bytes.extend(b"words and more words\\n\\\\");
    }
    bytes.push(b'\n');
    Input::new(bytes, NINE.map(CStr::to_owned))
        .into_iter()
        .collect()
}
