//! Paper 01, "Building a command": Exec is read into arguments, and these are expanded for one run.

use crate::choice::choose;
use crate::file::{check, lookup, DESKTOP_ENTRY};
use crate::locale::is_locale;
use crate::records::{read_records, write_records};
use crate::refusal::{Refusal, LOCATION_BOUND};
use crate::text::unescape;

/// A byte of text or a field code, with its offset in the unescaped value.
#[derive(Debug, Clone, Copy, PartialEq, Eq)]
struct Piece {
    place: usize,
    kind: Kind,
}

/// What a piece is; a code is named by the letter after its `%`.
#[derive(Debug, Clone, Copy, PartialEq, Eq)]
enum Kind {
    Byte(u8),
    Code(u8),
}

/// One argument of Exec before its codes are expanded.
struct Argument {
    quoted: bool,
    pieces: Vec<Piece>,
}

/// A fault of Exec: its place, then 15 or 16, so that the least is the one to tell.
type Fault = (usize, u32);

/// The values of the field codes in one run.
struct Values<'a> {
    items: Vec<&'a [u8]>,
    item: Option<&'a [u8]>,
    name: Vec<u8>,
    icon: Vec<u8>,
    location: &'a [u8],
}

/// The expansion of Exec for one run; the arguments are records of kind 3.
pub fn expand(
    file: &[u8],
    locale: &[u8],
    location: &[u8],
    list: &[u8],
    run: u64,
    out: &mut [u8],
) -> Result<usize, Refusal> {
    let items = read_items(file, locale, location, list)?;
    expand_group(file, DESKTOP_ENTRY, locale, location, items, run, out)
}

/// The expansion of a group's Exec for one run: "its Icon serves the code i, and c stays the application's Name".
pub fn expand_group(
    file: &[u8],
    group: &[u8],
    locale: &[u8],
    location: &[u8],
    items: Vec<&[u8]>,
    run: u64,
    out: &mut [u8],
) -> Result<usize, Refusal> {
    let arguments = read_exec(file, group)?;
    if run >= count_runs(&arguments, &items) {
        return Err(Refusal::new(8));
    }
    // "Then Name, then Icon (each only if its code stands in Exec), then 11."
    let mut name = Vec::new();
    if stands(&arguments, b'c') {
        name = chosen_text(file, DESKTOP_ENTRY, b"Name", locale)?;
    }
    let mut icon = Vec::new();
    if stands(&arguments, b'i') {
        icon = match chosen_text(file, group, b"Icon", locale) {
            // "Only a missing Icon is none."
            Err(refusal) if refusal.number == 8 => Vec::new(),
            answer => answer?,
        };
    }
    let item = usize::try_from(run)
        .ok()
        .and_then(|run| items.get(run).copied());
    let values = Values {
        items,
        item,
        name,
        icon,
        location,
    };
    write_records(3, &expand_arguments(&arguments, &values), out)
}

/// The number of runs: n for f and u with n items, else one; refused as the expansion is up to 15 and 16.
pub fn runs(file: &[u8], locale: &[u8], location: &[u8], list: &[u8]) -> Result<u64, Refusal> {
    let items = read_items(file, locale, location, list)?;
    group_runs(file, DESKTOP_ENTRY, &items)
}

/// The same of a group's Exec.
pub fn group_runs(file: &[u8], group: &[u8], items: &[&[u8]]) -> Result<u64, Refusal> {
    Ok(count_runs(&read_exec(file, group)?, items))
}

/// The items of the list: 1 to 6, 14 of the list, 7, 10.
pub fn read_items<'a>(
    file: &[u8],
    locale: &[u8],
    location: &[u8],
    list: &'a [u8],
) -> Result<Vec<&'a [u8]>, Refusal> {
    check(file)?;
    let items = read_records(list, 2).ok_or(Refusal::new(14))?;
    if !is_locale(locale) {
        return Err(Refusal::new(7));
    }
    let fit_item = |item: &&[u8]| !item.is_empty() && !item.contains(&0);
    if !items.iter().all(fit_item) || location.len() > LOCATION_BOUND || location.contains(&0) {
        return Err(Refusal::new(10));
    }
    Ok(items)
}

/// The arguments of a group's Exec: 8, 9, then 15 and 16.
fn read_exec(file: &[u8], group: &[u8]) -> Result<Vec<Argument>, Refusal> {
    let (start, end) = lookup(file, group, b"Exec")?;
    read_command(&unescape(&file[start..end])?)
}

/// Name or Icon of a group by locale, unescaped; 8, or 9 at its place in that raw value.
fn chosen_text(file: &[u8], group: &[u8], key: &[u8], locale: &[u8]) -> Result<Vec<u8>, Refusal> {
    let (start, end) = choose(file, group, key, locale)?;
    unescape(&file[start..end])
}

/// "Arguments are parted by spaces, which may also stand first and last"; "15 and 16 by lowest place".
fn read_command(exec: &[u8]) -> Result<Vec<Argument>, Refusal> {
    let mut arguments: Vec<Argument> = Vec::new();
    let mut faults: Vec<Fault> = Vec::new();
    let mut at = 0;
    while at < exec.len() {
        if exec[at] == b' ' {
            at += 1;
            continue;
        }
        let (argument, end) = if exec[at] == b'"' {
            read_quoted(exec, at, &mut faults)
        } else {
            read_unquoted(exec, at, &mut faults)
        };
        if arguments.is_empty() {
            program_faults(&argument, at, &mut faults);
        }
        arguments.push(argument);
        at = end;
    }
    // "The program, the first argument, must be there (else place 0)."
    if arguments.is_empty() {
        faults.push((0, 15));
    }
    file_code_faults(&arguments, &mut faults);
    match faults.into_iter().min() {
        Some((place, number)) => Err(Refusal::at(number, place)),
        None => Ok(arguments),
    }
}

/// "Quoted argument: `"` to the next bare `"`, then space or end"; the argument and where reading goes on.
fn read_quoted(exec: &[u8], open: usize, faults: &mut Vec<Fault>) -> (Argument, usize) {
    let mut argument = Argument {
        quoted: true,
        pieces: Vec::new(),
    };
    let Some(close) = closing_quote(exec, open) else {
        faults.push((open, 15));
        return (argument, exec.len());
    };
    let mut at = open + 1;
    while at < close {
        let next = if at + 1 < close { exec[at + 1] } else { b'"' };
        let mut length = 1;
        let mut byte = exec[at];
        match byte {
            b'\\' if needs_backslash(exec[at + 1]) => {
                byte = exec[at + 1];
                length = 2;
            }
            b'\\' => faults.push((at, 15)),
            b'%' if next == b'%' => length = 2,
            // "In quotes only `%%` is allowed (house)."
            b'%' => faults.push((at, 16)),
            _ if needs_backslash(byte) || byte > 0x7E => faults.push((at, 15)),
            _ => {}
        }
        argument.pieces.push(Piece {
            place: at,
            kind: Kind::Byte(byte),
        });
        at += length;
    }
    if close + 1 < exec.len() && exec[close + 1] != b' ' {
        faults.push((close + 1, 15));
    }
    (argument, close + 1)
}

/// The next bare `"` after an opening one; a backslash takes the next byte with it.
fn closing_quote(exec: &[u8], open: usize) -> Option<usize> {
    let mut at = open + 1;
    while at < exec.len() {
        match exec[at] {
            b'"' => return Some(at),
            b'\\' => at += 2,
            _ => at += 1,
        }
    }
    None
}

/// Inside quotes, "`"`, backtick, `$` and backslash each need a backslash before them".
fn needs_backslash(byte: u8) -> bool {
    b"\"`$\\".contains(&byte)
}

/// An unquoted argument, to the next space or the end, and where it ends.
fn read_unquoted(exec: &[u8], start: usize, faults: &mut Vec<Fault>) -> (Argument, usize) {
    let mut end = start;
    while end < exec.len() && exec[end] != b' ' {
        end += 1;
    }
    let mut argument = Argument {
        quoted: false,
        pieces: Vec::new(),
    };
    let mut at = start;
    while at < end {
        let byte = exec[at];
        let mut length = 1;
        let mut kind = Kind::Byte(byte);
        if byte == b'%' {
            match exec[at + 1..end].first() {
                Some(b'%') => length = 2,
                Some(letter) if is_code(*letter) => {
                    kind = Kind::Code(*letter);
                    length = 2;
                }
                // "Any other `%` is 16."
                _ => faults.push((at, 16)),
            }
        } else if is_reserved(byte) || byte > 0x7E {
            faults.push((at, 15));
        }
        // "F, U and i only as a whole argument."
        let whole_only = matches!(kind, Kind::Code(b'F' | b'U' | b'i'));
        if whole_only && end - start != 2 {
            faults.push((at, 16));
        }
        argument.pieces.push(Piece { place: at, kind });
        at += length;
    }
    (argument, end)
}

/// "Unquoted: no tab, LF, `"`, `'`, backslash, …"; the space parts arguments.
fn is_reserved(byte: u8) -> bool {
    b"\t\n\"'\\><~|&;$*?#()`".contains(&byte)
}

/// "Codes f F u U i c k"; and "d D n N v m vanish".
fn is_code(letter: u8) -> bool {
    b"fFuUick".contains(&letter) || is_vanishing(letter)
}

/// "d D n N v m vanish."
fn is_vanishing(letter: u8) -> bool {
    b"dDnNvm".contains(&letter)
}

/// The program must "not be empty (its opening quote), hold no `=` (15) and no code but `%%` (16)".
fn program_faults(program: &Argument, start: usize, faults: &mut Vec<Fault>) {
    if program.pieces.is_empty() {
        faults.push((start, 15));
    }
    for piece in &program.pieces {
        match piece.kind {
            Kind::Byte(b'=') => faults.push((piece.place, 15)),
            Kind::Byte(_) => {}
            Kind::Code(_) => faults.push((piece.place, 16)),
        }
    }
}

/// "At most one of f F u U": each further one is wrong.
fn file_code_faults(arguments: &[Argument], faults: &mut Vec<Fault>) {
    let pieces = arguments.iter().flat_map(|argument| &argument.pieces);
    let files = pieces.filter(|piece| matches!(piece.kind, Kind::Code(b'f' | b'F' | b'u' | b'U')));
    for piece in files.skip(1) {
        faults.push((piece.place, 16));
    }
}

/// Whether a code stands in Exec.
fn stands(arguments: &[Argument], letter: u8) -> bool {
    arguments
        .iter()
        .flat_map(|argument| &argument.pieces)
        .any(|piece| piece.kind == Kind::Code(letter))
}

/// "A list of n gives n runs from number 0, or one run if n is 0; without f and u there is one run."
fn count_runs(arguments: &[Argument], items: &[&[u8]]) -> u64 {
    if stands(arguments, b'f') || stands(arguments, b'u') {
        (items.len() as u64).max(1)
    } else {
        1
    }
}

/// The arguments of one run.
fn expand_arguments(arguments: &[Argument], values: &Values) -> Vec<Vec<u8>> {
    let mut expanded = Vec::new();
    for argument in arguments {
        match argument.pieces.first().map(|piece| piece.kind) {
            // "F, U: each item its own argument."
            Some(Kind::Code(b'F' | b'U')) => {
                expanded.extend(values.items.iter().map(|item| item.to_vec()));
            }
            // "i: `--icon` and the Icon, nothing if missing or empty."
            Some(Kind::Code(b'i')) => {
                if !values.icon.is_empty() {
                    expanded.push(b"--icon".to_vec());
                    expanded.push(values.icon.clone());
                }
            }
            _ if is_dropped(argument, values) => {}
            _ => expanded.push(expand_argument(argument, values)),
        }
    }
    expanded
}

/// "An unquoted argument made only of vanished codes, or of these and f or u with no item, is dropped."
fn is_dropped(argument: &Argument, values: &Values) -> bool {
    let goes = |piece: &Piece| match piece.kind {
        Kind::Byte(_) => false,
        Kind::Code(b'f' | b'u') => values.item.is_none(),
        Kind::Code(letter) => is_vanishing(letter),
    };
    !argument.quoted && argument.pieces.iter().all(goes)
}

/// One argument with its codes put in; "put-in text is not searched for codes".
fn expand_argument(argument: &Argument, values: &Values) -> Vec<u8> {
    let mut bytes = Vec::new();
    for piece in &argument.pieces {
        match piece.kind {
            Kind::Byte(byte) => bytes.push(byte),
            Kind::Code(b'f' | b'u') => bytes.extend(values.item.unwrap_or_default()),
            Kind::Code(b'c') => bytes.extend(&values.name),
            Kind::Code(b'k') => bytes.extend(values.location),
            Kind::Code(_) => {}
        }
    }
    bytes
}
