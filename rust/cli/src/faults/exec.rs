//! Why Exec is badly written. Places count in its text, whose escapes are read.

use kveldrim::{Kind, Refusal};

use super::{printed, spot};

/// The words for a refusal of Exec: 15 or 16. The general ones where nothing more is sure.
pub fn words(text: &[u8], refusal: Refusal) -> String {
    let place = refusal.place as usize;
    let words = match (argument(text, place), refusal.kind) {
        (None, Kind::BadExec) if text.iter().all(|byte| *byte == b' ') => {
            Some("Exec names no program; write its name first".into())
        }
        (Some(argument), Kind::BadExec) => argument.badly_written(place),
        (Some(argument), Kind::BadCode) => argument.wrong_code(place),
        _ => None,
    };
    words.unwrap_or_else(|| refusal.kind.words().into())
}

/// An argument of a command.
struct Argument<'a> {
    text: &'a [u8],
    start: usize,
    /// Where it ends. A quoted one goes up to its closing quote, or to the end where it has none.
    end: usize,
    form: Form,
}

#[derive(PartialEq)]
enum Form {
    Bare,
    Quoted,
    Unclosed,
}

/// The argument that a place is in, or that ends right before it with its quote.
fn argument(text: &[u8], place: usize) -> Option<Argument<'_>> {
    let mut start = 0;
    loop {
        start += text[start..].iter().position(|byte| *byte != b' ')?;
        let argument = Argument::new(text, start);
        let has_more = text.get(argument.end).is_some_and(|byte| *byte != b' ');
        if place < argument.end || place == argument.end && has_more {
            return Some(argument);
        }
        start = argument.end;
    }
}

impl<'a> Argument<'a> {
    fn new(text: &'a [u8], start: usize) -> Argument<'a> {
        let space = text[start..].iter().position(|byte| *byte == b' ');
        let (end, form) = match (text[start], closing_quote(text, start)) {
            (b'"', Some(close)) => (close + 1, Form::Quoted),
            (b'"', None) => (text.len(), Form::Unclosed),
            _ => (
                space.map_or(text.len(), |length| start + length),
                Form::Bare,
            ),
        };
        Argument {
            text,
            start,
            end,
            form,
        }
    }

    /// Whether it is the first.
    fn is_program(&self) -> bool {
        self.text[..self.start].iter().all(|byte| *byte == b' ')
    }

    fn badly_written(&self, place: usize) -> Option<String> {
        let (byte, spot) = (self.text[place], spot(self.text, place));
        match self.form {
            _ if byte > 0x7E => Some(format!(
                "{spot} cannot stand in Exec, which takes ASCII alone"
            )),
            _ if place == self.end => Some(format!(
                "{spot} stands right after a closing quote; put a space between, or take it into the quotes"
            )),
            _ if byte == b'=' && self.is_program() => Some(
                "the program's name cannot hold \"=\"; to set a variable write env NAME=value before the program".into(),
            ),
            Form::Bare => outside_quotes(byte, &spot),
            _ if place > self.start => in_quotes(byte, &spot),
            Form::Unclosed => Some(
                "the quote that starts here is not closed; write another '\"' where the argument ends".into(),
            ),
            Form::Quoted if self.is_program() && self.end == self.start + 2 => {
                Some("the program's name between '\"' and '\"' is empty; write it there".into())
            }
            Form::Quoted => None,
        }
    }

    fn wrong_code(&self, place: usize) -> Option<String> {
        let end = self.end - usize::from(self.form == Form::Quoted);
        let letter = printed(&self.text[..end], place + 1);
        let Some(letter) = letter else {
            return Some("a single \"%\" is no code; write %% for a percent sign".into());
        };
        let code = format!("%{letter}");
        Some(match (letter, CODES.contains(letter)) {
            (_, true) if self.form == Form::Quoted => {
                format!("codes do not work in quotes; put {code} outside of them, or write %% for a percent sign")
            }
            (_, true) if self.is_program() => {
                format!("{code} cannot stand in the program's name; write the program first")
            }
            ('F' | 'U' | 'i', true) if self.end - self.start != 2 => {
                format!("{code} must be an argument of its own; put spaces round it")
            }
            ('f' | 'F' | 'u' | 'U', true) => {
                let earlier = file_code(&self.text[..place])?;
                format!("{code} is a second code for files, after %{earlier}; only one of %f %F %u %U may stand in Exec")
            }
            (_, true) => return None,
            (_, false) => {
                format!("{code} is no code; the codes are %f %F %u %U %i %c and %k, and %% is a percent sign")
            }
        })
    }
}

/// Why a byte cannot stand in quotes.
fn in_quotes(byte: u8, spot: &str) -> Option<String> {
    match byte {
        b'$' | b'`' => Some(format!(
            "{spot} in quotes needs a backslash before it, which is doubled in the file: write \\\\{}",
            byte as char
        )),
        b'\\' => Some(format!(
            "{spot} in quotes may stand only before '\"', \"`\", \"$\" and \"\\\"; for a backslash itself write \\\\\\\\ in the file"
        )),
        _ => None,
    }
}

/// Why a byte cannot stand outside quotes.
fn outside_quotes(byte: u8, spot: &str) -> Option<String> {
    let put = format!("{spot} cannot stand outside quotes; put the argument in quotes (\"..\")");
    match byte {
        b'\'' => Some(format!(
            "{spot} cannot stand outside double quotes; to quote an argument use '\"'"
        )),
        b'"' => Some(format!(
            "{spot} can only start an argument; put the whole argument in quotes, as \"--title=a b\""
        )),
        b'\\' => Some(format!("{put} and write \\\\\\\\ for it in the file")),
        b'$' | b'`' => Some(format!("{put} and write \\\\{} for it in the file", byte as char)),
        _ if RESERVED.contains(&byte) => Some(put),
        _ => None,
    }
}

/// The other bytes that stand only in quotes.
const RESERVED: &[u8] = b"\t\n><~|&;*?#()";

/// The codes, those that vanish among them.
const CODES: &str = "fFuUickdDnNvm";

/// The next quote that no backslash takes.
fn closing_quote(text: &[u8], open: usize) -> Option<usize> {
    let mut at = open + 1;
    loop {
        match text.get(at)? {
            b'"' => return Some(at),
            b'\\' => at += 2,
            _ => at += 1,
        }
    }
}

/// The letters of the codes in a well-written command or the start of one; in quotes it has only `%%`.
pub fn codes(text: &[u8]) -> impl Iterator<Item = u8> + '_ {
    let mut bytes = text.iter().copied();
    std::iter::from_fn(move || {
        bytes.find(|byte| *byte == b'%')?;
        bytes.next()
    })
}

/// The letter of the first code for files.
pub fn file_code(text: &[u8]) -> Option<char> {
    let code = codes(text).find(|code| b"fFuU".contains(code));
    code.map(char::from)
}
