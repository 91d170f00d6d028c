//! Refusals: which one a call gives, at which place and byte, and all of it in plain words.

use std::error::Error;
use std::fmt;

/// Why a call was refused: which refusal, a place whose meaning depends on it, and the byte in a bad line, 0 for every other
/// refusal (see [`Refusal::at`]).
#[derive(Debug, Clone, Copy, PartialEq, Eq, Hash)]
pub struct Refusal {
    pub kind: Kind,
    pub place: u64,
    pub byte: u64,
}

/// What a refusal's place is.
#[derive(Debug, Clone, Copy, PartialEq, Eq, Hash)]
pub enum Place {
    /// The refusal names no place.
    None,
    /// A line of the file, counted from 1.
    Line(u64),
    /// A byte of a bad line, counted from 0: the first after which no ending could make the line good, or the line's length
    /// where it is only unfinished. The line is counted from 1.
    Byte { line: u64, byte: u64 },
    /// A byte of the value, counted from 0: of the raw value for an escape, of the unescaped Exec for its faults.
    Offset(u64),
}

/// The refusals, by the names of the C interface, each with its number and its words.
macro_rules! kinds {
    ($($number:literal $kind:ident $words:literal)*) => {
        /// Which refusal it is. The numbers are those of the C interface.
        #[derive(Debug, Clone, Copy, PartialEq, Eq, PartialOrd, Ord, Hash)]
        pub enum Kind {
            $(#[doc = $words] $kind = $number,)*
        }

        impl Kind {
            /// Every refusal, in the order of the numbers.
            pub const ALL: &'static [Kind] = &[$(Kind::$kind),*];

            /// What is wrong, in words.
            pub fn words(self) -> &'static str {
                match self {
                    $(Kind::$kind => $words,)*
                }
            }

            /// The name in lower case, its words parted by `-`: `bad-line`.
            pub fn name(self) -> String {
                let name = match self {
                    $(Kind::$kind => stringify!($kind),)*
                };
                let mut parted = String::new();
                for (at, letter) in name.char_indices() {
                    if at > 0 && letter.is_ascii_uppercase() {
                        parted.push('-');
                    }
                    parted.push(letter.to_ascii_lowercase());
                }
                parted
            }
        }
    };
}

kinds! {
    1 TooLong "the file is over 32,768 bytes"
    2 BadLine "a line is not blank, a comment (#), a header ([Group]) or an entry (Key=value)"
    3 First "the first line that is neither blank nor a comment must be [Desktop Entry]"
    4 GroupTwice "a group of this name stands further up already"
    5 KeyTwice "this key stands further up in this group already"
    6 NoPlain "this key has a [locale], but the same key without one is missing in its group"
    7 Form "the group, key or locale asked for is not well written"
    8 Missing "there is no such group, key, action or run"
    9 Escape "unknown or unfinished escape: a backslash may stand before s, n, t, r and backslash, in a list also before ;"
    10 Unfit "the text, list item or location holds bytes that are not allowed, or too many, or none"
    11 NoRoom "the result has no room in its buffer, or the edited file would be over 32,768 bytes"
    12 Nothing "there is nothing to undo or redo, no such record, or fewer edits stand than are to be forgotten"
    13 JournalFull "the record has no room in the journal"
    14 Damaged "a length goes beyond its buffer, or the journal or list is damaged"
    15 BadExec "Exec is badly written"
    16 BadCode "wrong field code (%) in Exec"
    17 Postfixed "the key cannot be removed while the same key with a [locale] remains"
    18 Incomplete "a key that is needed is missing, or Type or a yes-or-no key has a value that it cannot have"
}

impl Kind {
    /// The number of the C interface.
    pub fn number(self) -> u32 {
        self as u32
    }

    /// The refusal of this number; none for 0 and for numbers that the C interface does not give.
    pub fn of(number: u32) -> Option<Kind> {
        Kind::ALL
            .iter()
            .copied()
            .find(|kind| kind.number() == number)
    }
}

impl fmt::Display for Kind {
    fn fmt(&self, f: &mut fmt::Formatter<'_>) -> fmt::Result {
        f.write_str(self.words())
    }
}

impl Refusal {
    /// What the place means.
    pub fn at(&self) -> Place {
        match self.kind {
            Kind::BadLine => Place::Byte {
                line: self.place,
                byte: self.byte,
            },
            Kind::First | Kind::GroupTwice | Kind::KeyTwice | Kind::NoPlain | Kind::Incomplete
                if self.place > 0 =>
            {
                Place::Line(self.place)
            }
            Kind::Escape | Kind::BadExec | Kind::BadCode => Place::Offset(self.place),
            _ => Place::None,
        }
    }
}

impl fmt::Display for Refusal {
    fn fmt(&self, f: &mut fmt::Formatter<'_>) -> fmt::Result {
        let words = self.kind;
        match self.at() {
            Place::None => write!(f, "{words}"),
            Place::Line(line) => write!(f, "line {line}: {words}"),
            Place::Byte { line, byte } => write!(f, "line {line}, after {byte} bytes: {words}"),
            Place::Offset(offset) => write!(f, "after {offset} bytes of the value: {words}"),
        }
    }
}

impl Error for Refusal {}
