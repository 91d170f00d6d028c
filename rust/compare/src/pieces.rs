//! Small parts of questions: keys, locales, values and texts, most of them right, some nearly.

use crate::random::Random;

pub const KEY_BYTES: &[u8] = b"ABCDEFGHIJKLMNOPQRSTUVWXYZabcdefghijklmnopqrstuvwxyz0123456789-";

/// The bytes at both sides of every border that the rules draw.
pub const BORDERS: &[u8] = &[
    0x00, 0x01, 0x08, 0x09, 0x0A, 0x0B, 0x0D, 0x1F, 0x20, 0x21, b'#', b'%', b',', b'-', b'.', b'/',
    b'0', b'9', b':', b';', b'<', b'=', b'>', b'@', b'A', b'Z', b'[', b'\\', b']', b'^', b'_',
    b'`', b'a', b'n', b'r', b's', b't', b'z', b'{', 0x7E, 0x7F, 0x80, 0x8F, 0x90, 0x9F, 0xA0, 0xBF,
    0xC0, 0xC1, 0xC2, 0xC3, 0xDF, 0xE0, 0xE1, 0xEC, 0xED, 0xEE, 0xEF, 0xF0, 0xF1, 0xF3, 0xF4, 0xF5,
    0xF7, 0xF8, 0xFE, 0xFF,
];

/// The bytes that decide whether something is UTF-8.
pub const UTF8_BORDERS: &[u8] = &[
    b'a', 0x7F, 0x80, 0x8F, 0x90, 0x9F, 0xA0, 0xBF, 0xC0, 0xC1, 0xC2, 0xDF, 0xE0, 0xE1, 0xEC, 0xED,
    0xEE, 0xEF, 0xF0, 0xF1, 0xF3, 0xF4, 0xF5, 0xFF,
];

/// Both spellings of Müller: one letter ü, and u with a combining mark.
pub const MULLER: [&str; 2] = ["M\u{FC}ller", "Mu\u{308}ller"];

const UTF8: &[&str] = &[
    "\u{80}",
    "\u{9F}",
    "\u{FC}",
    "\u{7FF}",
    "\u{800}",
    "\u{D7FF}",
    "\u{E000}",
    "\u{FEFF}",
    "\u{FFFF}",
    "\u{10000}",
    "\u{3FFFF}",
    "\u{40000}",
    "\u{FFFFF}",
    "\u{100000}",
    "\u{10FFFF}",
    MULLER[0],
    MULLER[1],
];

/// Bytes that RFC 3629 refuses: too long forms, surrogates, over U+10FFFF, cut short, stray.
const NOT_UTF8: &[&[u8]] = &[
    b"\x80",
    b"\xBF",
    b"\xC0\x80",
    b"\xC1\xBF",
    b"\xC2",
    b"\xC2\x7F",
    b"\xC2\xC2\x80",
    b"\xDF\xC0",
    b"\xE0\x80\x80",
    b"\xE0\x9F\xBF",
    b"\xE0\xA0",
    b"\xE1\x80",
    b"\xED\xA0\x80",
    b"\xED\xBF\xBF",
    b"\xEF\xBF",
    b"\xF0\x80\x80\x80",
    b"\xF0\x8F\xBF\xBF",
    b"\xF0\x90\x80",
    b"\xF1\x80",
    b"\xF3",
    b"\xF4\x90\x80\x80",
    b"\xF4\x8F\xBF",
    b"\xF5\x80\x80\x80",
    b"\xF8\x88\x80\x80\x80",
    b"\xFE",
    b"\xFF",
];

const WORDS: &[&str] = &[
    "",
    "a",
    "b=c",
    "true",
    "false",
    "view %F",
    "x;y;",
    "Lesen und Schreiben",
    "[x]",
    "#",
    "0",
    "=",
];

const ESCAPES: &[&str] = &["\\s", "\\n", "\\t", "\\r", "\\\\", "\\;", ";", ";;", " "];

const WRONG_ESCAPES: &[&str] = &["\\", "\\q", "\\S", "\\\u{FC}", "\\ ", "\\0", "\\\\\\"];

const KEYS: &[&str] = &[
    "Name",
    "Type",
    "Exec",
    "Icon",
    "URL",
    "Hidden",
    "Terminal",
    "NoDisplay",
    "Comment",
    "X-a",
    "X-A",
    "X-ab",
    "N",
    "Nam",
    "Names",
    "name",
    "0",
    "-",
];

pub const GROUPS: &[&str] = &[
    "Desktop Entry",
    "Desktop Action a",
    "Desktop Action b",
    "desktop entry",
    "Desktop Entry ",
    " ",
    "X",
    "x",
    "X=",
    "#",
    "~!\"",
];

const LANGS: &[&str] = &["de", "fr", "sr", "C", "POSIX", "c", "d", "de-1", "DE"];
const COUNTRIES: &[&str] = &["DE", "YU", "de", "D"];
const ENCODINGS: &[&str] = &["UTF-8", "x", "DE"];
const MODIFIERS: &[&str] = &["Latn", "euro", "x", "DE"];

/// A key that other calls make too, or a key of random bytes.
pub fn key(random: &mut Random) -> Vec<u8> {
    if random.once_in(4) {
        let length = random.within(1, 14);
        return (0..length).map(|_| random.byte_of(KEY_BYTES)).collect();
    }
    random.pick(KEYS).into()
}

pub fn group(random: &mut Random) -> Vec<u8> {
    if random.once_in(5) {
        let length = random.within(1, 12);
        let byte = |_| match random.within(0x20, 0x7C) as u8 {
            b'[' => b'}',
            b']' => b'~',
            byte => byte,
        };
        return (0..length).map(byte).collect();
    }
    random.pick(GROUPS).into()
}

/// A locale, of all forms.
pub fn locale(random: &mut Random) -> Vec<u8> {
    let mut locale = random.pick(LANGS).to_string();
    for (mark, parts) in [('_', COUNTRIES), ('.', ENCODINGS), ('@', MODIFIERS)] {
        if random.once_in(3) {
            locale.push(mark);
            locale += random.pick(parts);
        }
    }
    locale.into()
}

/// The same locale with this encoding, given with its mark or empty.
pub fn with_encoding(locale: &[u8], encoding: &[u8]) -> Vec<u8> {
    let mut other = reference::strip_encoding(locale);
    let modifier = other.iter().position(|byte| *byte == b'@');
    let end = modifier.unwrap_or(other.len());
    other.splice(end..end, encoding.iter().copied());
    other
}

/// The same locale with another encoding, or with none if it has one.
pub fn recoded(locale: &[u8], random: &mut Random) -> Vec<u8> {
    loop {
        let encoding = match random.once_in(3) {
            true => String::new(),
            false => format!(".{}", random.pick(ENCODINGS)),
        };
        let other = with_encoding(locale, encoding.as_bytes());
        if other != locale {
            return other;
        }
    }
}

/// A locale with its marks in any order, doubled, or with an empty part.
pub fn wrong_locale(random: &mut Random) -> Vec<u8> {
    let mut locale = Vec::new();
    for _ in 0..random.within(0, 5) {
        match random.below(3) {
            0 => locale.extend(random.pick(LANGS).bytes()),
            1 => locale.push(random.byte_of(b"_.@")),
            _ => locale.push(random.byte_of(b"_.@ax-1]\n \xC3")),
        }
    }
    locale
}

/// A few letters of every UTF-8 length.
pub fn letters(random: &mut Random) -> Vec<u8> {
    let letters = random.below(6);
    let letter = |_| random.pick(UTF8).bytes();
    (0..letters).flat_map(letter).collect()
}

/// For [`value`]: no piece breaks a rule.
pub const SOUND: usize = usize::MAX;

/// Text of words, letters of every UTF-8 length and escapes; one in `once` pieces breaks a rule.
pub fn value(random: &mut Random, once: usize) -> Vec<u8> {
    let mut value = Vec::new();
    for _ in 0..random.below(7) {
        if random.once_in(once) {
            match random.below(3) {
                0 => value.extend(random.pick(NOT_UTF8)),
                1 => value.extend(random.pick(WRONG_ESCAPES).bytes()),
                _ => value.push(random.byte_of(BORDERS)),
            }
            continue;
        }
        match random.below(9) {
            0 => value.extend(vec![b'a'; random.within(1, 70)]),
            1 | 2 => value.extend(random.pick(UTF8).bytes()),
            3 | 4 => value.extend(random.pick(ESCAPES).bytes()),
            5 | 6 => value.push(random.within(0x20, 0x7E) as u8),
            _ => value.extend(random.pick(WORDS).bytes()),
        }
    }
    value
}

/// Bytes of one narrow kind, so that the rules meet their borders often.
pub fn wild(random: &mut Random, most: usize) -> Vec<u8> {
    let length = random.within(0, most);
    let from = match random.below(6) {
        0 => b"\\snrt;q".as_slice(),
        1 => UTF8_BORDERS,
        2 => b"a[]=\n# \t",
        3 => b"k[de_DE.x@y]= \n",
        4 => BORDERS,
        _ => return (0..length).map(|_| random.number() as u8).collect(),
    };
    (0..length).map(|_| random.byte_of(from)).collect()
}

/// A short text or raw value: mostly escapes and letters, or wild.
pub fn text(random: &mut Random) -> Vec<u8> {
    match random.below(4) {
        0 => wild(random, 12),
        1 => value(random, 6),
        2 => value(random, SOUND),
        _ => {
            let pieces = random.below(9);
            let piece = |_| match random.below(8) {
                0 => random.pick(WRONG_ESCAPES).bytes(),
                1 | 2 => random.pick(UTF8).bytes(),
                _ => random.pick(ESCAPES).bytes(),
            };
            (0..pieces).flat_map(piece).collect()
        }
    }
}
