//! A line of a file as a terminal shows it, with a caret under one of its bytes.

use unicode_bidi::{bidi_class, BidiClass};
use unicode_width::UnicodeWidthChar;

/// The most columns of a line that are shown, and the most of them before the caret.
const COLUMNS: usize = 72;
const BEFORE: usize = 48;

/// What stands for parts that are not shown.
const CUT: &str = "...";

/// The line, and below it a caret under the byte at `at`, counted from 0, or behind the line where `at` is its length. Control
/// bytes are shown as `^I`, bytes that are no text and characters whose columns are not sure as `\xFC`. Of a long line the part
/// round the caret is shown.
pub fn excerpt(line: &[u8], at: usize) -> String {
    let signs = signs(line);
    let caret = signs.iter().take_while(|sign| sign.end <= at).count();
    let (mut first, mut column) = (0, columns(&signs[..caret]));
    while column > BEFORE {
        column -= columns(&signs[first..=first]);
        first += 1;
    }
    let mut end = signs.len();
    let mut width = column + columns(&signs[caret..]);
    while width > COLUMNS && end > caret + 1 {
        end -= 1;
        width -= columns(&signs[end..=end]);
    }
    let left = if first > 0 { CUT } else { "" };
    let right = if end < signs.len() { CUT } else { "" };
    let shown: String = signs[first..end].iter().map(|sign| &*sign.shown).collect();
    let indent = " ".repeat(left.len() + column);
    format!("    {left}{shown}{right}\n    {indent}^\n")
}

/// Something that is shown for one character or one byte, which ends before the byte `end` of the line.
struct Sign {
    shown: String,
    columns: usize,
    end: usize,
}

fn columns(signs: &[Sign]) -> usize {
    signs.iter().map(|sign| sign.columns).sum()
}

fn signs(line: &[u8]) -> Vec<Sign> {
    let mut signs = Vec::new();
    let mut end = 0;
    let mut push = |shown: String, columns: usize, bytes: usize| {
        end += bytes;
        signs.push(Sign {
            shown,
            columns,
            end,
        });
    };
    for chunk in line.utf8_chunks() {
        for character in chunk.valid().chars() {
            match (character, sure_columns(character)) {
                ('\0'..='\u{1F}', _) => {
                    push(format!("^{}", (character as u8 + b'@') as char), 2, 1)
                }
                ('\u{7F}', _) => push("^?".into(), 2, 1),
                (_, Some(columns)) => push(character.into(), columns, character.len_utf8()),
                (_, None) => {
                    for byte in character.encode_utf8(&mut [0; 4]).bytes() {
                        push(format!("\\x{byte:02X}"), 4, 1);
                    }
                }
            }
        }
        for byte in chunk.invalid() {
            push(format!("\\x{byte:02X}"), 4, 1);
        }
    }
    signs
}

/// How many columns a terminal surely takes for the character as it is, from left to right and joined to none beside it; none
/// for marks, blanks other than a space, letters from right to left and the parts of joined emoji.
fn sure_columns(character: char) -> Option<usize> {
    use BidiClass::{CS, EN, ES, ET, L, ON, WS};
    let is_left_to_right = matches!(bidi_class(character), L | EN | ES | ET | CS | ON | WS);
    let is_joined = matches!(character, '\u{1F1E6}'..='\u{1F1FF}' | '\u{1F3FB}'..='\u{1F3FF}');
    let is_shown = character == ' ' || is_seen(character);
    let columns = character.width().filter(|columns| *columns > 0)?;
    (is_left_to_right && is_shown && !is_joined).then_some(columns)
}

/// Whether a character is seen on its own: it is no blank, mark or control.
pub fn is_seen(character: char) -> bool {
    match character.is_ascii() {
        true => character.is_ascii_graphic(),
        false => character.escape_debug().count() == 1,
    }
}

#[cfg(test)]
mod tests {
    use super::excerpt;

    /// The line and the caret's line without their indent.
    fn shown(line: &[u8], at: usize) -> [String; 2] {
        let lines = excerpt(line, at);
        let lines: Vec<&str> = lines.lines().collect();
        assert_eq!(lines.len(), 2);
        [0, 1].map(|at| lines[at].strip_prefix("    ").unwrap().to_string())
    }

    #[test]
    fn every_byte_has_its_caret() {
        assert_eq!(shown(b"Name", 0), ["Name", "^"]);
        assert_eq!(shown(b"Name", 3), ["Name", "   ^"]);
        assert_eq!(shown(b"Name", 4), ["Name", "    ^"]);
        assert_eq!(shown(b"", 0), ["", "^"]);
        assert_eq!(shown(b"a'\"\\=", 4), ["a'\"\\=", "    ^"]);
    }

    #[test]
    fn unprintable_bytes_are_shown() {
        assert_eq!(shown(b"Name\t=x\r", 4), ["Name^I=x^M", "    ^"]);
        assert_eq!(shown(b"Name\t=x\r", 5), ["Name^I=x^M", "      ^"]);
        assert_eq!(shown(b"\0\x1B[1m\x7F", 5), ["^@^[[1m^?", "       ^"]);
        assert_eq!(shown(b"Name=M\xFCller", 6), ["Name=M\\xFCller", "      ^"]);
        assert_eq!(shown(b"k=\xE0\x80z", 3), ["k=\\xE0\\x80z", "      ^"]);
        assert_eq!(shown(b"k=\xE0", 3), ["k=\\xE0", "      ^"]);
    }

    #[test]
    fn letters_stay_where_they_take_one_column() {
        let name = "Name=M\u{FC}ller\x01";
        assert_eq!(
            shown(name.as_bytes(), 12),
            ["Name=M\u{FC}ller^A", "           ^"]
        );
        // Within a letter the caret is under the letter.
        assert_eq!(shown("\u{E4}b".as_bytes(), 1), ["\u{E4}b", "^"]);
        let russian = "\u{416}=\x01".as_bytes();
        assert_eq!(shown(russian, 3), ["\u{416}=^A", "  ^"]);
        // Quotation marks, a dash and the sign of the euro.
        let price = "k=\u{201E}a\u{201C} \u{2013} 5 \u{20AC}";
        let [line, caret] = shown([price, "\x01"].concat().as_bytes(), price.len());
        assert_eq!(
            (line, caret.len()),
            (format!("{price}^A"), price.chars().count() + 1)
        );
        // Combining marks, a soft hyphen, blanks, letters and digits from right to left, marks of direction, a part of a flag
        // and the colour of a skin.
        for other in [
            "\u{308}",
            "\u{20D0}",
            "\u{AD}",
            "\u{A0}",
            "\u{200B}",
            "\u{200D}",
            "\u{200E}",
            "\u{202E}",
            "\u{2066}",
            "\u{2028}",
            "\u{3000}",
            "\u{FE0F}",
            "\u{FEFF}",
            "\u{5D0}",
            "\u{627}",
            "\u{661}",
            "\u{1F1E9}",
            "\u{1F3FD}",
            "\u{85}",
        ] {
            let line = ["a", other, "\x01"].concat();
            let bytes: String = other.bytes().map(|byte| format!("\\x{byte:02X}")).collect();
            let [line, caret] = shown(line.as_bytes(), 1 + other.len());
            assert_eq!(line, format!("a{bytes}^A"));
            assert_eq!(caret.len(), 1 + 4 * other.len() + 1);
        }
    }

    #[test]
    fn wide_letters_take_two_columns() {
        let [line, caret] = shown("Name=\u{4E2D}\u{6587}\x01".as_bytes(), 11);
        assert_eq!(line, "Name=\u{4E2D}\u{6587}^A");
        assert_eq!(caret, "         ^");
        // Within a letter the caret is under its first column.
        for at in 5..8 {
            let [_, caret] = shown("Name=\u{4E2D}\u{6587}".as_bytes(), at);
            assert_eq!(caret, "     ^");
        }
        let [line, caret] = shown("\u{1F600}\u{AC00}\u{E01}x".as_bytes(), 10);
        assert_eq!(line, "\u{1F600}\u{AC00}\u{E01}x");
        assert_eq!(caret, "     ^");
    }

    /// Of a long line of wide letters no more columns are shown than of one of others.
    #[test]
    fn wide_letters_are_cut_by_their_columns() {
        let line = "\u{4E2D}".repeat(1_000);
        let [text, caret] = shown(line.as_bytes(), 1_500);
        assert_eq!(text, format!("...{}...", "\u{4E2D}".repeat(24 + 12)));
        assert_eq!(caret, format!("{}^", " ".repeat(3 + 48)));
    }

    #[test]
    fn of_a_long_line_the_part_round_the_caret() {
        let mut line = vec![b'v'; 30_000];
        line[20_000] = b'\t';
        let [text, caret] = shown(&line, 20_000);
        assert_eq!(
            text,
            format!("...{}^I{}...", "v".repeat(48), "v".repeat(22))
        );
        assert_eq!(caret, format!("{}^", " ".repeat(51)));
        line[20_000] = b'v';
        line[3] = 0xFF;
        let [text, caret] = shown(&line, 3);
        assert_eq!(text, format!("vvv\\xFF{}...", "v".repeat(65)));
        assert_eq!(caret, "   ^");
        let [text, caret] = shown(&line, 30_000);
        assert_eq!(text, format!("...{}", "v".repeat(48)));
        assert_eq!(caret.len(), 52);
        for at in 0..=200 {
            let [text, caret] = shown(&line, at);
            assert!(text.len() <= 72 + 2 * 3 + 4 && caret.len() <= text.len() + 1);
        }
    }
}
