//! Paper 01, "Lines of a file": classes of bytes, and parts of bytes.

/// Two ends of a part, the end exclusive.
pub type Part = (usize, usize);

/// The end of the bytes from `start` on that are of the class.
pub fn skip(bytes: &[u8], start: usize, class: fn(u8) -> bool) -> usize {
    let mut at = start;
    while at < bytes.len() && class(bytes[at]) {
        at += 1;
    }
    at
}

/// "A-Z a-z 0-9 `-`", in keys and in the parts of a locale.
pub fn is_key_byte(byte: u8) -> bool {
    byte.is_ascii_alphanumeric() || byte == b'-'
}

/// "0x20 to 0x7E without `[` and `]`", in group names.
pub fn is_group_byte(byte: u8) -> bool {
    (0x20..=0x7E).contains(&byte) && byte != b'[' && byte != b']'
}
