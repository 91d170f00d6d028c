//! Records of the lists that go in.

/// The bytes before those of a record: its whole length (4 bytes, little-endian) and its kind (2 bytes).
pub const HEAD: usize = 6;

/// Puts a record at the end of a list.
pub fn put(list: &mut Vec<u8>, kind: u16, bytes: &[u8]) {
    list.extend(four(HEAD + bytes.len()));
    list.extend(kind.to_le_bytes());
    list.extend(bytes);
}

/// A length in 4 bytes. One that needs more is in a list over 65,536 bytes, which is refused anyway (14).
pub fn four(length: usize) -> [u8; 4] {
    u32::try_from(length).unwrap_or(u32::MAX).to_le_bytes()
}
