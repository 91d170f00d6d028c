//! The bytes of a journal's file: one file with its records, or two while a call is being written (docs/JOURNAL.md).

use kveldrim::{Document, FILE_BOUND, JOURNAL_BOUND};
use sha2::{Digest, Sha256};

/// A file and the journal that belongs to it.
#[derive(Debug, Clone, PartialEq, Eq)]
pub struct Pair {
    pub file: Vec<u8>,
    pub records: Vec<u8>,
    pub standing: u64,
}

impl Pair {
    /// A file with an empty journal.
    pub fn new(file: Vec<u8>) -> Pair {
        Pair {
            file,
            records: Vec::new(),
            standing: 0,
        }
    }

    /// A file and its journal as calls have left them.
    pub fn of(document: &Document) -> Pair {
        Pair {
            file: document.file().to_vec(),
            records: document.journal().to_vec(),
            standing: document.standing(),
        }
    }
}

const MAGIC: &[u8] = b"kveldrim";
/// The version that is written. Version 2 has the same layout, with records that name no person.
const VERSION: u32 = 3;
/// The version without a digest.
const FIRST: u32 = 1;
/// The bytes of a digest, SHA-256.
const DIGEST: usize = 32;

/// The most bytes that a journal's file has.
pub const MOST: usize = 16 + 2 * (12 + FILE_BOUND + JOURNAL_BOUND) + DIGEST;

/// The bytes of a journal's file with these pairs, the newest first.
pub fn write(pairs: &[&Pair]) -> Vec<u8> {
    let mut bytes = MAGIC.to_vec();
    bytes.extend(VERSION.to_le_bytes());
    bytes.extend((pairs.len() as u32).to_le_bytes());
    for pair in pairs {
        let numbers = [pair.file.len(), pair.records.len(), pair.standing as usize];
        bytes.extend(numbers.map(|number| (number as u32).to_le_bytes()).concat());
        bytes.extend(&pair.file);
        bytes.extend(&pair.records);
    }
    bytes.extend(Sha256::digest(&bytes));
    bytes
}

/// Why there are no pairs in the bytes of a file.
#[derive(Debug, Clone, Copy, PartialEq, Eq)]
pub enum Unread {
    Damaged,
    /// It is sound, and of a version after this one.
    Newer,
}

/// The pairs of a journal's file, the newest first.
pub fn read(bytes: &[u8]) -> Result<Vec<Pair>, Unread> {
    match content(bytes) {
        Some((version, _)) if version > VERSION => Err(Unread::Newer),
        Some((_, rest)) => read_pairs(rest).ok_or(Unread::Damaged),
        None => Err(Unread::Damaged),
    }
}

/// The version and what follows it, without the digest that every version but the first has at its end.
fn content(bytes: &[u8]) -> Option<(u32, &[u8])> {
    let mut rest = bytes.strip_prefix(MAGIC)?;
    match number(&mut rest)? {
        0 => None,
        FIRST => Some((FIRST, rest)),
        version => Some((version, before_digest(bytes, rest)?)),
    }
}

fn read_pairs(mut rest: &[u8]) -> Option<Vec<Pair>> {
    let pairs = number(&mut rest)?;
    if !(1..=2).contains(&pairs) {
        return None;
    }
    let pairs = (0..pairs).map(|_| read_pair(&mut rest)).collect();
    rest.is_empty().then_some(pairs)?
}

/// What stands before the digest, if that is of all bytes before it.
fn before_digest<'a>(bytes: &[u8], rest: &'a [u8]) -> Option<&'a [u8]> {
    let (rest, digest) = rest.split_last_chunk::<DIGEST>()?;
    let before = &bytes[..bytes.len() - DIGEST];
    (Sha256::digest(before)[..] == digest[..]).then_some(rest)
}

fn read_pair(rest: &mut &[u8]) -> Option<Pair> {
    let (file, records) = (number(rest)? as usize, number(rest)? as usize);
    let standing = number(rest)?.into();
    if file > FILE_BOUND || records > JOURNAL_BOUND || standing > records as u64 {
        return None;
    }
    Some(Pair {
        file: take(rest, file)?.to_vec(),
        records: take(rest, records)?.to_vec(),
        standing,
    })
}

/// The next number of 4 bytes, little-endian.
fn number(rest: &mut &[u8]) -> Option<u32> {
    let four = take(rest, 4)?.first_chunk()?;
    Some(u32::from_le_bytes(*four))
}

/// The next bytes.
fn take<'a>(rest: &mut &'a [u8], length: usize) -> Option<&'a [u8]> {
    let (taken, left) = rest.split_at_checked(length)?;
    *rest = left;
    Some(taken)
}

#[cfg(test)]
mod tests {
    use super::*;

    fn pairs() -> [Pair; 2] {
        let old = Pair::new(b"[Desktop Entry]\n".to_vec());
        let new = Pair {
            file: b"[Desktop Entry]\nA=\n".to_vec(),
            records: vec![7; 21],
            standing: 21,
        };
        [new, old]
    }

    #[test]
    fn what_is_written_is_read() {
        let [new, old] = pairs();
        for written in [&[&new][..], &[&old], &[&new, &old]] {
            let read = read(&write(written)).unwrap();
            assert_eq!(read.iter().collect::<Vec<_>>(), written);
        }
    }

    const NUMBERS: [u8; 20] = [
        3, 0, 0, 0, 1, 0, 0, 0, 19, 0, 0, 0, 21, 0, 0, 0, 21, 0, 0, 0,
    ];

    /// The digest is what `sha256sum` tells of the bytes before it.
    #[test]
    fn layout() {
        let [new, _] = pairs();
        let expected = [b"kveldrim", &NUMBERS[..], &new.file, &new.records].concat();
        let bytes = write(&[&new]);
        let (before, digest) = bytes.split_at(bytes.len() - 32);
        assert_eq!(before, expected);
        let digest: String = digest.iter().map(|byte| format!("{byte:02x}")).collect();
        assert_eq!(
            digest,
            "22af885c70ec2500ae5a94f32fe46b03182f345fd4b71867c9b9c8366333acc6"
        );
    }

    /// The same pairs in a file of version 1.
    fn first_version(pairs: &[&Pair]) -> Vec<u8> {
        let mut bytes = write(pairs);
        bytes.truncate(bytes.len() - DIGEST);
        bytes[8] = 1;
        bytes
    }

    /// The same pairs in a file that has this version's number, and its digest.
    fn numbered(version: u32, pairs: &[&Pair]) -> Vec<u8> {
        let mut bytes = first_version(pairs);
        bytes[8..12].copy_from_slice(&version.to_le_bytes());
        bytes.extend(Sha256::digest(&bytes));
        bytes
    }

    #[test]
    fn version_1_is_read() {
        let [new, _] = pairs();
        let bytes =
            b"kveldrim\x01\0\0\0\x01\0\0\0\x13\0\0\0\x15\0\0\0\x15\0\0\0[Desktop Entry]\nA=\n\
            \x07\x07\x07\x07\x07\x07\x07\x07\x07\x07\x07\x07\x07\x07\x07\x07\x07\x07\x07\x07\x07";
        assert_eq!(first_version(&[&new]), bytes);
        assert_eq!(read(bytes), Ok(vec![new]));
    }

    /// A sound file of a version after this one is told apart from a damaged one.
    #[test]
    fn other_versions() {
        let [new, old] = pairs();
        let both = [&new, &old];
        for version in [2, VERSION] {
            let expected = vec![new.clone(), old.clone()];
            assert_eq!(read(&numbered(version, &both)), Ok(expected));
        }
        for version in [VERSION + 1, u32::MAX] {
            let mut bytes = numbered(version, &both);
            assert_eq!(read(&bytes), Err(Unread::Newer));
            bytes[20] ^= 1;
            assert_eq!(read(&bytes), Err(Unread::Damaged));
        }
        assert_eq!(read(&numbered(0, &both)), Err(Unread::Damaged));
    }

    #[test]
    fn a_changed_bit_is_refused() {
        let [new, old] = pairs();
        let mut bytes = write(&[&new, &old]);
        for at in 0..8 * bytes.len() {
            bytes[at / 8] ^= 1 << (at % 8);
            assert_eq!(read(&bytes), Err(Unread::Damaged), "bit {at}");
            bytes[at / 8] ^= 1 << (at % 8);
        }
        assert!(read(&bytes).is_ok());
    }

    #[test]
    fn other_bytes_are_refused() {
        let [new, old] = pairs();
        for bytes in [write(&[&new, &old]), first_version(&[&new, &old])] {
            for length in 0..bytes.len() {
                let read = read(&bytes[..length]);
                assert_eq!(read, Err(Unread::Damaged), "{length}");
            }
            assert_eq!(read(&[&bytes[..], b"x"].concat()), Err(Unread::Damaged));
        }
        // Magic, version, number of pairs, lengths, standing.
        for (at, byte) in [
            (0, b'K'),
            (8, 3),
            (12, 0),
            (12, 3),
            (17, 255),
            (22, 2),
            (24, 22),
        ] {
            let mut wrong = first_version(&[&new, &old]);
            wrong[at] = byte;
            assert_eq!(read(&wrong), Err(Unread::Damaged), "{at}");
        }
    }

    #[test]
    fn the_longest() {
        let pair = Pair {
            file: vec![b'\n'; FILE_BOUND],
            records: vec![1; JOURNAL_BOUND],
            standing: 0,
        };
        let bytes = write(&[&pair, &pair]);
        assert_eq!(bytes.len(), MOST);
        assert!(read(&bytes).is_ok());
    }
}
