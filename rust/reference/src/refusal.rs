//! Paper 01, "What the caller is told": refusals, and the bounds that some of them name.

/// "A file is at most 32,768 bytes."
pub const FILE_BOUND: u64 = 32_768;

/// Bound of the journal's used bytes (13, 14) and of a list handed in (14).
pub const RECORDS_BOUND: u64 = 65_536;

/// "The location is at most 4,096 bytes."
pub const LOCATION_BOUND: usize = 4_096;

/// "A refusal is a number and a place"; the byte in the line comes with number 2 only.
#[derive(Debug, Clone, Copy, PartialEq, Eq)]
pub struct Refusal {
    pub number: u32,
    pub place: u64,
    pub byte: u64,
}

impl Refusal {
    /// A refusal "or 0 where none is named".
    pub fn new(number: u32) -> Refusal {
        Refusal::at(number, 0)
    }

    /// A refusal with a line from 1 or an offset from 0.
    pub fn at(number: u32, place: usize) -> Refusal {
        Refusal {
            number,
            place: place as u64,
            byte: 0,
        }
    }

    /// Refusal 2 with its line and, as A6 asks, the byte in the line.
    pub fn bad_line(line: usize, byte: usize) -> Refusal {
        Refusal {
            number: 2,
            place: line as u64,
            byte: byte as u64,
        }
    }
}
