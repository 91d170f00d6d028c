//! The bounds of 01, near which inputs are made.

/// "A file is at most 32,768 bytes."
pub const FILE_BOUND: usize = 32_768;

/// The used bytes of a journal are at most 65,536.
pub const JOURNAL_BOUND: usize = 65_536;

/// A list "over 65,536 bytes in all" is damaged.
pub const LIST_BOUND: usize = 65_536;

/// "The location is at most 4,096 bytes."
pub const LOCATION_BOUND: usize = 4_096;
