//! Keys that carry an encoding (02's A3): how often one has a part in a choice of language.

use reference::strip_encoding;

use crate::files::{self, Entry};

/// How many choices came to a line with an encoding, or to the earlier of lines whose postfixes are equal without it.
#[derive(Clone, Copy, Debug, Default)]
pub struct Encodings {
    /// The line has an encoding.
    pub with_encoding: u64,
    /// The line has an encoding, and an equal one stands behind it.
    pub with_encoding_first: u64,
    /// The line has none, and an equal one stands behind it.
    pub without_first: u64,
    /// An equal line behind it has the caller's own encoding, and it has not.
    pub before_the_callers: u64,
}

impl Encodings {
    /// Counts a choice by a locale, which came to the value with these two ends.
    pub fn count(&mut self, file: &[u8], locale: &[u8], value: (usize, usize)) {
        let mut entries = files::entries(file).into_iter();
        let Some(Entry {
            group,
            key,
            postfix: Some(postfix),
            ..
        }) = entries.find(|entry| entry.value == value)
        else {
            return;
        };
        let stripped = strip_encoding(&postfix);
        let equal: Vec<Vec<u8>> = entries
            .filter(|entry| entry.group == group && entry.key == key)
            .filter_map(|entry| entry.postfix)
            .filter(|other| strip_encoding(other) == stripped)
            .collect();
        let has_encoding = encoding(&postfix).is_some();
        let has_callers = |postfix: &Vec<u8>| encoding(postfix) == encoding(locale);
        self.with_encoding += u64::from(has_encoding);
        self.with_encoding_first += u64::from(has_encoding && !equal.is_empty());
        self.without_first += u64::from(!has_encoding && !equal.is_empty());
        self.before_the_callers +=
            u64::from(!has_callers(&postfix) && equal.iter().any(has_callers));
    }

    /// The least of the numbers.
    pub fn least(&self) -> u64 {
        let Encodings {
            with_encoding,
            with_encoding_first,
            without_first,
            before_the_callers,
        } = *self;
        with_encoding
            .min(with_encoding_first)
            .min(without_first)
            .min(before_the_callers)
    }
}

/// The encoding of a locale or a postfix.
pub fn encoding(locale: &[u8]) -> Option<&[u8]> {
    let behind = locale.split(|byte| *byte == b'.').nth(1)?;
    behind.split(|byte| *byte == b'@').next()
}
