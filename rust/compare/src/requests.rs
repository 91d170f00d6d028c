//! The list of a batch as bytes: its records and their fields.

/// A record of a list with these fields, each behind its length.
pub fn record(kind: u16, fields: &[&[u8]]) -> Vec<u8> {
    let four = |length: usize| (length as u32).to_le_bytes();
    let mut bytes = Vec::new();
    for field in fields {
        bytes.extend(four(field.len()));
        bytes.extend(*field);
    }
    let head = [&four(6 + bytes.len())[..], &kind.to_le_bytes()].concat();
    [head, bytes].concat()
}

/// The first record of a list, by its length; none if the list has not so much, or the length is not that of a record.
pub(crate) fn first_record(list: &[u8]) -> Option<&[u8]> {
    let length = u32::from_le_bytes(*list.first_chunk()?) as usize;
    list.get(..length).filter(|record| record.len() >= 6)
}

/// Where the last of so many fields of a record ends, which may be behind it; none if a length is not there.
pub(crate) fn ends(record: &[u8], fields: usize) -> Option<u64> {
    (0..fields).try_fold(6, |at, _| {
        let length = record.get(usize::try_from(at).ok()?..)?.first_chunk()?;
        Some(at + 4 + u64::from(u32::from_le_bytes(*length)))
    })
}

/// Whether so many fields fill a record for one who reckons with 4 bytes.
pub fn fills_by_4_bytes(record: &[u8], fields: usize) -> bool {
    let end = (0..fields).try_fold(6_u32, |at, _| {
        let length = record.get(at as usize..)?.first_chunk()?;
        Some(at.wrapping_add(4).wrapping_add(u32::from_le_bytes(*length)))
    });
    end == Some(record.len() as u32)
}
