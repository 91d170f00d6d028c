//! Makes single calls that edit: of some names, by any person, with any text.

use reference::RecordKind;

use crate::edits::{Call, Kind};
use crate::files::Ask;
use crate::pieces;
use crate::random::Random;

/// A person: one at a border of the two bytes, or any.
pub fn person(random: &mut Random) -> u16 {
    match random.below(8) {
        0 => 0,
        1 => 1,
        2 => 255,
        3 => 256,
        4 => 65_535,
        _ => random.number() as u16,
    }
}

/// A set or a remove of one of these names.
pub fn single(asks: &[Ask], random: &mut Random) -> Call {
    let ask = &asks[random.below(asks.len())];
    let kind = match random.once_in(3) {
        true => Kind::Remove,
        false => Kind::Set,
    };
    let key = match random.once_in(4) {
        true => &ask.plain,
        false => &ask.key,
    };
    call(kind, &ask.group, key, random)
}

/// A call, with as many arguments as its kind takes.
pub(crate) fn call(kind: Kind, group: &[u8], key: &[u8], random: &mut Random) -> Call {
    let mut call = Call::step(kind);
    if matches!(kind, Kind::Set | Kind::Remove) {
        call.record = RecordKind::Four(person(random));
        (call.group, call.key) = (group.to_vec(), key.to_vec());
    }
    if kind == Kind::Set {
        call.text = text(random);
    }
    call
}

/// A text to set: mostly fit, with what must be escaped, or unfit, or long.
fn text(random: &mut Random) -> Vec<u8> {
    match random.below(12) {
        0 => pieces::wild(random, 10),
        1 => pieces::text(random),
        2 => vec![random.byte_of(b"a \n\\"); random.within(30, 400)],
        3 => [b" ", &pieces::letters(random)[..]].concat(),
        4 => (0..random.within(0, 4))
            .map(|_| random.byte_of(b"\n\t\r\\ a\x01\x1F\x7F"))
            .collect(),
        5 => Vec::new(),
        _ => pieces::value(random, pieces::SOUND),
    }
}
