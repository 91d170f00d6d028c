//! What 02's A14 says of edits in parallel, tried on the library: sets in either order, and what is read after an edit. Which keys a
//! locale asks for is told by the reference.

use compare::edits::{Call, Kind};
use compare::random::Random;
use compare::run::each;
use compare::{files, pieces, singles};
use kveldrim::{Document, Refusal};
use reference::RecordKind;

const LISTS: u64 = 60_000;
const EDITS: u64 = 20_000;

/// A key with its whole postfix in a group.
#[derive(Clone, PartialEq)]
struct Name {
    group: Vec<u8>,
    key: Vec<u8>,
}

impl Name {
    /// One that stands in the file, mostly.
    fn of(file: &[u8], random: &mut Random) -> Name {
        let mut names = names(file);
        if !names.is_empty() && !random.once_in(8) {
            return names.swap_remove(random.below(names.len()));
        }
        let asked = files::ask(file, random);
        Name {
            group: asked.group,
            key: asked.key,
        }
    }

    fn is_in(&self, file: &[u8]) -> bool {
        kveldrim::lookup(file, &self.group, &self.key).is_ok()
    }

    fn plain(&self) -> &[u8] {
        self.key.split(|byte| *byte == b'[').next().unwrap()
    }

    fn postfix(&self) -> Option<Vec<u8>> {
        let postfix = self.key.split(|byte| *byte == b'[').nth(1)?;
        Some(postfix.strip_suffix(b"]").unwrap_or(postfix).to_vec())
    }

    /// Whether the choice of this key, without its postfix, asks for an entry: by A3 its postfix is stripped of the encoding.
    fn asks_for(&self, entry: &Name, locale: &[u8]) -> bool {
        let is_asked = match entry.postfix() {
            Some(postfix) => {
                reference::candidates(locale).contains(&reference::strip_encoding(&postfix))
            }
            None => true,
        };
        self.group == entry.group && self.plain() == entry.plain() && is_asked
    }
}

/// Every entry of a file.
fn names(file: &[u8]) -> Vec<Name> {
    let entries = files::entries(file).into_iter();
    entries
        .map(|entry| Name {
            key: entry.name(),
            group: entry.group,
        })
        .collect()
}

/// A set or a remove of an entry; the text is mostly fit.
fn call(kind: Kind, Name { group, key }: &Name, random: &mut Random) -> Call {
    let text = match random.once_in(6) {
        true => pieces::text(random),
        false => pieces::value(random, pieces::SOUND),
    };
    Call {
        record: RecordKind::Four(singles::person(random)),
        group: group.clone(),
        key: key.clone(),
        text,
        ..Call::step(kind)
    }
}

/// The file after these calls, if all are accepted.
fn after<'a>(file: &[u8], calls: impl IntoIterator<Item = &'a Call>) -> Result<Vec<u8>, Refusal> {
    let mut document = Document::new(file);
    for call in calls {
        call.on_buffers(&mut document.buffers())?;
    }
    Ok(document.file().to_vec())
}

/// Lists of sets on entries that the file has: where no entry is in both, it does not matter which list comes first. With one entry in
/// both, or with new ones, it may.
#[test]
fn sets_in_either_order() {
    let (mut same, mut longer, mut one_entry, mut new_entries) = (0, 0, 0, 0);
    let are_all = each("sets_in_either_order", LISTS, |seed| {
        let random = &mut Random::new(seed);
        let file = files::sound(random, 3, 6);
        let [mine, theirs] = [(); 2].map(|()| {
            let names = (0..random.within(1, 3)).map(|_| Name::of(&file, random));
            names.collect::<Vec<Name>>()
        });
        let [first, second] = [&mine, &theirs].map(|names| {
            let sets = names.iter().map(|name| call(Kind::Set, name, random));
            sets.collect::<Vec<Call>>()
        });
        let forth = after(&file, first.iter().chain(&second));
        let back = after(&file, second.iter().chain(&first));
        let (Ok(forth), Ok(back)) = (forth, back) else {
            return;
        };
        let meet = mine.iter().any(|name| theirs.contains(name));
        let mut all = mine.iter().chain(&theirs);
        match (meet, all.clone().all(|name| name.is_in(&file))) {
            (false, true) => {
                assert_eq!(
                    forth.escape_ascii().to_string(),
                    back.escape_ascii().to_string()
                );
                same += 1;
                longer += u64::from(mine.len() > 1 && theirs.len() > 1);
            }
            (true, true) => one_entry += u64::from(forth != back),
            (false, false) => {
                new_entries += u64::from(forth != back && !all.any(|name| name.is_in(&file)))
            }
            (true, false) => {}
        }
    });
    println!("{same} the same, {longer} of them with two sets or more each; {one_entry} of one entry and {new_entries} of new ones differ");
    if are_all {
        assert!(same > 20_000 && longer > 5_000 && one_entry > 1_000 && new_entries > 0);
    }
}

/// How often each came up.
#[derive(Debug, Default)]
struct Counts {
    edits: u64,
    inserts: u64,
    removes: u64,
    lookups: u64,
    choices: u64,
    /// Choices that hand back something else than before.
    moved: u64,
    moved_by_the_plain_key: u64,
    moved_by_an_encoding: u64,
}

/// After a set or a remove every other entry reads as before, and so does each choice that does not ask for the edited one.
#[test]
fn what_is_read_after_an_edit() {
    let mut counts = Counts::default();
    let are_all = each("what_is_read_after_an_edit", EDITS, |seed| {
        let random = &mut Random::new(seed);
        let before = files::sound(random, 3, 6);
        let edited = Name::of(&before, random);
        let kind = match random.once_in(3) {
            true => Kind::Remove,
            false => Kind::Set,
        };
        let Ok(after) = after(&before, [&call(kind, &edited, random)]) else {
            return;
        };
        counts.edits += 1;
        counts.inserts += u64::from(!edited.is_in(&before));
        counts.removes += u64::from(kind == Kind::Remove);
        let mut asked = names(&before);
        asked.extend((0..3).map(|_| Name::of(&after, random)));
        let postfixes = asked.iter().filter_map(Name::postfix);
        let mut locales: Vec<Vec<u8>> = postfixes.take(4).collect();
        locales.extend([Vec::new(), pieces::locale(random)]);
        for name in &asked {
            let read = |file| kveldrim::lookup(file, &name.group, &name.key);
            assert!(read(&before) == read(&after) || *name == edited);
            counts.lookups += 1;
            for locale in &locales {
                let chosen = |file| kveldrim::choose(file, &name.group, name.plain(), locale);
                let moved = chosen(&before) != chosen(&after);
                assert!(!moved || name.asks_for(&edited, locale));
                counts.choices += 1;
                counts.moved += u64::from(moved);
                counts.moved_by_the_plain_key += u64::from(moved && edited.key == name.plain());
                counts.moved_by_an_encoding += u64::from(moved && edited.key.contains(&b'.'));
            }
        }
    });
    println!("{counts:?}");
    if are_all {
        let Counts {
            edits,
            inserts,
            removes,
            lookups,
            choices,
            moved,
            moved_by_the_plain_key,
            moved_by_an_encoding,
        } = counts;
        assert!(edits > 15_000 && inserts > 500 && removes > 2_000 && lookups > 100_000);
        assert!(
            choices > 300_000
                && moved_by_the_plain_key > 1_000
                && moved > moved_by_the_plain_key + 1_000
                && moved_by_an_encoding > 1_000
        );
    }
}
