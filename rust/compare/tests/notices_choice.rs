//! The comparison of choices and of names with an encoding (02's A3): what it must notice, it does.

use compare::asker::Asker;
use compare::edits;
use compare::encodings::encoding;
use compare::expand::{self, of_names};
use compare::files::{self, Ask, Entry};
use compare::lent::{bytes, tell};
use compare::lists;
use compare::random::Random;
use kveldrim::{ffi, DESKTOP_ENTRY};
use reference::{candidates, strip_encoding, Refusal};

/// How a value is found: its two ends, by a file and what is asked of it.
type Finding<const N: usize> = fn([&[u8]; N]) -> Result<(usize, usize), Refusal>;

/// The call of such a finding.
fn call<const N: usize>(
    finding: Finding<N>,
) -> impl Fn([(*const u8, usize); N], [*mut u64; 6]) -> u32 {
    move |slices, [place, byte, from, to, ..]| {
        let ends = finding(slices.map(bytes)).map(|(from, to)| [from, to]);
        tell(ends, [place, byte], [from, to])
    }
}

/// The entries of a key in a group.
fn entries_of(file: &[u8], group: &[u8], key: &[u8]) -> Vec<Entry> {
    let mut entries = files::entries(file);
    entries.retain(|entry| entry.group == group && entry.key == key);
    entries
}

/// Choice, but a postfix of the file becomes what `stripped` says, and of the postfixes that then are a candidate the one of the
/// number is taken that `taken` says.
fn choice(
    [file, group, key, locale]: [&[u8]; 4],
    stripped: impl Fn(&[u8]) -> Vec<u8>,
    taken: impl Fn(&[&[u8]]) -> usize,
) -> Result<(usize, usize), Refusal> {
    reference::choose(file, group, key, locale)?;
    let entries = entries_of(file, group, key);
    for candidate in candidates(locale) {
        let found: Vec<(&[u8], _)> = entries
            .iter()
            .filter_map(|entry| Some((entry.postfix.as_deref()?, entry.value)))
            .filter(|(postfix, _)| stripped(postfix) == candidate)
            .collect();
        if !found.is_empty() {
            let postfixes: Vec<&[u8]> = found.iter().map(|(postfix, _)| *postfix).collect();
            return Ok(found[taken(&postfixes)].1);
        }
    }
    reference::lookup(file, group, key)
}

/// The first of the postfixes that is so, else the first of all.
fn first_that(postfixes: &[&[u8]], is_so: impl Fn(&[u8]) -> bool) -> usize {
    let found = postfixes.iter().position(|postfix| is_so(postfix));
    found.unwrap_or(0)
}

const WRONG_CHOICES: [(&str, Finding<4>); 11] = [
    ("the encoding stays in the file", |asked| {
        choice(asked, <[u8]>::to_vec, |_| 0)
    }),
    ("the later line wins", |asked| {
        choice(asked, strip_encoding, |postfixes| postfixes.len() - 1)
    }),
    ("the modifier goes with the encoding", |asked| {
        let front = |postfix: &[u8]| {
            let mut parts = postfix.split(|byte| *byte == b'.');
            parts.next().unwrap_or_default().to_vec()
        };
        choice(asked, front, |_| 0)
    }),
    ("only UTF-8 goes", |asked| {
        let other = |postfix: &[u8]| match encoding(postfix) {
            Some(b"UTF-8") => strip_encoding(postfix),
            _ => postfix.to_vec(),
        };
        choice(asked, other, |_| 0)
    }),
    ("the caller's encoding wins", |asked| {
        let own = |postfix: &[u8]| encoding(postfix) == encoding(asked[3]);
        choice(asked, strip_encoding, |postfixes| {
            first_that(postfixes, own)
        })
    }),
    ("the caller's encoding wins if there is one", |asked| {
        let own = |postfix: &[u8]| {
            encoding(asked[3]).is_some() && encoding(postfix) == encoding(asked[3])
        };
        choice(asked, strip_encoding, |postfixes| {
            first_that(postfixes, own)
        })
    }),
    ("a postfix without encoding wins", |asked| {
        let whole = |postfix: &[u8]| encoding(postfix).is_none();
        choice(asked, strip_encoding, |postfixes| {
            first_that(postfixes, whole)
        })
    }),
    ("a postfix with an encoding wins", |asked| {
        let encoded = |postfix: &[u8]| encoding(postfix).is_some();
        choice(asked, strip_encoding, |postfixes| {
            first_that(postfixes, encoded)
        })
    }),
    ("lines come before candidates", |asked| {
        let [file, group, key, locale] = asked;
        reference::choose(file, group, key, locale)?;
        let candidates = candidates(locale);
        let is_one = |entry: &&Entry| {
            let postfix = entry.postfix.as_deref().map(strip_encoding);
            postfix.is_some_and(|postfix| candidates.contains(&postfix))
        };
        match entries_of(file, group, key).iter().find(is_one) {
            Some(entry) => Ok(entry.value),
            None => reference::lookup(file, group, key),
        }
    }),
    ("C with an encoding is never met", |asked| {
        let other = |postfix: &[u8]| match strip_encoding(postfix) {
            plain if plain == b"C" => postfix.to_vec(),
            stripped => stripped,
        };
        choice(asked, other, |_| 0)
    }),
    ("C with an encoding asks for its own", |asked| {
        let [file, group, key, locale] = asked;
        let right = reference::choose(file, group, key, locale)?;
        let is_it = |entry: &&Entry| entry.postfix.as_deref() == Some(locale);
        match strip_encoding(locale) == b"C" && encoding(locale).is_some() {
            true => {
                let entries = entries_of(file, group, key);
                Ok(entries
                    .iter()
                    .find(is_it)
                    .map_or(right, |entry| entry.value))
            }
            false => Ok(right),
        }
    }),
];

/// Whether a difference shows in a file of many languages and in what is asked of it.
fn is_seen(differs: impl Fn(&mut Asker, &[u8], &Ask) -> bool) -> bool {
    let mut asker = Asker::new(1);
    (1..=3_000).any(|seed| {
        let random = &mut Random::new(seed);
        let file = files::many_languages(random);
        let ask = files::ask(&file, random);
        differs(&mut asker, &file, &ask)
    })
}

#[test]
fn a_choice_that_takes_another_line() {
    let is_noticed =
        |choice| is_seen(|asker, file, ask| asker.choose_by(&call(choice), file, ask).is_err());
    assert!(!is_noticed(|asked| choice(asked, strip_encoding, |_| 0)));
    for (what, wrong) in WRONG_CHOICES {
        assert!(is_noticed(wrong), "{what}");
    }
}

/// The name of the first entry that is this key if encodings do not count.
fn name_without_encoding(file: &[u8], group: &[u8], name: &[u8]) -> Option<Vec<u8>> {
    let stripped = |name: &[u8]| {
        let name = name.strip_suffix(b"]").unwrap_or(name);
        let mut parts = name.splitn(2, |byte| *byte == b'[');
        (
            parts.next().map(<[u8]>::to_vec),
            parts.next().map(strip_encoding),
        )
    };
    let entries = files::entries(file).into_iter();
    let mut names = entries
        .filter(|entry| entry.group == group)
        .map(|entry| entry.name());
    names.find(|other| stripped(other) == stripped(name))
}

#[test]
fn a_lookup_that_strips_encodings() {
    let wrongs: [(&str, Finding<3>); 2] = [
        ("always", |[file, group, key]| {
            match name_without_encoding(file, group, key) {
                Some(name) => reference::lookup(file, group, &name),
                None => reference::lookup(file, group, key),
            }
        }),
        (
            "where the whole key is missing",
            |[file, group, key]| match (
                reference::lookup(file, group, key),
                name_without_encoding(file, group, key),
            ) {
                (Err(Refusal { number: 8, .. }), Some(name)) => {
                    reference::lookup(file, group, &name)
                }
                (told, _) => told,
            },
        ),
    ];
    let is_noticed =
        |lookup| is_seen(|asker, file, ask| asker.lookup_by(&call(lookup), file, ask).is_err());
    assert!(!is_noticed(|[file, group, key]| reference::lookup(
        file, group, key
    )));
    for (what, wrong) in wrongs {
        assert!(is_noticed(wrong), "{what}");
    }
}

/// A check to which postfixes that differ in their encoding alone are the same key twice.
unsafe extern "C" fn repeats_without_encoding(
    file: *const u8,
    file_len: usize,
    place: *mut u64,
    byte: *mut u64,
) -> u32 {
    // SAFETY: what is lent is passed on.
    let told = unsafe { ffi::kveldrim_check(file, file_len, place, byte) };
    let file = bytes((file, file_len));
    let is_repeated = |entry: &Entry| {
        let first = name_without_encoding(file, &entry.group, &entry.name());
        first != Some(entry.name())
    };
    match told == 0 && files::entries(file).iter().any(is_repeated) {
        true => 5,
        false => told,
    }
}

#[test]
fn a_check_that_strips_encodings() {
    let is_noticed = |check| is_seen(|asker, file, _| asker.check_by(check, file).is_err());
    assert!(!is_noticed(ffi::kveldrim_check));
    assert!(is_noticed(repeats_without_encoding));
}

/// The proved call, but a set and a remove find an entry whose postfix is equal without its encoding.
fn edits_without_encoding(call: &edits::Call, given: &edits::Given) -> u32 {
    let [group, key, text, requests] = given.arguments;
    // SAFETY: the number is lent.
    let length = unsafe { *given.file_len }.min(given.file.1 as u64) as usize;
    let file = bytes((given.file.0.cast_const(), length));
    let name = name_without_encoding(file, bytes(group), bytes(key));
    let key = name
        .as_ref()
        .map_or(key, |name| (name.as_ptr(), name.len()));
    edits::proved(
        call,
        &edits::Given {
            arguments: [group, key, text, requests],
            ..*given
        },
    )
}

#[test]
fn an_edit_that_strips_encodings() {
    let is_noticed = |name: &str| {
        let mut asker = Asker::new(1);
        let editor = |call: &edits::Call, given: &edits::Given| match call.name() == name {
            true => edits_without_encoding(call, given),
            false => edits::proved(call, given),
        };
        (1..=600).any(|seed| {
            let random = &mut Random::new(seed);
            let file = files::many_languages(random);
            let list = lists::started(&file, 12, random);
            asker.edits(&list, &editor).is_err()
        })
    };
    assert!(!is_noticed("undo"));
    for name in ["set", "remove"] {
        assert!(is_noticed(name), "{name}");
    }
}

/// An expansion that chooses one of Name and Icon in another way: the value so found takes the place of the right one.
fn expand_by(given: &expand::Given, key: &[u8], choice: Finding<4>) -> u32 {
    let [file, locale, location, list] = given.inputs.map(bytes);
    let mut other = file.to_vec();
    let right = reference::choose(file, DESKTOP_ENTRY, key, locale);
    if let (Ok((from, to)), Ok(found)) = (right, choice([file, DESKTOP_ENTRY, key, locale])) {
        other.splice(from..to, file[found.0..found.1].iter().copied());
    }
    let expand = |out: &mut [u8]| reference::expand(&other, locale, location, list, given.run, out);
    given.output.told(expand)
}

#[test]
fn an_expansion_that_takes_another_name_or_icon() {
    let is_noticed = |key: &[u8], choice| {
        let mut asker = Asker::new(1);
        (1..=3_000).any(|seed| {
            let question = of_names(&mut Random::new(seed));
            let expander = |given: &expand::Given| expand_by(given, key, choice);
            question.compare_by(&expander, &mut asker).is_err()
        })
    };
    for key in [&b"Name"[..], b"Icon"] {
        let right: Finding<4> = |asked| choice(asked, strip_encoding, |_| 0);
        assert!(!is_noticed(key, right));
        for (what, wrong) in WRONG_CHOICES {
            assert!(is_noticed(key, wrong), "{what}");
        }
    }
}
