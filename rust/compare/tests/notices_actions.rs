//! The comparison of actions (02's A1): what it must notice, it does.

use compare::actions::{self, expansion, group_identifiers, question};
use compare::asker::{Asker, OutputCall};
use compare::expand::{self, Given};
use compare::files::{self, Entry};
use compare::lent::{bytes, Output};
use compare::pieces::SOUND;
use compare::random::Random;
use kveldrim::{list_of, DESKTOP_ENTRY};
use reference::lines::is_plain_key;
use reference::text::{put_out, split_list, unescape};
use reference::{action_group, Refusal};

type Told<A> = Result<A, Refusal>;

/// How often something is wrong in the case of a seed: never, now and then, often.
fn once(seed: u64) -> usize {
    [SOUND, 14, 4][seed as usize % 3]
}

/// Whether lists of actions show that a call is not the right one.
fn is_list_noticed(call: OutputCall<2>) -> bool {
    let mut asker = Asker::new(1);
    (1..=4_000).any(|seed| {
        let question = question(&mut Random::new(seed), once(seed));
        question.compare_by(call, &mut asker).is_err()
    })
}

/// Whether expansions of actions show that a call is not the right one.
fn is_expansion_noticed(call: &dyn Fn(&Given) -> u32) -> bool {
    let mut asker = Asker::new(1);
    (1..=4_000).any(|seed| {
        let question = expansion(&mut Random::new(seed), once(seed));
        question.compare_by(call, &mut asker).is_err()
    })
}

/// Something wrong that is written after a call.
type Wrong = fn(Output);

/// SAFETY of all: they write to what the comparison lent, or to the guards beside it.
const WRONG_OUTPUTS: [(&str, Wrong); 7] = [
    ("place", |output| unsafe { *output.place += 1 }),
    ("byte", |output| unsafe { *output.byte += 1 }),
    ("written", |output| unsafe { *output.written ^= 1 }),
    ("a byte before the output", |output| {
        if output.out.1 > 0 {
            unsafe { *output.out.0.offset(-1) ^= 1 }
        }
    }),
    ("the output's first byte", |output| {
        if output.out.1 > 0 {
            unsafe { *output.out.0 ^= 1 }
        }
    }),
    ("the output's last byte", |output| {
        if output.out.1 > 0 {
            unsafe { *output.out.0.add(output.out.1 - 1) ^= 1 }
        }
    }),
    ("a byte behind the output", |output| {
        if output.out.1 > 0 {
            unsafe { *output.out.0.add(output.out.1) ^= 1 }
        }
    }),
];

#[test]
fn a_call_that_writes_something_wrong() {
    assert!(!is_list_noticed(&actions::proved));
    assert!(!is_expansion_noticed(&expand::proved));
    for (what, wrong) in WRONG_OUTPUTS {
        for accepted in [true, false] {
            let spoilt = |told: u32, output| {
                if (told == 0) == accepted {
                    wrong(output);
                }
                told
            };
            let list = |inputs, output| spoilt(actions::proved(inputs, output), output);
            assert!(is_list_noticed(&list), "{what} of a list");
            let expansion = |given: &Given| spoilt(expand::proved(given), given.output);
            assert!(is_expansion_noticed(&expansion), "{what} of an expansion");
        }
    }
}

/// The raw value of a key in a group of a well-formed file.
fn value<'a>(file: &'a [u8], group: &[u8], key: &[u8]) -> Option<&'a [u8]> {
    let (from, to) = reference::lookup(file, group, key).ok()?;
    Some(&file[from..to])
}

/// The raw value of a key in a group by locale.
fn chosen<'a>(file: &'a [u8], group: &[u8], key: &[u8], locale: &[u8]) -> Told<&'a [u8]> {
    let (from, to) = reference::choose(file, group, key, locale)?;
    Ok(&file[from..to])
}

/// The raw label of an action by locale.
fn raw_label<'a>(file: &'a [u8], action: &[u8], locale: &[u8]) -> Told<&'a [u8]> {
    chosen(file, &action_group(action), b"Name", locale)
}

fn label(file: &[u8], action: &[u8], locale: &[u8]) -> Told<Vec<u8>> {
    unescape(raw_label(file, action, locale)?)
}

/// Whether a file has a group for an action.
fn has_group(file: &[u8], action: &[u8]) -> bool {
    group_identifiers(file).iter().any(|group| group == action)
}

fn has_name(file: &[u8], action: &[u8]) -> bool {
    value(file, &action_group(action), b"Name").is_some()
}

/// The first group with a Name that is so, if the action's own is not there.
fn other_group(file: &[u8], action: &[u8], is_so: impl Fn(&[u8]) -> bool) -> Option<Vec<u8>> {
    let own = [action.to_vec()].into_iter();
    let groups = own.chain(
        group_identifiers(file)
            .into_iter()
            .filter(|group| is_so(group)),
    );
    groups.into_iter().find(|group| has_name(file, group))
}

/// The elements of a list whose escapes are not read.
fn raw_elements(list: &[u8]) -> Vec<Vec<u8>> {
    list.split(|byte| *byte == b';')
        .map(<[u8]>::to_vec)
        .collect()
}

fn first_of_each(mut identifiers: Vec<Vec<u8>>) -> Vec<Vec<u8>> {
    let mut seen = Vec::new();
    identifiers.retain(|identifier| {
        let fresh = !seen.contains(identifier);
        seen.push(identifier.clone());
        fresh
    });
    identifiers
}

/// A label by file, identifier and locale.
type Label = fn(&[u8], &[u8], &[u8]) -> Told<Vec<u8>>;

/// How the actions of a well-formed file are listed.
struct Listing {
    /// The raw list of a file, by locale.
    list: for<'a> fn(&'a [u8], &[u8]) -> Option<&'a [u8]>,
    elements: fn(&[u8]) -> Told<Vec<Vec<u8>>>,
    /// Whether an identifier has the right form.
    is_identifier: fn(&[u8]) -> bool,
    /// Whether an action is there, by file and identifier.
    is_there: fn(&[u8], &[u8]) -> bool,
    /// What is left of equal identifiers.
    once_each: fn(Vec<Vec<u8>>) -> Vec<Vec<u8>>,
    label: Label,
}

const RIGHT: Listing = Listing {
    list: |file, _| value(file, DESKTOP_ENTRY, b"Actions"),
    elements: split_list,
    is_identifier: is_plain_key,
    is_there: has_name,
    once_each: first_of_each,
    label,
};

/// An identifier and its label.
type Pair = [Vec<u8>; 2];

impl Listing {
    /// The identifiers, or 9 of the list.
    fn identifiers(&self, file: &[u8], locale: &[u8]) -> Told<Vec<Vec<u8>>> {
        let list = (self.list)(file, locale).unwrap_or_default();
        let mut identifiers = (self.elements)(list)?;
        identifiers.retain(|action| (self.is_identifier)(action) && (self.is_there)(file, action));
        Ok((self.once_each)(identifiers))
    }

    /// All that is listed: 1 to 6, 7, 9 of the list, 9 of a label.
    fn pairs(&self, file: &[u8], locale: &[u8]) -> Told<Vec<Pair>> {
        form(file, locale)?;
        let pair = |action: Vec<u8>| {
            let label = (self.label)(file, &action, locale)?;
            Ok([action, label])
        };
        let identifiers = self.identifiers(file, locale)?.into_iter();
        identifiers.map(pair).collect()
    }

    fn made(&self, [file, locale]: [&[u8]; 2], out: &mut [u8]) -> Told<usize> {
        put(self.pairs(file, locale)?, out)
    }
}

/// 1 to 6 of a file, then 7 of a locale.
fn form(file: &[u8], locale: &[u8]) -> Told<()> {
    match reference::choose(file, DESKTOP_ENTRY, b"Actions", locale) {
        Err(refusal) if refusal.number != 8 => Err(refusal),
        _ => Ok(()),
    }
}

/// The records of these actions, or 11.
fn put(pairs: Vec<Pair>, out: &mut [u8]) -> Told<usize> {
    put_out(&list_of(&pairs.concat()), out)
}

/// Ways to list that are right but for a part, and whether this shows in an expansion too.
const WRONG_LISTINGS: [(&str, bool, Listing); 29] = [
    (
        "the last of equal identifiers is taken",
        false,
        Listing {
            once_each: |mut identifiers| {
                identifiers.reverse();
                let mut last_of_each = first_of_each(identifiers);
                last_of_each.reverse();
                last_of_each
            },
            ..RIGHT
        },
    ),
    (
        "equal identifiers are listed again",
        false,
        Listing {
            once_each: |identifiers| identifiers,
            ..RIGHT
        },
    ),
    (
        "only neighbours are asked whether they are equal",
        false,
        Listing {
            once_each: |mut identifiers| {
                identifiers.dedup();
                identifiers
            },
            ..RIGHT
        },
    ),
    (
        "in the order of the identifiers",
        false,
        Listing {
            once_each: |mut identifiers| {
                identifiers.sort();
                identifiers.dedup();
                identifiers
            },
            ..RIGHT
        },
    ),
    (
        "Actions by locale",
        true,
        Listing {
            list: |file, locale| chosen(file, DESKTOP_ENTRY, b"Actions", locale).ok(),
            ..RIGHT
        },
    ),
    (
        "Actions of any group",
        true,
        Listing {
            list: |file, _| {
                let mut entries = files::entries(file).into_iter();
                let (from, to) = entries.find(|entry| entry.name() == b"Actions")?.value;
                Some(&file[from..to])
            },
            ..RIGHT
        },
    ),
    (
        "the last element needs its semicolon",
        true,
        Listing {
            elements: |list| {
                let mut elements = split_list(list)?;
                if !list.ends_with(b";") {
                    elements.pop();
                }
                Ok(elements)
            },
            ..RIGHT
        },
    ),
    (
        "the list ends at an empty element",
        true,
        Listing {
            elements: |list| {
                let elements = split_list(list)?.into_iter();
                Ok(elements.take_while(|element| !element.is_empty()).collect())
            },
            ..RIGHT
        },
    ),
    (
        "a semicolon ends an element also behind a backslash",
        true,
        Listing {
            elements: |list| split_list(list).map(|_| raw_elements(list)),
            ..RIGHT
        },
    ),
    (
        "spaces around an identifier are cut",
        true,
        Listing {
            elements: |list| {
                let elements = split_list(list)?.into_iter();
                Ok(elements
                    .map(|element| element.trim_ascii().to_vec())
                    .collect())
            },
            ..RIGHT
        },
    ),
    (
        "escapes of the list are not asked",
        true,
        Listing {
            elements: |list| Ok(raw_elements(list)),
            ..RIGHT
        },
    ),
    (
        "a list with a wrong escape is empty",
        true,
        Listing {
            elements: |list| Ok(split_list(list).unwrap_or_default()),
            ..RIGHT
        },
    ),
    (
        "the list has the escapes of text",
        true,
        Listing {
            elements: |list| unescape(list).and_then(|_| split_list(list)),
            ..RIGHT
        },
    ),
    (
        "the place of a wrong escape counts in its element",
        true,
        Listing {
            elements: |list| {
                split_list(list).map_err(|refusal| {
                    let before = &list[..refusal.place as usize];
                    let start = before.iter().rposition(|byte| *byte == b';');
                    Refusal::at(9, before.len() - start.map_or(0, |at| at + 1))
                })
            },
            ..RIGHT
        },
    ),
    (
        "any identifier",
        true,
        Listing {
            is_identifier: |_| true,
            ..RIGHT
        },
    ),
    (
        "any identifier, raw",
        true,
        Listing {
            elements: |list| split_list(list).map(|_| raw_elements(list)),
            is_identifier: |_| true,
            ..RIGHT
        },
    ),
    (
        "an empty identifier",
        true,
        Listing {
            is_identifier: |action| action.is_empty() || is_plain_key(action),
            ..RIGHT
        },
    ),
    (
        "an underscore in an identifier",
        true,
        Listing {
            is_identifier: |action| {
                let mut parts = action.split(|byte| *byte == b'_');
                parts.all(is_plain_key)
            },
            ..RIGHT
        },
    ),
    (
        "only letters in an identifier",
        true,
        Listing {
            is_identifier: |action| action.iter().all(u8::is_ascii_alphabetic),
            ..RIGHT
        },
    ),
    (
        "a group without Name",
        true,
        Listing {
            is_there: has_group,
            label: |file, action, locale| match has_name(file, action) {
                true => label(file, action, locale),
                false => Ok(Vec::new()),
            },
            ..RIGHT
        },
    ),
    (
        "no group",
        false,
        Listing {
            is_there: |file, action| has_name(file, action) || !has_group(file, action),
            label: |file, action, locale| match has_name(file, action) {
                true => label(file, action, locale),
                false => Ok(action.to_vec()),
            },
            ..RIGHT
        },
    ),
    (
        "a group that begins with the identifier",
        false,
        Listing {
            is_there: |file, action| {
                other_group(file, action, |group| group.starts_with(action)).is_some()
            },
            label: |file, action, locale| {
                let group = other_group(file, action, |group| group.starts_with(action));
                label(file, &group.unwrap_or_default(), locale)
            },
            ..RIGHT
        },
    ),
    (
        "a group with the identifier in other letters",
        false,
        Listing {
            is_there: |file, action| {
                other_group(file, action, |group| group.eq_ignore_ascii_case(action)).is_some()
            },
            label: |file, action, locale| {
                let group = other_group(file, action, |group| group.eq_ignore_ascii_case(action));
                label(file, &group.unwrap_or_default(), locale)
            },
            ..RIGHT
        },
    ),
    (
        "an action without Exec is skipped",
        false,
        Listing {
            is_there: |file, action| {
                has_name(file, action) && value(file, &action_group(action), b"Exec").is_some()
            },
            ..RIGHT
        },
    ),
    (
        "an action whose Name is empty or wrong is skipped",
        true,
        Listing {
            is_there: |file, action| label(file, action, b"").is_ok_and(|label| !label.is_empty()),
            ..RIGHT
        },
    ),
    (
        "the label is the application's",
        false,
        Listing {
            label: |file, action, locale| match chosen(file, DESKTOP_ENTRY, b"Name", locale) {
                Ok(raw) => unescape(raw),
                Err(_) => label(file, action, locale),
            },
            ..RIGHT
        },
    ),
    (
        "the label is the plain Name",
        false,
        Listing {
            label: |file, action, _| label(file, action, b""),
            ..RIGHT
        },
    ),
    (
        "the label is the raw Name",
        false,
        Listing {
            label: |file, action, locale| {
                label(file, action, locale)?;
                raw_label(file, action, locale).map(<[u8]>::to_vec)
            },
            ..RIGHT
        },
    ),
    (
        "the label has the escapes of a list",
        false,
        Listing {
            label: |file, action, locale| {
                let elements = split_list(raw_label(file, action, locale)?)?;
                Ok(elements.join(&b';'))
            },
            ..RIGHT
        },
    ),
];

#[test]
fn actions_that_are_listed_wrongly() {
    let list = |listing: &Listing| {
        is_list_noticed(&|inputs, output| {
            let asked = inputs.map(bytes);
            output.told(|out| listing.made(asked, out))
        })
    };
    let expansion = |listing: &Listing| {
        is_expansion_noticed(&|given| {
            let asked = Asked::of(given);
            given.output.told(|out| {
                asked.first()?;
                asked.is_listed(listing)?;
                asked.own(out)
            })
        })
    };
    assert!(!list(&RIGHT) && !expansion(&RIGHT));
    for (what, shows, wrong) in &WRONG_LISTINGS {
        assert!(list(wrong), "{what}");
        assert!(!shows || expansion(wrong), "{what} in an expansion");
    }
}

/// A list of actions to an output, by file and locale.
type List = fn([&[u8]; 2], &mut [u8]) -> Told<usize>;

/// Those of the groups that have a Name and an identifier of the right form, with their labels.
fn pairs_of_groups(file: &[u8], locale: &[u8]) -> Told<Vec<Pair>> {
    let mut identifiers = group_identifiers(file);
    identifiers.retain(|action| is_plain_key(action) && has_name(file, action));
    let pair = |action: Vec<u8>| Ok([action.clone(), label(file, &action, locale)?]);
    identifiers.into_iter().map(pair).collect()
}

/// A right list, but of the wrong labels `told` says which one is told, by the raw labels in list order.
fn telling(
    [file, locale]: [&[u8]; 2],
    out: &mut [u8],
    told: impl Fn(Vec<Refusal>) -> Refusal,
) -> Told<usize> {
    form(file, locale)?;
    let identifiers = RIGHT.identifiers(file, locale)?.into_iter();
    let labels = identifiers.map(|action| label(file, &action, locale));
    let refusals: Vec<Refusal> = labels.filter_map(Result::err).collect();
    match refusals.len() {
        0 => RIGHT.made([file, locale], out),
        _ => Err(told(refusals)),
    }
}

/// A right list, but its records are written so.
fn writing(
    [file, locale]: [&[u8]; 2],
    out: &mut [u8],
    records: impl Fn(Vec<Pair>) -> Vec<u8>,
) -> Told<usize> {
    put_out(&records(RIGHT.pairs(file, locale)?), out)
}

/// Lists that are right but for the order of things, what is asked or how it is written.
const WRONG_LISTS: [(&str, List); 20] = [
    ("in the order of the groups", |[file, locale], out| {
        let mut pairs = RIGHT.pairs(file, locale)?;
        let groups = group_identifiers(file);
        pairs.sort_by_key(|[action, _]| groups.iter().position(|group| group == action));
        put(pairs, out)
    }),
    ("in reverse order", |[file, locale], out| {
        let mut pairs = RIGHT.pairs(file, locale)?;
        pairs.reverse();
        put(pairs, out)
    }),
    ("every group is listed", |[file, locale], out| {
        RIGHT.pairs(file, locale)?;
        put(pairs_of_groups(file, locale)?, out)
    }),
    ("without Actions every group is listed", |asked, out| {
        let [file, locale] = asked;
        match form(file, locale).map(|()| value(file, DESKTOP_ENTRY, b"Actions")) {
            Ok(None) => put(pairs_of_groups(file, locale)?, out),
            _ => RIGHT.made(asked, out),
        }
    }),
    ("8 without Actions", |asked, out| {
        let [file, locale] = asked;
        form(file, locale)?;
        value(file, DESKTOP_ENTRY, b"Actions").ok_or(Refusal::new(8))?;
        RIGHT.made(asked, out)
    }),
    (
        "labels that are not listed are read",
        |[file, locale], out| {
            let pairs = RIGHT.pairs(file, locale)?;
            pairs_of_groups(file, locale)?;
            put(pairs, out)
        },
    ),
    ("labels before Actions", |asked, out| {
        let [file, locale] = asked;
        let despite = Listing {
            elements: |list| Ok(raw_elements(list)),
            ..RIGHT
        };
        despite.pairs(file, locale)?;
        RIGHT.made(asked, out)
    }),
    ("the last wrong label is told", |asked, out| {
        telling(asked, out, |refusals| refusals[refusals.len() - 1])
    }),
    ("the lowest place of a wrong label is told", |asked, out| {
        let lowest = |refusals: Vec<Refusal>| refusals.into_iter().min_by_key(|told| told.place);
        telling(asked, out, |refusals| {
            lowest(refusals).unwrap_or(Refusal::new(9))
        })
    }),
    ("the first wrong group is told", |asked, out| {
        let [file, locale] = asked;
        RIGHT.made(asked, out).map_err(|refusal| {
            let listed = RIGHT.identifiers(file, locale).unwrap_or_default();
            let is_listed = |action: &Vec<u8>| listed.contains(action);
            let mut groups = group_identifiers(file).into_iter().filter(is_listed);
            let wrong = groups.find_map(|action| label(file, &action, locale).err());
            wrong.filter(|_| refusal.number == 9).unwrap_or(refusal)
        })
    }),
    (
        "the place of a wrong label counts in the file",
        |asked, out| {
            let [file, locale] = asked;
            RIGHT.made(asked, out).map_err(|refusal| {
                let identifiers = RIGHT.identifiers(file, locale).unwrap_or_default();
                let groups = identifiers.iter().map(|action| action_group(action));
                let mut ends = groups
                    .filter_map(|group| reference::choose(file, &group, b"Name", locale).ok());
                let wrong = ends.find(|(from, to)| unescape(&file[*from..*to]).is_err());
                match (refusal.number, wrong) {
                    (9, Some((from, _))) => Refusal::at(9, from + refusal.place as usize),
                    _ => refusal,
                }
            })
        },
    ),
    ("Actions before the locale", |asked, out| {
        let [file, locale] = asked;
        reference::check(file)?;
        RIGHT.identifiers(file, locale)?;
        RIGHT.made(asked, out)
    }),
    (
        "the locale is asked only for a label",
        |[file, locale], out| {
            reference::check(file)?;
            match RIGHT.identifiers(file, locale)?.is_empty() {
                true => Ok(0),
                false => RIGHT.made([file, locale], out),
            }
        },
    ),
    ("11 before labels", |asked, out| {
        let [file, locale] = asked;
        form(file, locale)?;
        match 12 * RIGHT.identifiers(file, locale)?.len() > out.len() {
            true => Err(Refusal::new(11)),
            false => RIGHT.made(asked, out),
        }
    }),
    ("the label before the identifier", |asked, out| {
        writing(asked, out, |pairs| {
            let pairs = pairs.into_iter().map(|[action, label]| [label, action]);
            list_of(&pairs.collect::<Vec<_>>().concat())
        })
    }),
    ("all identifiers before all labels", |asked, out| {
        writing(asked, out, |pairs| {
            let [identifiers, labels] = [0, 1].map(|at| pairs.iter().map(move |pair| &pair[at]));
            list_of(&identifiers.chain(labels).collect::<Vec<_>>())
        })
    }),
    ("one record for both", |asked, out| {
        writing(asked, out, |pairs| {
            let both = pairs.iter().map(|pair| pair.concat());
            list_of(&both.collect::<Vec<_>>())
        })
    }),
    ("records of the kind 3", |asked, out| {
        writing(asked, out, |pairs| {
            let records = pairs.concat().into_iter().map(|text| {
                let mut record = list_of(&[text]);
                record[4] = 3;
                record
            });
            records.collect::<Vec<_>>().concat()
        })
    }),
    (
        "as many records as there is room for",
        |[file, locale], out| {
            let mut written = 0;
            for text in RIGHT.pairs(file, locale)?.concat() {
                match put_out(&list_of(&[text]), &mut out[written..]) {
                    Ok(more) => written += more,
                    Err(_) => break,
                }
            }
            Ok(written)
        },
    ),
    ("the rest of the output is cleared", |asked, out| {
        let written = RIGHT.made(asked, out)?;
        out[written..].fill(0);
        Ok(written)
    }),
];

#[test]
fn a_list_that_is_wrong() {
    for (what, wrong) in WRONG_LISTS {
        let call = |inputs: [(*const u8, usize); 2], output: Output| {
            let asked = inputs.map(bytes);
            output.told(|out| wrong(asked, out))
        };
        assert!(is_list_noticed(&call), "{what}");
    }
}

/// What an action's expansion is handed but for its output.
struct Asked<'a> {
    file: &'a [u8],
    action: &'a [u8],
    locale: &'a [u8],
    location: &'a [u8],
    list: &'a [u8],
    run: u64,
}

impl<'a> Asked<'a> {
    fn of(given: &Given) -> Asked<'a> {
        let [file, locale, location, list] = given.inputs.map(bytes);
        Asked {
            file,
            action: given.action.map(bytes).unwrap_or_default(),
            locale,
            location,
            list,
            run: given.run,
        }
    }

    /// What every expansion asks first: 1 to 6, 14, 7, 10.
    fn first(&self) -> Told<()> {
        reference::check(self.file)?;
        let sound = b"[Desktop Entry]\nExec=v\n";
        reference::runs(sound, self.locale, self.location, self.list).map(drop)
    }

    /// Whether the action is listed so: 9 of the list, 8.
    fn is_listed(&self, listing: &Listing) -> Told<()> {
        let identifiers = listing.identifiers(self.file, self.locale)?;
        match identifiers.iter().any(|action| action == self.action) {
            true => Ok(()),
            false => Err(Refusal::new(8)),
        }
    }

    /// What an expansion of an action asks before its Exec.
    fn before_exec(&self) -> Told<()> {
        self.first()?;
        self.is_listed(&RIGHT)
    }

    fn group(&self) -> Vec<u8> {
        action_group(self.action)
    }

    /// Whether an entry is one that the expansion takes: the application's Name, the action's Exec and Icon.
    fn is_own(&self, entry: &Entry) -> bool {
        match &entry.key[..] {
            b"Name" => entry.group == DESKTOP_ENTRY,
            b"Exec" | b"Icon" => entry.group == self.group(),
            _ => false,
        }
    }

    /// The same, but of a key in another group.
    fn is_of(&self, entry: &Entry, key: &str, group: &[u8]) -> bool {
        match entry.key == key.as_bytes() {
            true => entry.group == group,
            false => self.is_own(entry),
        }
    }

    /// The raw value of a key in the action's group.
    fn value(&self, key: &str) -> Option<&[u8]> {
        value(self.file, &self.group(), key.as_bytes())
    }

    /// The lines of these entries of the file.
    fn lines(&self, is_taken: impl Fn(&Entry) -> bool) -> Vec<u8> {
        let entries = files::entries(self.file).into_iter();
        let lines = entries.filter(is_taken).map(|entry| {
            let (from, to) = entry.value;
            [&entry.name()[..], b"=", &self.file[from..to], b"\n"].concat()
        });
        lines.collect::<Vec<_>>().concat()
    }

    /// The expansion of an application with these lines.
    fn with(&self, lines: Vec<u8>, out: &mut [u8]) -> Told<usize> {
        let file = [b"[Desktop Entry]\n", &lines[..]].concat();
        reference::expand(&file, self.locale, self.location, self.list, self.run, out)
    }

    /// The expansion of an application that has just the entries that the action's expansion takes.
    fn own(&self, out: &mut [u8]) -> Told<usize> {
        self.with(self.lines(|entry| self.is_own(entry)), out)
    }

    /// The right expansion.
    fn right(&self, out: &mut [u8]) -> Told<usize> {
        self.before_exec()?;
        self.own(out)
    }

    /// The right expansion, but with just these entries.
    fn taking(&self, out: &mut [u8], is_taken: impl Fn(&Entry) -> bool) -> Told<usize> {
        self.before_exec()?;
        self.with(self.lines(is_taken), out)
    }

    /// The right expansion of another action.
    fn of_action(&self, action: &[u8], out: &mut [u8]) -> Told<usize> {
        Asked { action, ..*self }.right(out)
    }
}

/// The expansion of an action to an output.
type Expansion = fn(&Asked, &mut [u8]) -> Told<usize>;

const WRONG_EXPANSIONS: [(&str, Expansion); 28] = [
    ("the application's Exec", |asked, out| {
        asked.taking(out, |entry| asked.is_of(entry, "Exec", DESKTOP_ENTRY))
    }),
    (
        "the application's Exec where there is none",
        |asked, out| {
            asked.taking(out, |entry| match asked.value("Exec") {
                Some(_) => asked.is_own(entry),
                None => asked.is_of(entry, "Exec", DESKTOP_ENTRY),
            })
        },
    ),
    ("the application's Icon", |asked, out| {
        asked.taking(out, |entry| asked.is_of(entry, "Icon", DESKTOP_ENTRY))
    }),
    (
        "the application's Icon where there is none",
        |asked, out| {
            asked.taking(out, |entry| match asked.value("Icon") {
                Some(_) => asked.is_own(entry),
                None => asked.is_of(entry, "Icon", DESKTOP_ENTRY),
            })
        },
    ),
    ("the application's Icon where it is empty", |asked, out| {
        asked.taking(out, |entry| match asked.value("Icon") {
            Some(b"") => asked.is_of(entry, "Icon", DESKTOP_ENTRY),
            _ => asked.is_own(entry),
        })
    }),
    ("no Icon", |asked, out| {
        asked.taking(out, |entry| asked.is_own(entry) && entry.key != b"Icon")
    }),
    ("the plain Icon", |asked, out| {
        asked.taking(out, |entry| {
            asked.is_own(entry) && (entry.key != b"Icon" || entry.postfix.is_none())
        })
    }),
    ("8 for a missing Icon", |asked, out| {
        let written = asked.right(out)?;
        asked.value("Icon").map(|_| written).ok_or(Refusal::new(8))
    }),
    ("a wrong Icon is none", |asked, out| {
        let group = asked.group();
        let icon = chosen(asked.file, &group, b"Icon", asked.locale);
        let is_wrong = icon.is_ok_and(|raw| unescape(raw).is_err());
        asked.taking(out, |entry| {
            asked.is_own(entry) && (entry.key != b"Icon" || !is_wrong)
        })
    }),
    ("the action's Name", |asked, out| {
        asked.taking(out, |entry| asked.is_of(entry, "Name", &asked.group()))
    }),
    ("the application's plain Name", |asked, out| {
        asked.taking(out, |entry| {
            asked.is_own(entry) && (entry.key != b"Name" || entry.postfix.is_none())
        })
    }),
    ("the action's Name where there is none", |asked, out| {
        asked.taking(out, |entry| {
            match value(asked.file, DESKTOP_ENTRY, b"Name") {
                Some(_) => asked.is_own(entry),
                None => asked.is_of(entry, "Name", &asked.group()),
            }
        })
    }),
    ("Icon before Name", |asked, out| {
        asked.before_exec()?;
        let others = asked.lines(|entry| asked.is_own(entry) && entry.key != b"Name");
        let named = [&others[..], b"Name=n\n"].concat();
        match asked.with(named, &mut out.to_vec()) {
            Err(refusal) if refusal.number == 9 => Err(refusal),
            _ => asked.own(out),
        }
    }),
    ("the Exec of the locale", |asked, out| {
        asked.before_exec()?;
        let exec = chosen(asked.file, &asked.group(), b"Exec", asked.locale)?;
        let others = asked.lines(|entry| asked.is_own(entry) && entry.key != b"Exec");
        asked.with([b"Exec=", exec, b"\n", &others].concat(), out)
    }),
    ("a wrong label of its own", |asked, out| {
        asked.before_exec()?;
        label(asked.file, asked.action, asked.locale)?;
        asked.right(out)
    }),
    ("a wrong label of any", |asked, out| {
        asked.before_exec()?;
        RIGHT.pairs(asked.file, asked.locale)?;
        asked.right(out)
    }),
    ("an action that is not in the list", |asked, out| {
        asked.first()?;
        RIGHT.identifiers(asked.file, asked.locale)?;
        match is_plain_key(asked.action) && has_name(asked.file, asked.action) {
            true => asked.own(out),
            false => asked.right(out),
        }
    }),
    ("any action where there is no list", |asked, out| {
        asked.first()?;
        match value(asked.file, DESKTOP_ENTRY, b"Actions") {
            None => asked.own(out),
            Some(_) => asked.right(out),
        }
    }),
    ("7 for another form", |asked, out| {
        asked.first()?;
        match is_plain_key(asked.action) {
            true => asked.right(out),
            false => Err(Refusal::new(7)),
        }
    }),
    ("7 for another form, after Actions", |asked, out| {
        asked.first()?;
        RIGHT.identifiers(asked.file, asked.locale)?;
        match is_plain_key(asked.action) {
            true => asked.right(out),
            false => Err(Refusal::new(7)),
        }
    }),
    ("8 before 9 of Actions", |asked, out| {
        asked.first()?;
        match is_plain_key(asked.action) && has_name(asked.file, asked.action) {
            true => asked.right(out),
            false => Err(Refusal::new(8)),
        }
    }),
    ("no Exec before 9 of Actions", |asked, out| {
        asked.first()?;
        match has_name(asked.file, asked.action) && asked.value("Exec").is_none() {
            true => Err(Refusal::new(8)),
            false => asked.right(out),
        }
    }),
    ("9 of Exec before not listed", |asked, out| {
        asked.first()?;
        RIGHT.identifiers(asked.file, asked.locale)?;
        asked.value("Exec").map_or(Ok(Vec::new()), unescape)?;
        asked.right(out)
    }),
    (
        "Actions before the list, the locale and the items",
        |asked, out| {
            reference::check(asked.file)?;
            RIGHT.identifiers(asked.file, asked.locale)?;
            asked.right(out)
        },
    ),
    (
        "not listed before the list, the locale and the items",
        |asked, out| {
            reference::check(asked.file)?;
            asked.is_listed(&RIGHT)?;
            asked.right(out)
        },
    ),
    ("an identifier in other letters", |asked, out| {
        let listed = RIGHT
            .identifiers(asked.file, asked.locale)
            .unwrap_or_default();
        let own = listed.iter().any(|action| action == asked.action);
        let mut alike = listed
            .iter()
            .filter(|action| action.eq_ignore_ascii_case(asked.action));
        match alike.next().filter(|_| !own) {
            Some(action) => asked.of_action(action, out),
            None => asked.right(out),
        }
    }),
    ("spaces around an identifier", |asked, out| {
        asked.of_action(asked.action.trim_ascii(), out)
    }),
    ("the name of a group", |asked, out| {
        let action = asked.action.strip_prefix(b"Desktop Action ");
        asked.of_action(action.unwrap_or(asked.action), out)
    }),
];

#[test]
fn an_expansion_that_is_wrong() {
    for (what, wrong) in WRONG_EXPANSIONS {
        let call = |given: &Given| {
            let asked = Asked::of(given);
            given.output.told(|out| wrong(&asked, out))
        };
        assert!(is_expansion_noticed(&call), "{what}");
    }
}
