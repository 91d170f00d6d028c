//! The comparison of batches: what it must notice, it does.

use compare::asker::Asker;
use compare::batches;
use compare::bounds::LIST_BOUND;
use compare::case::Case;
use compare::edits::{proved, Call, Given};
use compare::random::Random;
use compare::{journals, lists, requests};
use reference::{Batch, RecordKind, Refusal, Request, State};

/// A case about a single batch, of each sort that the tests make; long ones seldom.
fn case(seed: u64) -> Case {
    let random = &mut Random::new(seed);
    match seed % 6 {
        _ if seed % 300 == 299 => batches::long(random),
        0 => batches::batch_in(lists::worked_journal(random), random),
        1 => batches::batch_in(lists::foreign_journal(random), random),
        2 => batches::batch_in(lists::damaged_journal(random), random),
        3 => batches::spoilt_batch_in(lists::worked_journal(random), random),
        4 => batches::on_bad_file(random),
        _ => batches::tight(random),
    }
}

/// Whether single batches show that an editor is not the right one.
fn is_noticed(editor: &dyn Fn(&Call, &Given) -> u32) -> bool {
    let mut asker = Asker::new(1);
    (1..=1_800).any(|seed| match case(seed) {
        Case::Edits(list) => asker.edits(&list, editor).is_err(),
        _ => false,
    })
}

/// A batch by a person over a state.
type Batching = fn(&mut State, u16, &[u8]) -> Batch;

/// The bytes that are lent.
fn bytes((pointer, length): (*const u8, usize)) -> Vec<u8> {
    // SAFETY: so many bytes are lent.
    (0..length).map(|at| unsafe { *pointer.add(at) }).collect()
}

/// A batch over what is given.
fn made(batching: Batching, call: &Call, given: &Given) -> u32 {
    let [.., requests] = given.arguments;
    let (file, journal) = (given.file, given.journal);
    // SAFETY: the numbers are lent, and so many bytes of both buffers.
    unsafe {
        let mut state = State {
            file: bytes((file.0, file.1)),
            file_len: *given.file_len,
            journal: bytes((journal.0, journal.1)),
            used: *given.used,
            standing: *given.standing,
        };
        let Batch { done, stopped } = batching(&mut state, call.record.person(), &bytes(requests));
        file.0.copy_from(state.file.as_ptr(), file.1);
        journal.0.copy_from(state.journal.as_ptr(), journal.1);
        (*given.file_len, *given.used, *given.standing) =
            (state.file_len, state.used, state.standing);
        let Refusal {
            number,
            place,
            byte,
        } = stopped.unwrap_or(Refusal::new(0));
        (*given.place, *given.byte, *given.done) = (place, byte, done);
        number
    }
}

/// Whether single batches show that a batch is not the right one.
fn is_batch_noticed(batching: Batching) -> bool {
    is_noticed(&|call, given| made(batching, call, given))
}

/// The single call of a request.
fn single(state: &mut State, person: u16, request: &Request) -> Result<(), Refusal> {
    let kind = RecordKind::Four(person);
    match request {
        Request::Set { group, key, text } => reference::set(state, kind, group, key, text),
        Request::Remove { group, key } => reference::remove(state, kind, group, key),
    }
}

/// Refused with nothing done.
fn refused(number: u32) -> Batch {
    Batch {
        done: 0,
        stopped: Some(Refusal::new(number)),
    }
}

/// The requests of a list that is read so, or the refusal with nothing done.
fn opened(
    state: &State,
    list: &[u8],
    read: impl Fn(&[u8]) -> Option<Vec<Request>>,
) -> Result<Vec<Request>, Batch> {
    let empty = reference::batch(&mut state.clone(), 0, b"");
    match empty.stopped {
        Some(_) => Err(empty),
        None => read(list).ok_or(refused(14)),
    }
}

/// Single calls, made so, up to the first that is refused.
fn in_turn(
    state: &mut State,
    requests: &[Request],
    mut made: impl FnMut(&mut State, &Request) -> Result<(), Refusal>,
) -> Batch {
    let mut done = 0;
    let told = requests.iter().try_for_each(|request| {
        made(state, request)?;
        done += 1;
        Ok(())
    });
    Batch {
        done,
        stopped: told.err(),
    }
}

/// The right batch, but that its list is read so.
fn reading(
    state: &mut State,
    person: u16,
    list: &[u8],
    read: impl Fn(&[u8]) -> Option<Vec<Request>>,
) -> Batch {
    match opened(state, list, read) {
        Ok(requests) => in_turn(state, &requests, |state, request| {
            single(state, person, request)
        }),
        Err(refused) => refused,
    }
}

/// The right batch, but that its single calls are made so.
fn trying(
    state: &mut State,
    list: &[u8],
    made: impl FnMut(&mut State, &Request) -> Result<(), Refusal>,
) -> Batch {
    match opened(state, list, reference::read_requests) {
        Ok(requests) => in_turn(state, &requests, made),
        Err(refused) => refused,
    }
}

/// The requests of a list of any length, each record read so.
fn unbounded(list: &[u8], read: impl Fn(&[u8]) -> Option<Request>) -> Option<Vec<Request>> {
    let starts = journals::records(list);
    if starts.last() != Some(&list.len()) {
        return None;
    }
    let records = starts.windows(2).map(|ends| &list[ends[0]..ends[1]]);
    records.map(read).collect()
}

/// The requests of a list that is not too long, each record read so.
fn by_records(list: &[u8], read: impl Fn(&[u8]) -> Option<Request>) -> Option<Vec<Request>> {
    match list.len() <= LIST_BOUND {
        true => unbounded(list, read),
        false => None,
    }
}

/// A record that is read right.
fn right(record: &[u8]) -> Option<Request> {
    reference::read_requests(record)?.pop()
}

/// A record that is read right, but as one of another kind.
fn of_kind(record: &[u8], other: impl Fn(u16) -> u16) -> Option<Request> {
    let mut record = record.to_vec();
    let kind = record.get_mut(4..6)?;
    let other = other(u16::from_le_bytes([kind[0], kind[1]]));
    kind.copy_from_slice(&other.to_le_bytes());
    right(&record)
}

/// The fields of a record by their lengths, and the bytes behind the last whole one.
fn fields(record: &[u8]) -> (Vec<&[u8]>, &[u8]) {
    let mut rest = record.get(6..).unwrap_or_default();
    let mut fields = Vec::new();
    while let Some((length, behind)) = rest.split_first_chunk() {
        let length = u32::from_le_bytes(*length) as usize;
        let Some((field, behind)) = behind.split_at_checked(length) else {
            break;
        };
        fields.push(field);
        rest = behind;
    }
    (fields, rest)
}

/// The record with these fields instead of its own.
fn with_fields(record: &[u8], fields: &[&[u8]]) -> Option<Request> {
    let kind = record.get(4..6)?;
    let kind = u16::from_le_bytes([kind[0], kind[1]]);
    right(&requests::record(kind, fields))
}

/// A list that is read wrongly, in a batch that is right but for this.
#[test]
fn a_list_that_is_read_wrongly() {
    let wrongs: [(&str, Batching); 15] = [
        ("over the bound", |state, person, list| {
            reading(state, person, list, |list| unbounded(list, right))
        }),
        ("bytes behind the last record", |state, person, list| {
            reading(state, person, list, |list| {
                let end = journals::records(list).pop()?;
                match list.len() - end < 6 {
                    true => reference::read_requests(&list[..end]),
                    false => reference::read_requests(list),
                }
            })
        }),
        ("a record of no length ends it", |state, person, list| {
            reading(state, person, list, |list| {
                let end = journals::records(list).pop()?;
                match list[end..].starts_with(&[0; 4]) {
                    true => reference::read_requests(&list[..end]),
                    false => reference::read_requests(list),
                }
            })
        }),
        ("the length of a text", |state, person, list| {
            reading(state, person, list, |list| {
                by_records(list, |record| {
                    let (fields, rest) = fields(record);
                    match (&fields[..], rest) {
                        ([group, key], [_, _, _, _, text @ ..]) => {
                            with_fields(record, &[group, key, text])
                        }
                        _ => right(record),
                    }
                })
            })
        }),
        ("the length of a key", |state, person, list| {
            reading(state, person, list, |list| {
                by_records(list, |record| {
                    let (fields, rest) = fields(record);
                    match (&fields[..], rest) {
                        ([group], [_, _, _, _, key @ ..]) => with_fields(record, &[group, key]),
                        _ => right(record),
                    }
                })
            })
        }),
        ("bytes behind the last field", |state, person, list| {
            reading(state, person, list, |list| {
                by_records(list, |record| with_fields(record, &fields(record).0))
            })
        }),
        ("lengths that wrap", |state, person, list| {
            reading(state, person, list, |list| {
                by_records(list, |record| match requests::fills_by_4_bytes(record, 3) {
                    true => right(record).or(Some(Request::Remove {
                        group: Vec::new(),
                        key: Vec::new(),
                    })),
                    false => right(record),
                })
            })
        }),
        ("a kind of one byte", |state, person, list| {
            reading(state, person, list, |list| {
                by_records(list, |record| of_kind(record, |kind| kind & 0xFF))
            })
        }),
        ("any other kind is a remove", |state, person, list| {
            reading(state, person, list, |list| {
                by_records(list, |record| {
                    of_kind(record, |kind| if kind == 5 { 5 } else { 6 })
                })
            })
        }),
        ("both kinds exchanged", |state, person, list| {
            reading(state, person, list, |list| {
                by_records(list, |record| {
                    let (mut fields, _) = fields(record);
                    match right(record)? {
                        Request::Set { .. } => right(&requests::record(6, &fields[..2])),
                        Request::Remove { .. } => {
                            fields.push(b"");
                            right(&requests::record(5, &fields))
                        }
                    }
                })
            })
        }),
        ("a set without a text", |state, person, list| {
            reading(state, person, list, |list| {
                by_records(list, |record| match &fields(record).0[..] {
                    [group, key] => right(record).or(with_fields(record, &[group, key, b""])),
                    _ => right(record),
                })
            })
        }),
        ("a remove with a text", |state, person, list| {
            reading(state, person, list, |list| {
                by_records(list, |record| match &fields(record).0[..] {
                    [group, key, _] => right(record).or(with_fields(record, &[group, key])),
                    _ => right(record),
                })
            })
        }),
        ("group and key exchanged", |state, person, list| {
            reading(state, person, list, |list| {
                by_records(list, |record| {
                    let (mut fields, _) = fields(record);
                    right(record)?;
                    fields.swap(0, 1);
                    with_fields(record, &fields)
                })
            })
        }),
        (
            "records of other kinds are left out",
            |state, person, list| {
                reading(state, person, list, |list| {
                    let starts = journals::records(list);
                    let records = starts.windows(2).map(|ends| &list[ends[0]..ends[1]]);
                    let ours = records.filter(|record| {
                        record
                            .get(4..6)
                            .is_none_or(|kind| [[5, 0], [6, 0]].iter().any(|ours| ours == kind))
                    });
                    let ours: Vec<u8> = ours.collect::<Vec<_>>().concat();
                    let end = starts.last().copied()?;
                    reference::read_requests(&[&ours, &list[end..]].concat())
                })
            },
        ),
        ("read where it is done", |state, person, list| {
            let empty = reference::batch(state, person, b"");
            if empty.stopped.is_some() || list.len() > LIST_BOUND {
                return reference::batch(state, person, list);
            }
            let starts = journals::records(list);
            let mut done = 0;
            for ends in starts.windows(2) {
                let record = &list[ends[0]..ends[1]];
                match reference::batch(state, person, record).stopped {
                    None => done += 1,
                    stopped => return Batch { done, stopped },
                }
            }
            let is_filled = starts.last() == Some(&list.len());
            let stopped = (!is_filled).then_some(Refusal::new(14));
            Batch { done, stopped }
        }),
    ];
    assert!(!is_batch_noticed(|state, person, list| {
        reading(state, person, list, |list| by_records(list, right))
    }));
    for (what, wrong) in wrongs {
        assert!(is_batch_noticed(wrong), "{what}");
    }
}

/// The numbers of a state.
fn numbers(state: &mut State) -> [&mut u64; 3] {
    [&mut state.file_len, &mut state.used, &mut state.standing]
}

/// A batch that is stopped wrongly.
#[test]
fn a_batch_that_is_stopped_wrongly() {
    let wrongs: [(&str, Batching); 14] = [
        (
            "it goes on, and tells the first refusal",
            |state, person, list| going_on(state, person, list, true),
        ),
        ("it goes on, and tells none", |state, person, list| {
            going_on(state, person, list, false)
        }),
        ("the refused one is counted", |state, person, list| {
            let mut batch = reference::batch(state, person, list);
            batch.done += u64::from(batch.stopped.is_some());
            batch
        }),
        ("what was done is undone", |state, person, list| {
            let batch = reference::batch(state, person, list);
            if batch.stopped.is_some() {
                let _ = (0..batch.done).try_for_each(|_| reference::undo(state));
            }
            batch
        }),
        (
            "what was done is undone, and not counted",
            |state, person, list| {
                let mut batch = reference::batch(state, person, list);
                if batch.stopped.is_some() {
                    let _ = (0..batch.done).try_for_each(|_| reference::undo(state));
                    batch.done = 0;
                }
                batch
            },
        ),
        ("all or nothing", |state, person, list| {
            let before = state.clone();
            let mut batch = reference::batch(state, person, list);
            if batch.stopped.is_some() {
                *state = before;
                batch.done = 0;
            }
            batch
        }),
        ("none is told as done", |state, person, list| {
            let mut batch = reference::batch(state, person, list);
            if batch.stopped.is_some() {
                batch.done = 0;
            }
            batch
        }),
        ("it tells all as done", |state, person, list| {
            let mut batch = reference::batch(state, person, list);
            if batch.done > 0 {
                batch.done = journals::records(list).len() as u64 - 1;
            }
            batch
        }),
        ("it tells no refusal", |state, person, list| {
            let mut batch = reference::batch(state, person, list);
            if batch.done > 0 {
                batch.stopped = None;
            }
            batch
        }),
        (
            "the place is the number of the request",
            |state, person, list| {
                let mut batch = reference::batch(state, person, list);
                if let Some(refusal) = &mut batch.stopped {
                    refusal.place += batch.done;
                }
                batch
            },
        ),
        (
            "the file's length is that of before",
            |state, person, list| stopped_with(state, person, list, 0),
        ),
        ("used is that of before", |state, person, list| {
            stopped_with(state, person, list, 1)
        }),
        ("standing is that of before", |state, person, list| {
            stopped_with(state, person, list, 2)
        }),
        ("a remove of nothing is done", |state, person, list| {
            trying(state, list, |state, request| {
                match (single(state, person, request), request) {
                    (Err(Refusal { number: 8, .. }), Request::Remove { .. }) => Ok(()),
                    (told, _) => told,
                }
            })
        }),
    ];
    for (what, wrong) in wrongs {
        assert!(is_batch_noticed(wrong), "{what}");
    }
}

/// A batch that goes on after a refusal, and tells the first or none.
fn going_on(state: &mut State, person: u16, list: &[u8], is_told: bool) -> Batch {
    let (mut done, mut first) = (0, None);
    let batch = trying(state, list, |state, request| {
        match single(state, person, request) {
            Ok(()) => done += 1,
            Err(refusal) => first = first.or(Some(refusal)),
        }
        Ok(())
    });
    let stopped = batch.stopped.or(first.filter(|_| is_told));
    Batch { done, stopped }
}

/// The right batch, but where it is refused one of the numbers is that of before.
fn stopped_with(state: &mut State, person: u16, list: &[u8], number: usize) -> Batch {
    let before = *numbers(state)[number];
    let batch = reference::batch(state, person, list);
    if batch.stopped.is_some() {
        *numbers(state)[number] = before;
    }
    batch
}

/// What is asked before the first request, or what is done for it, is wrong.
#[test]
fn a_batch_that_is_otherwise_wrong() {
    let wrongs: [(&str, Batching); 13] = [
        ("nobody", |state, _, list| reference::batch(state, 0, list)),
        ("a person of one byte", |state, person, list| {
            reference::batch(state, person & 0xFF, list)
        }),
        ("the person of the first alone", |state, person, list| {
            let mut next = person;
            trying(state, list, |state, request| {
                single(state, std::mem::take(&mut next), request)
            })
        }),
        ("from last to first", |state, person, list| {
            reading(state, person, list, |list| {
                let mut requests = reference::read_requests(list)?;
                requests.reverse();
                Some(requests)
            })
        }),
        ("the first twice", |state, person, list| {
            reading(state, person, list, |list| {
                let mut requests = reference::read_requests(list)?;
                requests.insert(0, requests.first()?.clone());
                Some(requests)
            })
        }),
        (
            "an empty list asks nothing",
            |state, person, list| match list {
                [] => Batch {
                    done: 0,
                    stopped: None,
                },
                _ => reference::batch(state, person, list),
            },
        ),
        (
            "an empty list does not ask the file",
            |state, person, list| {
                let batch = reference::batch(state, person, list);
                let is_file = batch.stopped.is_some_and(|refusal| refusal.number != 14);
                match list {
                    [] if is_file => Batch {
                        done: 0,
                        stopped: None,
                    },
                    _ => batch,
                }
            },
        ),
        (
            "an empty list does not ask the lengths and the journal",
            |state, person, list| {
                let batch = reference::batch(state, person, list);
                match (list, batch.stopped) {
                    ([], Some(Refusal { number: 14, .. })) => Batch {
                        done: 0,
                        stopped: None,
                    },
                    _ => batch,
                }
            },
        ),
        ("an empty list drops what waits", |state, person, list| {
            let batch = reference::batch(state, person, list);
            if list.is_empty() && batch.stopped.is_none() {
                state.used = state.standing;
            }
            batch
        }),
        (
            "the list before the file",
            |state, person, list| match reference::read_requests(list) {
                Some(_) => reference::batch(state, person, list),
                None => refused(14),
            },
        ),
        ("the journal before the file", |state, person, list| {
            let State {
                journal,
                used,
                standing,
                ..
            } = &*state;
            match reference::person(journal, *used, *standing, 0) {
                Err(Refusal { number: 14, .. }) => refused(14),
                _ => reference::batch(state, person, list),
            }
        }),
        ("no byte of a bad line", |state, person, list| {
            let mut batch = reference::batch(state, person, list);
            if let Some(refusal) = &mut batch.stopped {
                refusal.byte = 0;
            }
            batch
        }),
        ("a number done of one byte", |state, person, list| {
            let mut batch = reference::batch(state, person, list);
            batch.done &= 0xFF;
            batch
        }),
    ];
    assert!(!is_batch_noticed(|state, person, list| {
        trying(state, list, |state, request| single(state, person, request))
    }));
    for (what, wrong) in wrongs {
        assert!(is_batch_noticed(wrong), "{what}");
    }
}

/// The library's batch, but that it does not write a number, or writes to its list.
#[test]
fn a_batch_that_writes_too_little_or_too_much() {
    type Editor = fn(&Call, &Given) -> u32;
    // SAFETY of all: what is written is lent.
    let editors: [(&str, Editor); 5] = [
        ("no number done", |call, given| {
            let done = &mut 0;
            proved(call, &Given { done, ..*given })
        }),
        ("no number done where it is refused", |call, given| {
            let mut done = 0;
            let told = proved(
                call,
                &Given {
                    done: &mut done,
                    ..*given
                },
            );
            if told == 0 {
                unsafe { *given.done = done };
            }
            told
        }),
        ("no place", |call, given| {
            let place = &mut 0;
            proved(call, &Given { place, ..*given })
        }),
        ("no byte", |call, given| {
            let byte = &mut 0;
            proved(call, &Given { byte, ..*given })
        }),
        ("a byte of the list", |call, given| {
            let told = proved(call, given);
            if let [.., (pointer, 1..)] = given.arguments {
                unsafe { *pointer.cast_mut() ^= 1 };
            }
            told
        }),
    ];
    assert!(!is_noticed(&proved));
    for (what, editor) in editors {
        assert!(is_noticed(&editor), "{what}");
    }
}
