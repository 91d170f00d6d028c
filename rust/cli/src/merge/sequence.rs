//! Three sequences become one: what either copy took away from BASE goes, and what either put in comes, at its place.

use std::collections::{HashMap, HashSet};
use std::hash::Hash;
use std::ops::Range;

use similar::{capture_diff_slices, Algorithm, DiffOp};

/// One of the three files.
#[derive(Debug, Clone, Copy, PartialEq, Eq, PartialOrd, Ord)]
pub enum Which {
    Base,
    Mine,
    Theirs,
}

/// What the merged sequence has, each by a file that has it and its place there, and where a copy changed BASE.
pub struct Merged {
    pub order: Vec<(Which, usize)>,
    pub changes: Vec<Change>,
}

/// A place at which a copy differs from BASE. None of this part of BASE is left.
pub struct Change {
    base: Range<usize>,
    pub mine: Side,
    pub theirs: Side,
}

/// What a copy took away, by its places in BASE, and what it put in, by its places in the copy; both ascend.
#[derive(Default)]
pub struct Side {
    pub taken: Vec<usize>,
    pub put: Vec<usize>,
}

/// Merges two changed copies of a sequence. Something single that both put in, at different places, stands where MINE has it. At
/// one place MINE comes before THEIRS, but what is to come first before the rest of both.
pub fn merge<K: Eq + Hash>(
    sequences: [&[K]; 3],
    is_single: impl Fn(&K) -> bool,
    is_first: impl Fn(&K) -> bool,
) -> Merged {
    let [base, mine, theirs] = sequences;
    let changes = changes(sequences, &is_first);
    let put = changes.iter().flat_map(|change| &change.mine.put);
    let put: HashSet<&K> = put.map(|at| &mine[*at]).collect();
    let is_twice = |(which, at): &(Which, usize)| {
        *which == Which::Theirs && is_single(&theirs[*at]) && put.contains(&theirs[*at])
    };
    let mut order = Vec::new();
    let mut from = 0;
    for change in &changes {
        order.extend((from..change.base.start).map(|at| (Which::Base, at)));
        let woven = weave(mine, theirs, change, &is_first);
        order.extend(woven.into_iter().filter(|item| !is_twice(item)));
        from = change.base.end;
    }
    order.extend((from..base.len()).map(|at| (Which::Base, at)));
    Merged { order, changes }
}

/// A part of a sequence that became another.
struct Hunk {
    old: Range<usize>,
    new: Range<usize>,
}

/// All parts in which two sequences differ; between two of them the sequences are the same. As much as can be is left of what is
/// to come first, and then of the rest: where an entry and a blank line have changed places, the blank line was moved.
fn hunks<K: Eq + Hash>(old: &[K], new: &[K], is_first: &impl Fn(&K) -> bool) -> Vec<Hunk> {
    let mut same = Vec::new();
    let mut from = (0, 0);
    let end = (old.len(), new.len());
    let [old_first, new_first] =
        [old, new].map(|all| places(all, 0).filter(|(_, key)| is_first(key)));
    for first in common(old_first, new_first).into_iter().chain([end]) {
        let (old_rest, new_rest) = (&old[from.0..first.0], &new[from.1..first.1]);
        same.extend(common(places(old_rest, from.0), places(new_rest, from.1)));
        same.push(first);
        from = (first.0 + 1, first.1 + 1);
    }
    between(&same)
}

/// The parts before and between places at which two sequences are the same; the last is the end of both.
fn between(same: &[(usize, usize)]) -> Vec<Hunk> {
    let mut hunks = Vec::new();
    let mut from = (0, 0);
    for (old, new) in same {
        if from != (*old, *new) {
            hunks.push(Hunk {
                old: from.0..*old,
                new: from.1..*new,
            });
        }
        from = (old + 1, new + 1);
    }
    hunks
}

/// The items of a part that starts at a place, each with its place.
fn places<K>(part: &[K], start: usize) -> impl Iterator<Item = (usize, &K)> {
    (start..).zip(part)
}

/// What a shortest change of a sequence leaves in it, by its places in both.
fn common<'a, K: Eq + Hash + 'a>(
    old: impl Iterator<Item = (usize, &'a K)>,
    new: impl Iterator<Item = (usize, &'a K)>,
) -> Vec<(usize, usize)> {
    let (mut old, mut new): (Vec<_>, Vec<_>) = (old.collect(), new.collect());
    // What only one of the two has is left out, and numbers are fast to compare.
    let in_new: HashSet<&K> = new.iter().map(|(_, key)| *key).collect();
    old.retain(|(_, key)| in_new.contains(key));
    let numbers: HashMap<&K, usize> = old.iter().map(|(at, key)| (*key, *at)).collect();
    new.retain(|(_, key)| numbers.contains_key(key));
    let [from, to] = [&old, &new].map(|items| -> Vec<usize> {
        let numbers = items.iter().map(|(_, key)| numbers[key]);
        numbers.collect()
    });
    let mut common = Vec::new();
    for part in capture_diff_slices(Algorithm::Myers, &from, &to) {
        if let DiffOp::Equal { .. } = part {
            let places = part.old_range().zip(part.new_range());
            common.extend(places.map(|(from, to)| (old[from].0, new[to].0)));
        }
    }
    common
}

/// Where the copies differ from BASE, in order. Parts of BASE that overlap are one place, and so are two insertions at one.
fn changes<K: Eq + Hash>(
    [base, mine, theirs]: [&[K]; 3],
    is_first: &impl Fn(&K) -> bool,
) -> Vec<Change> {
    let of = |copy, which| {
        let hunks = hunks(base, copy, is_first).into_iter();
        hunks.map(move |hunk| (hunk, which))
    };
    let mut hunks: Vec<(Hunk, Which)> = of(mine, Which::Mine)
        .chain(of(theirs, Which::Theirs))
        .collect();
    hunks.sort_by_key(|(hunk, _)| (hunk.old.start, hunk.old.end));
    let mut changes: Vec<Change> = Vec::new();
    for (hunk, which) in hunks {
        let last = changes.last_mut();
        let is_there =
            |change: &&mut Change| hunk.old.start < change.base.end || hunk.old == change.base;
        match last.filter(is_there) {
            Some(change) => change.add(hunk, which),
            None => {
                let mut change = Change {
                    base: hunk.old.clone(),
                    mine: Side::default(),
                    theirs: Side::default(),
                };
                change.add(hunk, which);
                changes.push(change);
            }
        }
    }
    changes
}

impl Change {
    fn add(&mut self, hunk: Hunk, which: Which) {
        self.base.end = self.base.end.max(hunk.old.end);
        let side = match which {
            Which::Theirs => &mut self.theirs,
            _ => &mut self.mine,
        };
        side.taken.extend(hunk.old);
        side.put.extend(hunk.new);
    }
}

/// What both copies put in at one place: what is common to both once, and else one after the other, in each case up to the last
/// that is to come first, and then the rest.
fn weave<K: Eq + Hash>(
    mine: &[K],
    theirs: &[K],
    change: &Change,
    is_first: &impl Fn(&K) -> bool,
) -> Vec<(Which, usize)> {
    let (put_mine, put_theirs) = (&change.mine.put, &change.theirs.put);
    let mine: Vec<&K> = put_mine.iter().map(|at| &mine[*at]).collect();
    let theirs: Vec<&K> = put_theirs.iter().map(|at| &theirs[*at]).collect();
    let of_mine = |range: Range<usize>| put_mine[range].iter().map(|at| (Which::Mine, *at));
    let of_theirs = |range: Range<usize>| put_theirs[range].iter().map(|at| (Which::Theirs, *at));
    let mut woven = Vec::new();
    let mut from = 0;
    for Hunk { old, new } in hunks(&mine, &theirs, &|key: &&K| is_first(key)) {
        woven.extend(of_mine(from..old.start));
        from = old.end;
        let last_first = |run: &[&K]| run.iter().rposition(|key| is_first(key));
        let end = |run: &[&K]| last_first(run).map_or(0, |at| at + 1);
        let old_end = old.start + end(&mine[old.clone()]);
        let new_end = new.start + end(&theirs[new.clone()]);
        woven.extend(of_mine(old.start..old_end));
        woven.extend(of_theirs(new.start..new_end));
        woven.extend(of_mine(old_end..old.end));
        woven.extend(of_theirs(new_end..new.end));
    }
    woven.extend(of_mine(from..mine.len()));
    woven
}
