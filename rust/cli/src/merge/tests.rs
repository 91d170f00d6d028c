//! Merges of many generated files: against the core's own edits, against what each entry must come to, against diff3.

mod copies;

use std::collections::{BTreeMap, BTreeSet};
use std::fs;
use std::process::Command;

use compare::files;
use compare::pieces;
use compare::random::{mix, Random};
use kveldrim::{lookup, Document, Person};

use super::{merged, Failure};
use crate::kills::Place;
use copies::{entry, Copies};

/// How many cases each test makes.
const CASES: u64 = 15_000;

/// The merged file; none if there is a conflict.
fn merge(base: &[u8], mine: &[u8], theirs: &[u8]) -> Option<Vec<u8>> {
    match merged([base, mine, theirs]) {
        Ok(bytes) => Some(bytes),
        Err(Failure::Conflicts(conflicts)) => {
            assert!(!conflicts.is_empty());
            None
        }
        Err(_) => panic!("{}", shown([base, mine, theirs])),
    }
}

fn shown(files: [&[u8]; 3]) -> String {
    let files = files.map(|file| String::from_utf8_lossy(file).into_owned());
    files.join("----\n")
}

/// The same bytes, or a panic that shows the files that were merged.
fn same(found: Option<Vec<u8>>, expected: &[u8], files: [&[u8]; 3]) {
    let text = |bytes: &[u8]| bytes.escape_ascii().to_string();
    let found = found.as_deref().map_or("a conflict".into(), text);
    assert_eq!(found, text(expected), "{}", shown(files));
}

/// The group and the key of an entry.
type Name = (Vec<u8>, Vec<u8>);

/// Every entry of a file with its line, in order.
fn entry_lines(file: &[u8]) -> Vec<(Name, &[u8])> {
    let mut group = Vec::new();
    let mut entries = Vec::new();
    for line in file.split(|byte| *byte == b'\n') {
        match (line.strip_prefix(b"["), entry(line)) {
            (Some(name), _) => group = name[..name.len() - 1].to_vec(),
            (None, Some((key, _))) => entries.push(((group.clone(), key.to_vec()), line)),
            _ => {}
        }
    }
    entries
}

fn entries(file: &[u8]) -> Vec<Name> {
    let lines = entry_lines(file).into_iter();
    lines.map(|(name, _)| name).collect()
}

/// A set of a copy: 0 for MINE, 1 for THEIRS.
struct Set {
    copy: usize,
    name: Name,
    text: Vec<u8>,
}

/// A file after the sets of some copies, in this order.
fn after(base: &[u8], sets: &[Set], copies: &[usize]) -> Vec<u8> {
    let mut document = Document::new(base);
    for copy in copies {
        for Set { name, text, .. } in sets.iter().filter(|set| set.copy == *copy) {
            document
                .set(Person::NOBODY, &name.0, &name.1, text)
                .unwrap();
        }
    }
    document.file().to_vec()
}

/// Sets of different entries, some of them new. Of entries that are there the core comes to the same file in both orders, and so
/// does the merge; with new ones it comes to the file of MINE's sets and then THEIRS'.
#[test]
fn sets_of_different_entries() {
    let (mut changes, mut additions) = (0, 0);
    for number in 0..CASES {
        let random = &mut Random::new(mix(1, number));
        let base = files::sound(random, 3, 7);
        let mut names = entries(&base);
        random.shuffle(&mut names);
        names.truncate(random.within(0, 8));
        let old = names.len();
        if random.once_in(2) {
            let groups: Vec<Vec<u8>> = names.iter().map(|(group, _)| group.clone()).collect();
            let new = groups.into_iter().zip(0..random.within(1, 4));
            names.extend(new.map(|(group, at)| (group, format!("New-{at}").into())));
        }
        let has_new = names.len() > old;
        let sets = names.into_iter().map(|name| Set {
            copy: random.below(2),
            name,
            text: [pieces::letters(random), b" \\\n;a".to_vec()].concat(),
        });
        let sets: Vec<Set> = sets.collect();
        let [mine, theirs, both] =
            [&[0][..], &[1], &[0, 1]].map(|order| after(&base, &sets, order));
        same(merge(&base, &mine, &theirs), &both, [&base, &mine, &theirs]);
        if !has_new {
            assert_eq!(both, after(&base, &sets, &[1, 0]));
        }
        let in_both = mine != base && theirs != base;
        changes += usize::from(in_both && !has_new);
        additions += usize::from(in_both && has_new);
    }
    assert!(
        changes > 3_000 && additions > 3_000,
        "{changes} {additions}"
    );
}

/// A change that only one copy has, or that both have, is the result.
#[test]
fn one_change() {
    let (mut changed, mut conflicts) = (0, 0);
    for number in 0..CASES {
        let random = &mut Random::new(mix(2, number));
        let base = files::sound(random, 3, 6);
        let copy = match random.below(3) {
            0 => files::sound(random, 3, 6),
            _ => Copies::of(&base, copies::KINDS, random).mine,
        };
        same(merge(&base, &copy, &base), &copy, [&base, &copy, &base]);
        same(merge(&base, &base, &copy), &copy, [&base, &base, &copy]);
        same(merge(&base, &copy, &copy), &copy, [&base, &copy, &copy]);
        changed += usize::from(copy != base);
        // Two files that have nothing to do with each other merge or not, but nothing goes wrong.
        let other = files::sound(random, 3, 6);
        conflicts += usize::from(merge(&base, &copy, &other).is_none());
    }
    assert!(
        changed > 10_000 && conflicts > 5_000,
        "{changed} {conflicts}"
    );
}

/// What an entry comes to in the three files: what stands before its value, and the value. None if both copies changed one of
/// these in different ways, Some(None) if it goes.
type Reckoned = Option<Option<(Vec<u8>, Vec<u8>)>>;

/// What something comes to; none if both copies changed it in different ways.
fn comes_to<T: PartialEq>([base, mine, theirs]: [T; 3]) -> Option<T> {
    match mine == base {
        true => Some(theirs),
        false => (theirs == base || theirs == mine).then_some(mine),
    }
}

/// What each entry of three files comes to, by the core's lookup.
fn reckoned(files: [&[u8]; 3]) -> BTreeMap<Name, Reckoned> {
    let lines = files.map(|file| BTreeMap::from_iter(entry_lines(file)));
    let names: BTreeSet<&Name> = lines.iter().flat_map(BTreeMap::keys).collect();
    let of_name = |name: &Name| -> Reckoned {
        let value = |at: usize| lookup(files[at], &name.0, &name.1).ok();
        let head = |at: usize| {
            let line = lines[at].get(name)?;
            Some(&line[..line.len() - value(at)?.len()])
        };
        let [head, value] = [[0, 1, 2].map(head), [0, 1, 2].map(value)].map(comes_to);
        Some(
            head?
                .zip(value?)
                .map(|(head, value)| (head.to_vec(), value.to_vec())),
        )
    };
    names
        .into_iter()
        .map(|name| (name.clone(), of_name(name)))
        .collect()
}

/// How often each comment stands in a file.
fn comments(file: &[u8]) -> BTreeMap<&[u8], usize> {
    let mut comments = BTreeMap::new();
    for line in file.split(|byte| *byte == b'\n') {
        if line.starts_with(b"#") {
            *comments.entry(line).or_default() += 1;
        }
    }
    comments
}

/// Changes of every kind in both copies: the entries are those that they must be, no comment is lost or comes back, and who is
/// MINE makes no difference but for the order.
#[test]
fn changes_of_every_kind() {
    let (mut made, mut refused, mut ordered) = (0, 0, 0);
    let mut kinds = BTreeMap::new();
    for number in 0..CASES {
        let random = &mut Random::new(mix(3, number));
        let base = copies::base(random);
        let copies = Copies::of(&base, copies::KINDS, random);
        let files = [&base[..], &copies.mine, &copies.theirs];
        let merged = merge(&base, &copies.mine, &copies.theirs);
        let turned = merge(&base, &copies.theirs, &copies.mine);
        let sorted = |file: Option<&Vec<u8>>| {
            let mut lines: Vec<_> = file?.split(|byte| *byte == b'\n').collect();
            lines.sort();
            Some(lines.concat())
        };
        assert_eq!(
            sorted(merged.as_ref()),
            sorted(turned.as_ref()),
            "{}",
            shown(files)
        );
        for kind in copies.kinds.iter().filter(|_| merged.is_some()) {
            *kinds.entry(*kind).or_insert(0) += 1;
        }
        let Some(merged) = merged else {
            refused += 1;
            continue;
        };
        made += 1;
        has_just_its_entries(&merged, files);
        has_just_its_comments(&merged, files);
        has_just_its_groups(&merged, files);
        // To remove an entry and to add it elsewhere is to move it.
        let moves = ["an entry moved", "an entry removed"];
        if moves.iter().all(|kind| !copies.kinds.contains(kind)) {
            ordered += 1;
            keeps_order(&merged, files);
        }
    }
    let counts = [made, refused, ordered];
    let is_enough = counts.iter().all(|count| *count > 1_500);
    assert!(is_enough, "{counts:?}");
    assert_eq!(kinds.len(), copies::KINDS.len(), "{kinds:?}");
    assert!(kinds.values().all(|count| *count > 300), "{kinds:?}");
}

fn has_just_its_entries(merged: &[u8], files: [&[u8]; 3]) {
    assert_eq!(kveldrim::check(merged), Ok(()), "{}", shown(files));
    let found = BTreeMap::from_iter(entry_lines(merged));
    let mut left = 0;
    for (name, line) in reckoned(files) {
        let Some(line) = line else {
            panic!("a conflict: {}", shown(files));
        };
        let value = lookup(merged, &name.0, &name.1).ok();
        assert_eq!(
            value,
            line.as_ref().map(|line| &line.1[..]),
            "{name:?} {}",
            shown(files)
        );
        let line = line.map(|(head, value)| [head, value].concat());
        left += usize::from(line.is_some());
        assert_eq!(
            found.get(&name).copied(),
            line.as_deref(),
            "{name:?} {}",
            shown(files)
        );
    }
    assert_eq!(found.len(), left, "{}", shown(files));
}

/// Of comments that stand once at most in each file: one that a copy added is there, one that a copy removed is not.
fn has_just_its_comments(merged: &[u8], files: [&[u8]; 3]) {
    let found = comments(merged);
    let counts = files.map(comments);
    let all: BTreeSet<_> = counts.iter().flat_map(BTreeMap::keys).collect();
    for comment in all {
        let count = |counts: &BTreeMap<&[u8], usize>| counts.get(*comment).copied().unwrap_or(0);
        let expected = match counts.each_ref().map(count) {
            [0, 1, 1] => 1..=2,
            [0, 1, 0] | [0, 0, 1] | [1, 1, 1] => 1..=1,
            [1, 0, 0 | 1] | [1, 1, 0] => 0..=0,
            _ => continue,
        };
        let text = String::from_utf8_lossy(comment);
        assert!(
            expected.contains(&count(&found)),
            "{text}: {}",
            shown(files)
        );
    }
    assert!(found
        .keys()
        .all(|comment| counts.iter().any(|file| file.contains_key(comment))));
}

/// A group of BASE is there if both copies have it, another if one has it.
fn has_just_its_groups(merged: &[u8], files: [&[u8]; 3]) {
    let headers = |file| -> BTreeSet<&[u8]> {
        let lines = <[u8]>::split(file, |byte| *byte == b'\n');
        lines.filter(|line| line.starts_with(b"[")).collect()
    };
    let [base, mine, theirs] = files.map(headers);
    let kept = mine
        .intersection(&theirs)
        .filter(|header| base.contains(*header));
    let new = mine.union(&theirs).filter(|header| !base.contains(*header));
    let expected = kept.chain(new).copied().collect();
    assert_eq!(headers(merged), expected, "{}", shown(files));
}

/// Entries have the order that they have in each copy; what both added stands where MINE has it.
fn keeps_order(merged: &[u8], files: [&[u8]; 3]) {
    let [base, mine, theirs] = files.map(entries);
    let merged = entries(merged);
    let is_of_theirs = |name: &Name| base.contains(name) || !mine.contains(name);
    let has_order = |copy: &[Name], is_meant: &dyn Fn(&Name) -> bool| {
        let in_both = |these: &[Name], those: &[Name]| -> Vec<Name> {
            let both = these.iter().filter(|name| those.contains(name));
            let mut both: Vec<Name> = both.filter(|name| is_meant(name)).cloned().collect();
            // Groups may have been moved.
            both.sort_by(|(some, _), (other, _)| some.cmp(other));
            both
        };
        in_both(copy, &merged) == in_both(&merged, copy)
    };
    let is_kept = has_order(&mine, &|_| true) && has_order(&theirs, &is_of_theirs);
    assert!(is_kept, "{}", shown(files));
}

/// With changes of entries alone there is a conflict just where an entry was changed in both in different ways, or where a key
/// with a postfix would be left without its plain key.
#[test]
fn conflicts_of_entries() {
    let (mut made, mut refused) = (0, 0);
    for number in 0..CASES {
        let random = &mut Random::new(mix(4, number));
        let base = copies::base(random);
        let copies = Copies::of(&base, copies::OF_ENTRIES, random);
        let files = [&base[..], &copies.mine, &copies.theirs];
        let lines = reckoned(files);
        let is_there = |group: &[u8], key: &[u8]| {
            let line = lines.get(&(group.to_vec(), key.to_vec()));
            matches!(line, Some(Some(Some(_))))
        };
        let is_left = |(group, key): &Name| {
            let plain = key.split(|byte| *byte == b'[').next().unwrap_or_default();
            is_there(group, key) && !is_there(group, plain)
        };
        let is_conflict = lines.values().any(Option::is_none) || lines.keys().any(is_left);
        let merged = merge(&base, &copies.mine, &copies.theirs);
        assert_eq!(merged.is_none(), is_conflict, "{}", shown(files));
        made += usize::from(!is_conflict);
        refused += usize::from(is_conflict);
    }
    assert!(made > 10_000 && refused > 1_000, "{made} {refused}");
}

/// Where values and comments change and no line comes or goes, each line is what it comes to by itself. It is so too with lines
/// beside each other.
#[test]
fn changes_in_place() {
    let (mut made, mut refused, mut beside) = (0, 0, 0);
    for number in 0..CASES {
        let random = &mut Random::new(mix(6, number));
        let base = copies::base(random);
        let copies = Copies::of(&base, copies::OF_LINES, random);
        let files = [&base[..], &copies.mine, &copies.theirs];
        let [base_lines, mine, theirs] =
            files.map(|file| -> Vec<&[u8]> { file.split(|byte| *byte == b'\n').collect() });
        let lines = base_lines.iter().zip(&mine).zip(&theirs);
        let lines: Vec<_> = lines
            .map(|((base, mine), theirs)| [*base, *mine, *theirs])
            .collect();
        let merged = merge(files[0], files[1], files[2]);
        let expected = lines.iter().map(|line| comes_to(*line));
        let expected: Option<Vec<&[u8]>> = expected.collect();
        match (merged, expected) {
            (Some(merged), Some(expected)) => {
                same(Some(merged), &expected.join(&b'\n'), files);
                made += 1;
                let by = |at: usize| lines[at][0] != lines[at][1];
                let by_other = |at: usize| lines[at][0] != lines[at][2];
                let is_beside = |at: &usize| by(*at) && by_other(at + 1);
                beside += usize::from((0..lines.len() - 1).any(|at| is_beside(&at)));
            }
            (None, None) => refused += 1,
            // A change of several comments is one conflict, even if some of them are the same in both.
            (None, Some(_)) => assert!(copies.has_shared, "{}", shown(files)),
            (Some(_), None) => panic!("a conflict: {}", shown(files)),
        }
    }
    assert!(
        made > 5_000 && refused > 2_000 && beside > 500,
        "{made} {refused} {beside}"
    );
}

/// Where diff3 comes to a well-formed file without conflict, the merged file is the same. It refuses changes of lines beside each
/// other, and writes an entry twice that both have added. Left out is what moves, as it keeps an entry that one copy moved and
/// the other removed, and what blank lines do: among several it is free which one was put in.
#[test]
fn merges_of_diff3() {
    let folder = Place::new(b"");
    let kinds = copies::KINDS.iter().copied();
    let kinds = kinds.filter(|kind| !kind.contains("moved") && !kind.contains("blank"));
    let kinds: Vec<&str> = kinds.collect();
    let (mut merges, mut refusals) = (0, 0);
    for number in 0..500 {
        let random = &mut Random::new(mix(5, number));
        let base = copies::base(random);
        let copies = Copies::of(&base, &kinds, random);
        let files = [&base[..], &copies.mine, &copies.theirs];
        let merged = merge(files[0], files[1], files[2]);
        let names = ["base", "mine", "theirs"].map(|name| folder.0.join(name));
        for (name, bytes) in names.iter().zip(files) {
            fs::write(name, bytes).unwrap();
        }
        let [base, mine, theirs] = &names;
        let mut command = Command::new("diff3");
        let command = command
            .args(["--text", "--merge", "-E"])
            .args([mine, base, theirs]);
        let output = command
            .output()
            .expect("the command `diff3`, of Debian's package diffutils");
        match output.status.code() {
            Some(0) if kveldrim::check(&output.stdout).is_ok() => {
                merges += 1;
                same(merged, &output.stdout, files);
            }
            Some(0) => {}
            Some(1) => refusals += usize::from(merged.is_some()),
            _ => panic!("{}", String::from_utf8_lossy(&output.stderr)),
        }
    }
    assert!(merges > 100 && refusals > 20, "{merges} {refusals}");
}

/// A file of 7,000 keys, of three letters at most.
#[test]
fn a_long_file() {
    let letter = |number: usize| pieces::KEY_BYTES[number % 63] as char;
    let key = |number: usize| match number / 63 {
        0 => format!("{}=", letter(number)),
        more @ ..63 => format!("{}{}=", letter(more), letter(number)),
        more => format!("{}{}{}=", letter(more / 63), letter(more), letter(number)),
    };
    let keys: Vec<String> = (0..7_000).map(key).collect();
    let file = |keys: &[String]| format!("[Desktop Entry]\n{}\n", keys.join("\n")).into_bytes();
    let [mut mine, mut theirs] = [&keys, &keys].map(Clone::clone);
    mine[0].push('a');
    mine.remove(3_000);
    let last = theirs.pop().unwrap() + "b";
    theirs.insert(1, last.clone());
    let mut both = mine.clone();
    both.pop();
    both.insert(1, last);
    let files = [&keys, &mine, &theirs].map(|keys| file(keys));
    let [base, mine, theirs] = files.each_ref().map(Vec::as_slice);
    assert!(base.len() > 30_000, "{}", base.len());
    same(merge(base, mine, theirs), &file(&both), [b"", b"", b""]);
}

/// A group with one entry, and perhaps a comment just above its header.
#[derive(Clone)]
struct Block {
    comment: Option<String>,
    name: String,
    value: usize,
}

fn file_of(blocks: &[Block]) -> Vec<u8> {
    let mut file = String::from("[Desktop Entry]\nName=N\n");
    for Block {
        comment,
        name,
        value,
    } in blocks
    {
        let comment = comment.iter().map(|comment| format!("{comment}\n"));
        file += &format!("\n{}[{name}]\nA={value}\n", comment.collect::<String>());
    }
    file.into_bytes()
}

/// A copy in which some groups came, went, were moved with their comment, or changed.
fn changed(blocks: &[Block], copy: &str, random: &mut Random) -> Vec<Block> {
    let mut blocks = blocks.to_vec();
    for number in 0..random.within(1, 3) {
        let at = random.below(blocks.len());
        match random.below(6) {
            0 => {
                let block = blocks.remove(at);
                blocks.insert(random.within(0, blocks.len()), block);
            }
            1 if blocks.len() > 1 => drop(blocks.remove(at)),
            2 => blocks[at].comment = None,
            3 => blocks[at].comment = Some(format!("# {} {copy}", blocks[at].name)),
            4 => {
                let name = format!("{copy}{number}");
                let comment = Some(format!("# {name}"));
                let block = Block {
                    comment,
                    name,
                    value: 0,
                };
                blocks.insert(at, block);
            }
            _ => blocks[at].value += 1,
        }
    }
    blocks
}

/// A comment just above a header stays there, wherever the group goes, and comes nowhere else.
#[test]
fn comments_above_headers() {
    let (mut made, mut refused, mut above) = (0, 0, 0);
    for number in 0..CASES {
        let random = &mut Random::new(mix(7, number));
        let block = |number: usize| Block {
            comment: Some(format!("# G{number}")),
            name: format!("G{number}"),
            value: 0,
        };
        let base: Vec<Block> = (0..random.within(1, 4)).map(block).collect();
        let [mine, theirs] = ["M", "T"].map(|copy| changed(&base, copy, random));
        let blocks = [&base, &mine, &theirs];
        let files = blocks.map(|blocks| file_of(blocks));
        let files = files.each_ref().map(Vec::as_slice);
        let Some(merged) = merge(files[0], files[1], files[2]) else {
            refused += 1;
            continue;
        };
        made += 1;
        let text = String::from_utf8(merged).unwrap();
        let lines: Vec<&str> = text.lines().collect();
        let comments = lines.iter().filter(|line| line.starts_with('#')).count();
        let mut found = 0;
        for pair in lines.windows(2) {
            let Some(name) = pair[1].strip_prefix('[') else {
                continue;
            };
            let name = name.trim_end_matches(']');
            let of = |blocks: &[Block]| {
                let block = blocks.iter().find(|block| block.name == name)?;
                block.comment.clone()
            };
            let comment = comes_to(blocks.map(|blocks| of(blocks))).unwrap();
            let is = Some(pair[0]).filter(|line| line.starts_with('#'));
            assert_eq!(is, comment.as_deref(), "{}", shown(files));
            found += usize::from(is.is_some());
        }
        assert_eq!(found, comments, "{}", shown(files));
        above += found;
    }
    assert!(
        made > 10_000 && refused > 500 && above > 20_000,
        "{made} {refused} {above}"
    );
}
