//! Whole files: well formed ones, ones with a single fault, long ones, and what is asked of them.

use reference::lines::{read_line, split_lines, Line};

use crate::bounds::FILE_BOUND;
use crate::pieces::{self, BORDERS, KEY_BYTES, MULLER};
use crate::random::Random;

const HEADER: &[u8] = b"[Desktop Entry]\n";

/// The arguments of a lookup (group, key) and of a choice (group, plain key, locale).
#[derive(Clone)]
pub struct Ask {
    pub group: Vec<u8>,
    pub key: Vec<u8>,
    pub plain: Vec<u8>,
    pub locale: Vec<u8>,
}

/// A file, and what is looked up and chosen in it.
#[derive(Clone)]
pub struct Question {
    pub file: Vec<u8>,
    pub asks: Vec<Ask>,
}

impl Question {
    /// The same of another file.
    pub fn about(&self, file: Vec<u8>) -> Question {
        Question {
            file,
            ..self.clone()
        }
    }
}

/// An entry's line, with spaces around `=` now and then.
fn entry(key: &[u8], postfix: Option<&[u8]>, value: &[u8], random: &mut Random) -> Vec<u8> {
    let mut line = key.to_vec();
    if let Some(postfix) = postfix {
        line.push(b'[');
        line.extend(postfix);
        line.push(b']');
    }
    let spaces = if random.once_in(6) { 2 } else { 0 };
    line.extend(vec![b' '; random.within(0, spaces)]);
    line.push(b'=');
    line.extend(vec![b' '; random.within(0, spaces)]);
    line.extend(value);
    line.push(b'\n');
    line
}

/// Blank lines and comments, which may hold anything.
fn filler(random: &mut Random) -> Vec<u8> {
    let mut line = match random.below(3) {
        0 => Vec::new(),
        1 => b" \t  "[..random.within(1, 4)].to_vec(),
        _ => [b"#", &pieces::wild(random, 6)[..]].concat(),
    };
    line.retain(|byte| *byte != b'\n');
    line.push(b'\n');
    line
}

/// A well-formed file: groups and keys once each, plain keys before or after their postfixed ones.
pub fn sound(random: &mut Random, groups: usize, keys: usize) -> Vec<u8> {
    let mut file = Vec::new();
    let mut names: Vec<Vec<u8>> = vec![b"Desktop Entry".to_vec()];
    for _ in 1..random.within(1, groups) {
        names.push(pieces::group(random));
    }
    once_each(&mut names);
    for name in names {
        if random.once_in(6) {
            file.extend(filler(random));
        }
        file.extend([b"[", &name[..], b"]\n"].concat());
        let mut plain: Vec<Vec<u8>> = (0..random.within(0, keys))
            .map(|_| pieces::key(random))
            .collect();
        once_each(&mut plain);
        let mut lines = Vec::new();
        for key in plain {
            let value = fitting_value(&key, random);
            lines.push(entry(&key, None, &value, random));
            if random.once_in(3) {
                for postfix in postfixes(random.within(1, 5), random) {
                    let value = pieces::value(random, pieces::SOUND);
                    lines.push(entry(&key, Some(&postfix), &value, random));
                }
            }
            if random.once_in(12) {
                lines.push(filler(random));
            }
        }
        if random.once_in(2) {
            random.shuffle(&mut lines);
        }
        file.extend(lines.concat());
    }
    if random.once_in(4) {
        file.pop();
    }
    file
}

/// So many postfixes, or fewer, each once; many differ from an earlier one by their encoding alone.
fn postfixes(most: usize, random: &mut Random) -> Vec<Vec<u8>> {
    let mut postfixes: Vec<Vec<u8>> = Vec::new();
    for number in 0..most {
        let postfix = match number > 0 && random.once_in(2) {
            true => pieces::recoded(&postfixes[random.below(number)], random),
            false => pieces::locale(random),
        };
        postfixes.push(postfix);
    }
    once_each(&mut postfixes);
    postfixes
}

/// A value that completeness accepts for the key, mostly.
fn fitting_value(key: &[u8], random: &mut Random) -> Vec<u8> {
    if random.once_in(10) {
        return random
            .pick(&["True", "true ", "", "link", "Links", "1"])
            .into();
    }
    match key {
        b"Type" => random.pick(&["Application", "Link", "Directory"]).into(),
        b"NoDisplay" | b"Hidden" | b"DBusActivatable" | b"Terminal" | b"StartupNotify" => {
            random.pick(&["true", "false"]).into()
        }
        _ => pieces::value(random, pieces::SOUND),
    }
}

/// Each item once, where it stands first.
fn once_each(items: &mut Vec<Vec<u8>>) {
    let mut seen = Vec::new();
    items.retain(|item| {
        let fresh = !seen.contains(item);
        seen.push(item.clone());
        fresh
    });
}

/// A file of lines of every kind, in any order.
pub fn lines(random: &mut Random) -> Vec<u8> {
    let mut file = Vec::new();
    if !random.once_in(8) {
        file.extend(HEADER);
    }
    for _ in 0..random.within(0, 4) {
        file.extend(line(random));
    }
    if random.once_in(3) {
        file.pop();
    }
    file
}

/// A line, often with something wrong in it.
fn line(random: &mut Random) -> Vec<u8> {
    let mut line = match random.below(10) {
        0 => filler(random),
        1 => [b"[", &pieces::group(random)[..], b"]\n"].concat(),
        2 => [&pieces::wild(random, 20)[..], b"\n"].concat(),
        _ => {
            let key = pieces::key(random);
            let postfix = match random.below(4) {
                0 => Some(pieces::locale(random)),
                1 => Some(pieces::wrong_locale(random)),
                _ => None,
            };
            let value = pieces::value(random, 8);
            entry(&key, postfix.as_deref(), &value, random)
        }
    };
    if random.once_in(3) {
        let at = random.below(line.len());
        match random.below(3) {
            0 => line[at] = random.byte_of(BORDERS),
            1 => line.insert(at, random.byte_of(BORDERS)),
            _ => drop(line.remove(at)),
        }
    }
    line
}

/// Changes one thing in a file.
pub fn spoil(file: &mut Vec<u8>, random: &mut Random) {
    if file.is_empty() {
        return;
    }
    let at = random.below(file.len());
    let lines: Vec<Vec<u8>> = file
        .split_inclusive(|byte| *byte == b'\n')
        .map(<[u8]>::to_vec)
        .collect();
    let one = random.below(lines.len());
    let other = random.below(lines.len());
    let feeds: Vec<usize> = (0..file.len()).filter(|at| file[*at] == b'\n').collect();
    let put_line = |line: &[u8], before: usize| {
        let mut lines = lines.clone();
        lines.insert(before, line.to_vec());
        lines.concat()
    };
    match random.below(15) {
        0 => file[at] = random.byte_of(BORDERS),
        1 => file[at] = random.number() as u8,
        2 => file.insert(at, random.byte_of(BORDERS)),
        3 => drop(file.remove(at)),
        4 => *file = put_line(&lines[one], other),
        5 => *file = put_line(&lines[one], lines.len()),
        6 => {
            let mut rest = lines.clone();
            rest.remove(one);
            *file = rest.concat();
        }
        7 => {
            let mut rest = lines.clone();
            rest.swap(one, other);
            *file = rest.concat();
        }
        8 if !feeds.is_empty() => drop(file.remove(feeds[random.below(feeds.len())])),
        9 if !feeds.is_empty() => file.insert(feeds[random.below(feeds.len())], b'\r'),
        10 => file.truncate(at),
        11 => {
            let piece = pieces::value(random, 2);
            file.splice(at..at, piece);
        }
        12 => {
            let line = line(random);
            *file = put_line(&line, other);
        }
        13 => drop(file.splice(at..at, random.pick(&MULLER).bytes())),
        _ => drop(file.splice(0..0, "\u{FEFF}".bytes())),
    }
}

/// A file with what completeness asks for, each thing nearly right.
pub fn nearly_complete(random: &mut Random) -> Vec<u8> {
    let mut lines = Vec::new();
    for (key, missing) in [
        ("Type", 12),
        ("Name", 12),
        ("Exec", 2),
        ("URL", 2),
        ("NoDisplay", 2),
        ("Hidden", 2),
        ("DBusActivatable", 2),
        ("Terminal", 2),
        ("StartupNotify", 2),
    ] {
        if random.once_in(missing) {
            continue;
        }
        let value = fitting_value(key.as_bytes(), random);
        lines.push(entry(key.as_bytes(), None, &value, random));
        if random.once_in(8) {
            let value = pieces::value(random, pieces::SOUND);
            lines.push(entry(key.as_bytes(), Some(b"de"), &value, random));
        }
    }
    random.shuffle(&mut lines);
    if random.once_in(4) {
        let other = "[X]\nType=Link\nURL=u\nName=n\nHidden=no\nExec=e\n";
        lines.push(other.into());
    }
    [HEADER, &lines.concat()].concat()
}

/// A file with the key Name in many languages.
pub fn many_languages(random: &mut Random) -> Vec<u8> {
    let postfixes = postfixes(random.within(0, 12), random);
    let mut lines = vec![entry(
        b"Name",
        None,
        MULLER[random.below(2)].as_bytes(),
        random,
    )];
    for postfix in postfixes {
        let key: &[u8] = if random.once_in(9) { b"Names" } else { b"Name" };
        lines.push(entry(key, Some(&postfix), &postfix, random));
        if key == b"Names" {
            lines.push(b"Names=n\n".to_vec());
        }
    }
    once_each(&mut lines);
    random.shuffle(&mut lines);
    [HEADER, &lines.concat()].concat()
}

/// How the names of a long file differ from each other.
#[derive(Clone, Copy)]
enum Names {
    Short,
    Groups,
    SameEnds,
    SameEndGroups,
    Anagrams,
    Postfixes,
    Blocks,
}

/// A long file with very many names; one of them may stand twice, far apart, or a plain key may be missing.
pub fn many_names(random: &mut Random, most: usize) -> Vec<u8> {
    let length = random.within(most / 4, most);
    let kinds = [
        Names::Short,
        Names::Groups,
        Names::SameEnds,
        Names::SameEndGroups,
        Names::Anagrams,
        Names::Postfixes,
        Names::Blocks,
    ];
    let kind = kinds[random.below(kinds.len())];
    let mut lines = Vec::new();
    let mut used = HEADER.len();
    for number in 0.. {
        let line = numbered(kind, number);
        if used + line.len() > length {
            break;
        }
        used += line.len();
        lines.push(line);
    }
    if lines.is_empty() {
        return HEADER.to_vec();
    }
    if random.once_in(2) {
        random.shuffle(&mut lines);
    }
    let (one, other) = (random.below(lines.len()), random.below(lines.len()));
    match random.below(5) {
        0 => lines[other] = lines[one].clone(),
        1 => lines.insert(other, lines[one].clone()),
        2 => drop(lines.remove(one)),
        3 => lines.insert(other, b"[Other group]\n".to_vec()),
        _ => {}
    }
    let mut file = [HEADER, &lines.concat()].concat();
    if random.once_in(4) {
        spoil(&mut file, random);
    }
    file
}

/// The number-th line of its kind; all of a kind differ.
fn numbered(kind: Names, number: usize) -> Vec<u8> {
    match kind {
        Names::Short => [&counted(number)[..], b"=\n"].concat(),
        Names::Groups => [b"[", &counted(number)[..], b"]\n"].concat(),
        // Long keys that share their first, middle and last bytes; every other one has a postfix.
        Names::SameEnds => {
            let postfix = ["", "[de]"][number % 2];
            format!("{}{postfix}=\n", same_ends(number / 2)).into()
        }
        Names::SameEndGroups => format!("[{}]\n", same_ends(number)).into(),
        // The same letters in another order.
        Names::Anagrams => {
            let mut left = b"abcdefgh".to_vec();
            let mut rest = number;
            let mut name = Vec::new();
            while !left.is_empty() {
                name.push(left.remove(rest % left.len()));
                rest /= left.len() + 1;
            }
            name.extend(counted(rest));
            name.extend(b"=\n");
            name
        }
        // Keys and postfixes with the same bytes, parted at another place; each ninth key is plain.
        Names::Postfixes => {
            let (key, postfix) = (number / 9, number % 9);
            let name = counted(key);
            match postfix {
                0 => [&name[..], b"=\n"].concat(),
                _ => [&name[..], b"[", &b"abcdefgh"[..postfix], b"]=\n"].concat(),
            }
        }
        // Groups with the same keys.
        Names::Blocks => [b"[", &counted(number)[..], b"]\nName[de]=\nName=\n"].concat(),
    }
}

fn same_ends(number: usize) -> String {
    format!("Shared-start{number:04}shared-middle{number:04}shared-end")
}

/// A number as the shortest key: all of one byte, then all of two, and so on.
pub fn counted(number: usize) -> Vec<u8> {
    let mut name = Vec::new();
    let mut rest = number + 1;
    while rest > 0 {
        rest -= 1;
        name.push(KEY_BYTES[rest % KEY_BYTES.len()]);
        rest /= KEY_BYTES.len();
    }
    name
}

/// A file whose length is at the bound or close to it, with few lines.
pub fn near_bound(random: &mut Random) -> Vec<u8> {
    let mut file = sound(random, 3, 8);
    if file.last() != Some(&b'\n') {
        file.push(b'\n');
    }
    let length = match random.below(8) {
        0 => FILE_BOUND + random.within(1, 3_000),
        1 => FILE_BOUND - random.within(0, 3_000),
        _ => FILE_BOUND - 3 + random.below(7),
    };
    let fill = length.saturating_sub(file.len() + 2);
    match random.below(3) {
        0 => file.extend([b"#", &vec![b'c'; fill][..], b"\n"].concat()),
        1 => file.extend([b"L=", &vec![b'v'; fill][..]].concat()),
        _ => file.extend(vec![b'\n'; fill + 2]),
    }
    if random.once_in(2) {
        spoil(&mut file, random);
    }
    file
}

/// A file and questions with a name, key or part of a locale that is very long; near the bound, or far over it.
pub fn long_names(random: &mut Random) -> Question {
    let mut lengths = [(); 6].map(|()| random.within(1, 4));
    for _ in 0..random.within(1, 2) {
        let long = match random.below(5) {
            0 => random.within(200, 300),
            1 => random.within(3_000, 9_000),
            2 => random.within(15_000, 16_500),
            3 => random.within(32_600, 32_780),
            _ => random.within(32_780, 70_000),
        };
        lengths[random.below(6)] = long;
    }
    let [group, key, lang, country, encoding, modifier] = lengths.map(|length| {
        let first = random.below(KEY_BYTES.len());
        let bytes = KEY_BYTES.iter().cycle().skip(first);
        bytes.take(length).copied().collect::<Vec<u8>>()
    });
    let [country, modifier] =
        [(b"_", country), (b"@", modifier)].map(|(mark, part)| match random.below(3) {
            0 => Vec::new(),
            _ => [mark, &part[..]].concat(),
        });
    let encodings = [
        Vec::new(),
        b".UTF-8".to_vec(),
        [b".", &encoding[..]].concat(),
    ];
    let mut file = [HEADER, b"[", &group, b"]\n", &key, b"=plain\n"].concat();
    let mut postfixes = Vec::new();
    for encoding in &encodings {
        postfixes.extend([
            [&lang[..], &country, encoding, &modifier].concat(),
            [&lang[..], &country, encoding].concat(),
            [&lang[..], encoding, &modifier].concat(),
        ]);
    }
    if !random.once_in(6) {
        once_each(&mut postfixes);
    }
    random.shuffle(&mut postfixes);
    for postfix in &postfixes {
        let line = [&postfixed(&key, postfix)[..], b"=value\n"].concat();
        if random.once_in(2) && file.len() + line.len() <= FILE_BOUND {
            file.extend(line);
        }
    }
    let own = &encodings[random.below(3)];
    let mut ask = Ask {
        group,
        key: postfixed(&key, &postfixes[random.below(postfixes.len())]),
        plain: key,
        locale: [&lang[..], &country, own, &modifier].concat(),
    };
    let changed = match random.below(8) {
        0 => &mut ask.group,
        1 => &mut ask.key,
        2 => &mut ask.plain,
        3 => &mut ask.locale,
        _ => {
            return Question {
                file,
                asks: vec![ask],
            }
        }
    };
    match random.below(2) {
        0 => changed.push(random.byte_of(b"aA-=")),
        _ => drop(changed.pop()),
    }
    Question {
        file,
        asks: vec![ask],
    }
}

/// The file, but some of its postfixes have another encoding or stand twice, with one and with another. A new line has a new value.
pub fn recoded(file: &[u8], random: &mut Random) -> Vec<u8> {
    let mut lines = Vec::new();
    for (start, end) in split_lines(file) {
        let line = &file[start..end];
        let mut both = vec![line.to_vec()];
        if let Line::Entry {
            postfix: Some((from, to)),
            ..
        } = read_line(line)
        {
            let postfix = pieces::recoded(&line[from..to], random);
            let other = [&line[..from], &postfix, &line[to..], b"+"].concat();
            match random.below(5) {
                0 => both[0] = other,
                1 => both.push(other),
                2 => both.insert(0, other),
                _ => {}
            }
        }
        lines.extend(both);
    }
    [lines.join(&b'\n'), b"\n".to_vec()].concat()
}

/// An entry of a file: its group, its key, its postfix and the two ends of its value.
pub struct Entry {
    pub group: Vec<u8>,
    pub key: Vec<u8>,
    pub postfix: Option<Vec<u8>>,
    pub value: (usize, usize),
}

impl Entry {
    /// The key with its postfix.
    pub fn name(&self) -> Vec<u8> {
        match &self.postfix {
            Some(postfix) => postfixed(&self.key, postfix),
            None => self.key.clone(),
        }
    }
}

/// Every entry of a file, in order.
pub fn entries(file: &[u8]) -> Vec<Entry> {
    let mut group = Vec::new();
    let mut entries = Vec::new();
    for (start, end) in split_lines(file) {
        let line = &file[start..end];
        match read_line(line) {
            Line::Header { name } => group = line[name.0..name.1].to_vec(),
            Line::Entry {
                key,
                postfix,
                value,
            } => entries.push(Entry {
                group: group.clone(),
                key: line[key.0..key.1].to_vec(),
                postfix: postfix.map(|(from, to)| line[from..to].to_vec()),
                value: (start + value.0, start + value.1),
            }),
            _ => {}
        }
    }
    entries
}

/// A long text or list: runs of a byte, letters and escapes, one after another.
pub fn long_text(random: &mut Random) -> Vec<u8> {
    let length = random.within(500, 40_000);
    let list = random.once_in(2);
    let mut text = Vec::new();
    while text.len() < length {
        match random.below(3) {
            0 => text.extend(vec![random.byte_of(b"a; \n\t"); random.within(1, 300)]),
            1 if list => text.extend(b"\\;x\\s;;\\\\;"),
            1 => text.extend(b"\\s\\n\\t\\r\\\\"),
            _ => text.extend(pieces::letters(random)),
        }
    }
    if random.once_in(2) {
        let at = random.below(text.len());
        text[at] = random.byte_of(BORDERS);
    }
    text
}

/// A question: the file, and names in it to look up and choose.
pub fn asked(file: Vec<u8>, asks: usize, random: &mut Random) -> Question {
    let asks = (0..asks).map(|_| ask(&file, random)).collect();
    Question { file, asks }
}

/// A group and a key that stand in the file, mostly.
pub fn ask(file: &[u8], random: &mut Random) -> Ask {
    let lines = split_lines(file);
    let mut group = b"Desktop Entry".to_vec();
    let mut key = pieces::key(random);
    let mut there = None;
    if !lines.is_empty() {
        let mut at = random.below(lines.len());
        let (start, end) = lines[at];
        let line = &file[start..end];
        if let Line::Entry {
            key: found,
            postfix,
            ..
        } = read_line(line)
        {
            there = postfix.map(|(from, to)| &line[from..to]);
            let postfix = postfix.filter(|_| !random.once_in(4));
            key = line[found.0..postfix.map_or(found.1, |postfix| postfix.1 + 1)].to_vec();
        }
        loop {
            let line = &file[lines[at].0..lines[at].1];
            if let Line::Header { name } = read_line(line) {
                group = line[name.0..name.1].to_vec();
                break;
            }
            if at == 0 {
                break;
            }
            at -= 1;
        }
    }
    match random.below(40) {
        0 => group = pieces::group(random),
        1 => group = pieces::wild(random, 4),
        2 => key = pieces::wild(random, 5),
        3 => key.push(random.byte_of(BORDERS)),
        4 => key.insert(0, random.byte_of(BORDERS)),
        5 => key = pieces::key(random),
        6 => group.push(random.byte_of(BORDERS)),
        7 => key.extend([b"[", &pieces::locale(random)[..], b"]"].concat()),
        8 => key = postfixed(&pieces::key(random), &pieces::locale(random)),
        9 => key = random.pick(&MULLER).into(),
        10 => group = random.pick(&MULLER).into(),
        11 => key.extend([b"[", &pieces::wrong_locale(random)[..], b"]"].concat()),
        12 | 13 => {
            if let Some(postfix) = there {
                key = postfixed(plain(&key), &pieces::recoded(postfix, random));
            }
        }
        _ => {}
    }
    let locale = match (random.below(10), there) {
        (0, _) => Vec::new(),
        (1, _) => pieces::wrong_locale(random),
        (2..=5, Some(postfix)) => pieces::recoded(postfix, random),
        _ => pieces::locale(random),
    };
    let plain = match random.once_in(8) {
        true => key.clone(),
        false => plain(&key).to_vec(),
    };
    Ask {
        group,
        key,
        plain,
        locale,
    }
}

fn postfixed(key: &[u8], postfix: &[u8]) -> Vec<u8> {
    [key, b"[", postfix, b"]"].concat()
}

/// A key without its postfix.
fn plain(key: &[u8]) -> &[u8] {
    let postfix = key.iter().position(|byte| *byte == b'[');
    &key[..postfix.unwrap_or(key.len())]
}
