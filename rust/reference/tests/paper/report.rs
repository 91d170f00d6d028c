//! The reports of the programs `crates/examples_*`, made from the reference's answers. The questions are written here again.

use crate::common::{records, request, with_header, T};
use reference::{
    actions, batch, check, choose, complete, expand, expand_action, forget, lookup, person,
    read_list, read_text, set, write_text, Batch, RecordKind, Refusal, State,
};

/// A call with an output.
type Output = fn(&[u8], &mut [u8]) -> Result<usize, Refusal>;

/// The words of an answer or of its refusal.
fn told<A>(answer: Result<A, Refusal>, words: impl Fn(A) -> String) -> String {
    match answer {
        Ok(answer) => words(answer),
        Err(Refusal {
            number,
            place,
            byte,
        }) => format!("refused {number} at {place} byte {byte}"),
    }
}

/// Bytes between quotation marks: LF as `|`, one outside 0x20 to 0x7E by its digits.
fn quote(bytes: &[u8]) -> String {
    let quoted = bytes.iter().map(|byte| match byte {
        b'\n' => "|".to_string(),
        0x20..=0x7E => char::from(*byte).to_string(),
        _ => format!("<{byte:02X}>"),
    });
    format!("\"{}\"", quoted.collect::<String>())
}

/// Bytes by their digits.
fn digits(bytes: &[u8]) -> String {
    let digits = bytes.iter().map(|byte| format!("{byte:02X}"));
    digits.collect::<Vec<_>>().join(" ")
}

fn checked(call: &str, file: &str, answer: Result<(), Refusal>) -> String {
    format!("{call} {file}: {}", told(answer, |()| "accepted".into()))
}

fn checks(file: &[u8]) -> String {
    checked("check", &quote(file), check(file))
}

/// File T and a comment that fills it up to a length.
fn checks_length(length: usize) -> String {
    let mut file = T.to_vec();
    file.resize(length, b'#');
    let words = format!("T and # up to {length} bytes");
    checked("check", &words, check(&file))
}

fn completes(file: &[u8]) -> String {
    checked("complete", &quote(file), complete(file))
}

/// A value's two ends and the part of the file, which is empty where refused.
fn value(file: &[u8], answer: Result<(usize, usize), Refusal>) -> String {
    let part = answer.map_or(&[][..], |(from, to)| &file[from..to]);
    let ends = told(answer, |(from, to)| format!("{from} to {to}"));
    format!("{ends}, {}", quote(part))
}

/// A key in a group of a file.
fn place(file: &[u8], group: &[u8], key: &[u8]) -> String {
    format!("{} in {} of {}", quote(key), quote(group), quote(file))
}

fn looks_up(file: &[u8], group: &[u8], key: &[u8]) -> String {
    let value = value(file, lookup(file, group, key));
    format!("lookup {}: {value}", place(file, group, key))
}

fn chooses(file: &[u8], key: &[u8], locale: &[u8]) -> String {
    let group = b"Desktop Entry";
    let value = value(file, choose(file, group, key, locale));
    let place = place(file, group, key);
    format!("choose {place} for {}: {value}", quote(locale))
}

/// The words of a call with an output of so many bytes, which holds dots before it.
fn written(
    asked: &str,
    call: impl Fn(&mut [u8]) -> Result<usize, Refusal>,
    show: fn(&[u8]) -> String,
    room: usize,
) -> String {
    let mut out = vec![b'.'; room];
    let answer = told(call(&mut out), |n| format!("{n} bytes"));
    format!("{asked} into {room} bytes: {answer}, {}", show(&out))
}

fn writes(
    name: &str,
    call: Output,
    show: fn(&[u8]) -> String,
    input: &[u8],
    room: usize,
) -> String {
    let asked = format!("{name} {}", quote(input));
    written(&asked, |out| call(input, out), show, room)
}

fn reads_text(raw: &[u8], room: usize) -> String {
    writes("read_text", read_text, quote, raw, room)
}

fn writes_text(text: &[u8], room: usize) -> String {
    writes("write_text", write_text, quote, text, room)
}

fn reads_list(raw: &[u8], room: usize) -> String {
    writes("read_list", read_list, digits, raw, room)
}

/// The two numbers of a journal.
fn numbers(used: u64, standing: u64) -> String {
    format!("used {used}, standing {standing}")
}

/// The words of an edit's answer, with both buffers.
fn edited(state: &State, answer: Result<(), Refusal>) -> String {
    let numbers = numbers(state.used, state.standing);
    let answer = told(answer, |()| format!("{} bytes, {numbers}", state.file_len));
    let (file, journal) = (quote(&state.file), digits(&state.journal));
    format!("{answer}, {file}, {journal}")
}

/// A file and a journal, all of which stands, in buffers of so many bytes, which hold dots first.
fn lent(file: &[u8], file_room: usize, journal: &[u8], journal_room: usize) -> State {
    let dotted = |bytes: &[u8], room| {
        let mut buffer = bytes.to_vec();
        buffer.resize(room, b'.');
        buffer
    };
    State {
        file: dotted(file, file_room),
        file_len: file.len() as u64,
        journal: dotted(journal, journal_room),
        used: journal.len() as u64,
        standing: journal.len() as u64,
    }
}

fn set_by(state: &mut State, person: u16, (key, text): (&str, &str)) -> Result<(), Refusal> {
    let kind = RecordKind::Four(person);
    let (key, text) = (key.as_bytes(), text.as_bytes());
    set(state, kind, b"Desktop Entry", key, text)
}

fn sets_name(room: usize) -> String {
    let mut state = lent(T, 72, b"", room);
    let answer = set_by(&mut state, 258, ("Name", "Les"));
    let told = edited(&state, answer);
    format!(r#"set "Name" of T to "Les" by 258 with a journal of {room} bytes: {told}"#)
}

fn sets_both(first: (&str, &str), next: (&str, &str)) -> String {
    let mut state = lent(T, 84, b"", 56);
    let answer = set_by(&mut state, 1, first).and_then(|()| set_by(&mut state, 2, next));
    let told = edited(&state, answer);
    let ((key, text), (next, next_text)) = (first, next);
    format!(r#"set "{key}" of T to "{text}" by 1, then "{next}" to "{next_text}" by 2: {told}"#)
}

fn asks_person(journal: &[u8], used: u64, standing: u64, n: u64) -> String {
    let answer = person(journal, used, standing, n);
    let told = told(answer, |number| number.to_string());
    format!("person of record {n} in {used} bytes, of which stand {standing}: {told}")
}

/// Some edits forgotten in a copy of a journal.
fn forgets(journal: &[u8], mut used: u64, mut standing: u64, k: u64) -> String {
    let mut journal = journal.to_vec();
    let asked = format!("forget {k} of the edits in {used} bytes, of which stand {standing}");
    let answer = forget(&mut journal, &mut used, &mut standing, k);
    let told = told(answer, |()| numbers(used, standing));
    format!("{asked}: {told}, {}", digits(&journal))
}

/// A journal of 01's set of Name in T, and an edit by a person behind it; who made both, and how they are forgotten.
fn journals() -> Vec<String> {
    let mut old = lent(T, 71, b"", 26);
    let name = set(&mut old, RecordKind::One, b"Desktop Entry", b"Name", b"Les");
    assert_eq!(name, Ok(()));
    let mut state = lent(&old.file[..69], 72, &old.journal, 55);
    let answer = set_by(&mut state, 7, ("Exec", "v"));
    let told = edited(&state, answer);
    let asked = [
        (54, 54, 0),
        (54, 54, 1),
        (54, 26, 1),
        (54, 54, 2),
        (54, 27, 2),
        (53, 26, 0),
        (56, 54, 0),
    ];
    let asked = asked.map(|(used, standing, n)| asks_person(&state.journal, used, standing, n));
    let forgotten = [(54, 0), (26, 1), (26, 2), (27, 1), (54, 2)];
    let forgotten = forgotten.map(|(standing, k)| forgets(&state.journal, 54, standing, k));
    let set = format!(r#"set "Exec" to "v" by 7 behind a record of kind 1: {told}"#);
    [&[set][..], &asked, &forgotten].concat()
}

/// A batch by person 3 on a file with an empty journal of so many bytes.
fn runs_batch(words: &str, file: &[u8], list: &[u8], room: usize) -> String {
    let mut state = lent(file, 72, b"", room);
    let Batch { done, stopped } = batch(&mut state, 3, list);
    let refused = stopped.map_or(String::new(), |refusal| {
        told(Err(refusal), |()| String::new()) + ", "
    });
    let numbers = numbers(state.used, state.standing);
    let (file, journal) = (quote(&state.file), digits(&state.journal));
    format!(
        "batch: \"{words}\" by 3 with a journal of {room} bytes: {refused}{done} done, {} bytes, {numbers}, {file}, {journal}",
        state.file_len
    )
}

fn batches() -> Vec<String> {
    let entry = b"Desktop Entry";
    let name = request(5, &[entry, b"Name", b"Les"]);
    let french = request(6, &[entry, b"Name[fr]"]);
    let german = request(5, &[entry, b"URL[de]", b"a"]);
    let plain = request(6, &[entry, b"Name"]);
    let both = [&name[..], &french].concat();
    let stopped = [&name[..], &german, &french].concat();
    let remaining = [&plain[..], &name].concat();
    let followed = [&name[..], b"."].concat();
    let mut longer = name.clone();
    longer[31] += 1;
    let mut wider = [&french[..], b"."].concat();
    wider[0] += 1;
    vec![
        runs_batch("set Name to Les, remove Name[fr]", T, &both, 62),
        runs_batch("set Name to Les, remove Name[fr]", T, &both, 61),
        runs_batch("nothing", T, b"", 62),
        runs_batch(
            "set Name to Les, set URL[de] to a, remove Name[fr]",
            T,
            &stopped,
            62,
        ),
        runs_batch("remove Name, set Name to Les", T, &remaining, 62),
        runs_batch("set Name to Les, and one byte", T, &followed, 62),
        runs_batch("set Name to Les, a text one byte too long", T, &longer, 62),
        runs_batch("remove Name[fr], and one byte in its record", T, &wider, 62),
        runs_batch("nothing", b"[Desktop Entry]\nName\n", b"", 62),
    ]
}

/// What an expansion is asked, from the file on.
fn expansion(file: &[u8], locale: &[u8], location: &[u8], list: &[u8]) -> String {
    let [file, locale, location, list] = [file, locale, location, list].map(quote);
    format!("{file} for {locale} at {location} with the list {list}")
}

/// A run of a file's Exec for a locale at a location, with a list of files, into so many bytes.
fn expands(
    file: &[u8],
    locale: &[u8],
    location: &[u8],
    list: &[u8],
    run: u64,
    room: usize,
) -> String {
    let asked = expansion(file, locale, location, list);
    let asked = format!("expand run {run} of {asked}");
    let call = |out: &mut [u8]| expand(file, locale, location, list, run, out);
    written(&asked, call, digits, room)
}

/// The actions of a file for a locale, into so many bytes.
fn lists(file: &[u8], locale: &[u8], room: usize) -> String {
    let asked = format!("actions of {} for {}", quote(file), quote(locale));
    written(&asked, |out| actions(file, locale, out), digits, room)
}

/// Run 0 of an action with the file `a`, for German, at a location.
fn expands_action(file: &[u8], action: &[u8]) -> String {
    let (locale, location, list) = (b"de", b"/t.desktop", records(2, &["a"]));
    let asked = expansion(file, locale, location, &list);
    let asked = format!("expand_action run 0 of {} in {asked}", quote(action));
    let call = |out: &mut [u8]| expand_action(file, action, locale, location, &list, 0, out);
    written(&asked, call, digits, 42)
}

fn edits() -> Vec<String> {
    let (name, exec) = (("Name", "Les"), ("Exec", "v"));
    let (icon, url) = (("Icon", "a"), ("URL", "b"));
    let orders = [
        sets_both(name, exec),
        sets_both(exec, name),
        sets_both(icon, url),
        sets_both(url, icon),
    ];
    [
        &[29, 28, 27].map(sets_name)[..],
        &orders,
        &journals(),
        &batches(),
    ]
    .concat()
}

fn commands() -> Vec<String> {
    let one = b"\x07\0\0\0\x02\0a";
    let two = records(2, &["a b.txt", "c%f.txt"]);
    let plain = |list: &[u8], run, room| expands(T, b"", b"", list, run, room);
    let german = |entries: &[u8], list: &[u8], run, room| {
        let file = with_header(entries);
        expands(&file, b"de", b"/t.desktop", list, run, room)
    };
    let command = |exec: &[u8]| {
        let file = with_header(&[b"Exec=", exec, b"\n"].concat());
        expands(&file, b"", b"", b"", 0, 24)
    };
    vec![
        plain(one, 0, 17),
        plain(one, 0, 16),
        plain(one, 1, 17),
        plain(b"", 0, 10),
        plain(b"\x07", 0, 10),
        german(b"Exec=view -- %f\n", &two, 0, 40),
        german(b"Exec=view -- %f\n", &two, 1, 40),
        german(b"Exec=view -- %f\n", &two, 2, 40),
        german(b"Exec=view %F\n", &two, 0, 40),
        german(b"Exec=view %F\n", &two, 1, 40),
        german(b"Exec=view %F\n", &records(2, &[""]), 0, 10),
        german(b"Name=X\n", b"", 0, 10),
        german(b"Exec\n", b"", 0, 10),
        german(b"Exec=view %d%f %k\n", b"", 0, 26),
        german(b"Name=N\nIcon=i\nExec=v %i %i \"\" %k%c%d%u\n", b"", 0, 68),
        german(
            b"Name=X\nName[de]=Y z\nIcon=a\nExec=view %i --n=%c\n",
            b"",
            0,
            42,
        ),
        german(b"Name=X\nIcon=a\nIcon[de]=\nExec=view %i %c\n", b"", 0, 24),
        german(b"Exec=view %i\n", b"", 0, 24),
        german(b"Icon=\\q\nExec=view %i %c\n", b"", 0, 24),
        german(b"Name=X\nIcon=a\\q\nExec=view %i %c\n", b"", 0, 24),
        command(br#"view "a\\$b""#),
        command(br#"view "a\\\\""#),
        command(br#"view "" %%f"#),
        command(b"view --x=%f"),
        command(b"view %f"),
        command(br#"v "a b" x"#),
        command(br"\s v  %F "),
        command(b"%%"),
        command(b""),
        command(br"\s\s"),
        command(b"a=b"),
        command(b"%F"),
        command(b"view%d"),
        command(b"view %f %u"),
        command(b"view %F'"),
        command(b"view %f'"),
        command(b"view %%f%%%"),
        command(br#"""x"#),
        command(br#"view "%f""#),
        command(br#"view "a$b"#),
        command(br#"view "a\\""#),
        command(br#"view "a%""#),
        command(br#"view "\\%""#),
        command(br#"view "a"%z"#),
        command(br#"view "a""b""#),
        command(br#"view "a=" b="""#),
    ]
}

fn submenus() -> Vec<String> {
    let file = with_header(
        b"Name=A\nName[de]=B\nIcon=a\nActions=new;print;new;gone;a b;bare;\n\
        [Desktop Action new]\nName=New\nName[de]=Neu\nIcon=n\nExec=app %i %c %f\n\
        [Desktop Action print]\nName=Print\nExec=app %i %c\n\
        [Desktop Action a b]\nName=C\nExec=app\n\
        [Desktop Action bare]\nExec=app\n",
    );
    let wrong = with_header(b"Actions=a;\\q\n[Desktop Action a]\nName=\\q\n");
    let labels =
        with_header(b"Actions=b;a\n[Desktop Action a]\nName=\\q\n[Desktop Action b]\nName=x\\q\n");
    vec![
        lists(&file, b"", 42),
        lists(&file, b"de", 40),
        lists(&file, b"de", 39),
        expands_action(&file, b"new"),
        expands_action(&file, b"print"),
        expands_action(&file, b"a b"),
        expands_action(&file, b"bare"),
        lists(&wrong, b"", 4),
        expands_action(&wrong, b"b"),
        lists(&labels, b"", 4),
    ]
}

fn files() -> Vec<String> {
    vec![
        checks(b""),
        checks(T),
        checks_length(32_768),
        checks_length(32_769),
        checks(&with_header(b"Name[fr]=a\nName=b\n")),
        checks(b"# only\n\t\n"),
        checks(&with_header(b"Name\n")),
        checks(b"[Desktop Entry]\r\n"),
        checks(b"Name=x\n[Desktop Entry]\n"),
        checks(b"# first\n[Other]\n"),
        checks(&with_header(b"[A]\n[B]\n[A]\n")),
        checks(&with_header(b"Name=a\nName=b\n")),
        checks(&with_header(b"Name[fr]=a\nName[de]=b\n")),
        checks(&with_header(b"Name[fr]=a\n!\n")),
        checks(b"[]\n"),
        checks(b"[Desktop Entry]x\n"),
        checks(&with_header(b" x\n")),
        checks(&with_header(b"Name\t=x\n")),
        checks(&with_header(b"Name[]=x\n")),
        checks(&with_header(b"Name[de")),
        checks(&with_header(b"Name=\xE0\x80\n")),
        checks(&with_header(b"Name=\xE0")),
        completes(T),
        completes(&with_header(
            b"Type=Application\nName=N\nDBusActivatable=true\n",
        )),
        completes(b""),
        completes(&with_header(b"Type\n")),
        completes(&with_header(b"Name=N\n")),
        completes(&with_header(b"Name=N\nType=Tool\n")),
        completes(&with_header(b"Type=Directory\n")),
        completes(&with_header(b"Type=Application\nName=N\n")),
        completes(&with_header(b"Type=Link\nName=N\n")),
        completes(&with_header(b"Type=Directory\nName=N\nHidden=no\n")),
    ]
}

fn values() -> Vec<String> {
    let entry = b"Desktop Entry";
    let serbian = with_header(b"Name=Foo\nName[sr_YU]=a\nName[sr@Latn]=b\nName[sr]=c\n");
    let encoded = with_header(
        b"Type=Application\nName=A\nName[de_DE.UTF-8]=B\nName[de_DE]=C\nName[de.UTF-8@x]=D\n",
    );
    vec![
        looks_up(&with_header(b"Name = X\n"), entry, b"Name"),
        looks_up(&with_header(b"Name=\n"), entry, b"Name"),
        looks_up(&with_header(b"Name=a \n"), entry, b"Name"),
        looks_up(T, entry, b"Name[fr]"),
        looks_up(b"", b"[", b"Name"),
        looks_up(&with_header(b"Name\n"), b"[", b"Name"),
        looks_up(T, b"[", b"Name"),
        looks_up(T, entry, b"Name["),
        looks_up(T, b"Other", b"Name"),
        looks_up(T, entry, b"Icon"),
        chooses(&serbian, b"Name", b"sr_YU@Latn"),
        chooses(T, b"Name", b"fr_CA.UTF-8"),
        chooses(T, b"Name", b"de"),
        chooses(T, b"Name", b"C"),
        chooses(T, b"Name", b""),
        chooses(&encoded, b"Name", b"de_DE"),
        chooses(&encoded, b"Name", b"de_DE.ISO-8859-1@x"),
        chooses(&encoded, b"Name", b"de@x"),
        chooses(&encoded, b"Name", b"de"),
        chooses(&encoded, b"Name", b"C.UTF-8"),
        looks_up(&encoded, entry, b"Name[de_DE]"),
        chooses(b"", b"Name", b"_"),
        chooses(&with_header(b"Name[\n"), b"Name", b"_"),
        chooses(T, b"Name[fr]", b"fr"),
        chooses(T, b"Name", b"_"),
        chooses(T, b"Icon", b"fr"),
    ]
}

fn texts() -> Vec<String> {
    vec![
        reads_text(br"a\q", 4),
        reads_text(br"a\", 4),
        reads_text(br"a\;b", 4),
        reads_text(br"\sx", 4),
        reads_text(br"\sx", 2),
        reads_text(br"\sx", 1),
        reads_text(br"a\tb\nc\rd\\", 8),
        writes_text(b" x", 4),
        writes_text(b" x", 3),
        writes_text(b" x", 2),
        writes_text(b"  ", 4),
        writes_text(b"a\tb\nc\rd\\", 12),
        writes_text("ä".as_bytes(), 4),
        writes_text(b"\xC3", 4),
        writes_text(b"a\x01", 4),
        reads_list(br"a\;b;;", 16),
        reads_list(b";", 6),
        reads_list(b"", 6),
        reads_list(b"a;b", 14),
        reads_list(b"a;b", 13),
        reads_list(br"a;b\q", 16),
    ]
}

/// The report of a program is these lines.
fn reports(program: &str, lines: Vec<String>) {
    let path = format!("{}/../../crates/{program}/stdout", env!("CARGO_MANIFEST_DIR"));
    let report = std::fs::read_to_string(path).unwrap();
    for (line, expected) in report.lines().zip(&lines) {
        assert_eq!(line, expected);
    }
    assert_eq!(report, lines.join("\n") + "\n");
}

#[test]
fn the_programs_report_the_same() {
    reports("examples_files", [files(), values(), texts()].concat());
    reports("examples_edits", edits());
    reports("examples_commands", [commands(), submenus()].concat());
}
