//! What 02's A3 says of keys that carry an encoding, in every short file of them: the library and the reference must agree.

use compare::actions;
use compare::asker::Asker;
use compare::expand::Question;
use compare::files::Ask;
use compare::run::have_encodings;

/// Every locale of one lang with or without a country, one of two encodings and a modifier.
fn locales() -> Vec<String> {
    let mut locales = Vec::new();
    for country in ["", "_DE"] {
        for encoding in ["", ".a", ".b"] {
            for modifier in ["", "@x"] {
                locales.push(format!("de{country}{encoding}{modifier}"));
            }
        }
    }
    locales
}

/// Every list of up to three of these as postfixes, in every order.
fn postfixes() -> Vec<Vec<String>> {
    let mut lists = vec![Vec::new()];
    let mut from = 0;
    for _ in 0..3 {
        let end = lists.len();
        for shorter in from..end {
            for locale in locales() {
                if !lists[shorter].contains(&locale) {
                    lists.push([&lists[shorter][..], &[locale]].concat());
                }
            }
        }
        from = end;
    }
    lists
}

/// The lines of a key, each with its postfix as value.
fn lines<'a>(key: &str, postfixes: impl Iterator<Item = &'a String>) -> String {
    let line = |postfix: &String| format!("{key}[{postfix}]={postfix}\n");
    format!("{key}=plain\n{}", postfixes.map(line).collect::<String>())
}

/// The number of lists, and of locales that ask: those of the postfixes, and one that means the plain key.
const LISTS: usize = 1 + 12 + 12 * 11 + 12 * 11 * 10;
const ASKING: usize = 13;

/// Each file of such postfixes, asked by each locale.
fn each(mut ask: impl FnMut(&[String], &str)) {
    let lists = postfixes();
    let asking = [locales(), vec!["C.a".to_string()]].concat();
    assert_eq!((lists.len(), asking.len()), (LISTS, ASKING));
    for list in &lists {
        for locale in &asking {
            ask(list, locale);
        }
    }
}

/// The choice by a locale, and the lookup of the key with this locale as postfix.
#[test]
fn choices_and_lookups() {
    let mut asker = Asker::new(1);
    each(|postfixes, locale| {
        let file = format!("[Desktop Entry]\n{}", lines("Name", postfixes.iter()));
        let ask = Ask {
            group: b"Desktop Entry".to_vec(),
            key: format!("Name[{locale}]").into(),
            plain: b"Name".to_vec(),
            locale: locale.into(),
        };
        let (file, asker) = (file.as_bytes(), &mut asker);
        let compared = asker.lookup(file, &ask).and(asker.choose(file, &ask));
        if let Err(difference) = compared {
            panic!("{difference}\ninput: {}", file.escape_ascii());
        }
    });
    let all = (LISTS * ASKING) as u64;
    // Of three postfixes in twelve places: 1 + 22 + 330 lists have a given one.
    let found = 12 * (1 + 2 * 11 + 3 * 11 * 10);
    let tally = [
        ("choose", 0, all),
        ("lookup", 0, found),
        ("lookup", 8, all - found),
    ];
    for (call, number, times) in tally {
        assert_eq!(asker.tally.get(&(call, number)), Some(&times), "{call}");
    }
    have_encodings("choices_and_lookups", &asker, &[("choose", 1_000)]);
}

/// Name and Icon of a command; Icon has the same postfixes the other way round.
#[test]
fn commands() {
    let mut asker = Asker::new(2);
    each(|postfixes, locale| {
        let names = lines("Name", postfixes.iter());
        let icons = lines("Icon", postfixes.iter().rev());
        let file = format!("[Desktop Entry]\n{names}{icons}Exec=v %c %i\n");
        let mut question = Question::of(file.into_bytes());
        question.locale = locale.into();
        if let Err(difference) = question.compare(&mut asker) {
            panic!("{difference}\ninput: {}", question.file.escape_ascii());
        }
    });
    let all = (LISTS * ASKING) as u64;
    assert_eq!(asker.tally.get(&("expand", 0)), Some(&(2 * all)));
    have_encodings("commands", &asker, &[("Name", 1_000), ("Icon", 1_000)]);
}

/// The label of an action, and its command: Name is the application's, Icon is the action's, with the same postfixes the other
/// way round.
#[test]
fn labels_and_commands_of_actions() {
    let mut asker = Asker::new(4);
    each(|postfixes, locale| {
        let names = lines("Name", postfixes.iter());
        let others = [("Name", "label "), ("Icon", "")].map(|(key, value)| {
            let lines = lines(key, postfixes.iter().rev());
            lines.replace('=', &format!("={value}"))
        });
        let file = format!(
            "[Desktop Entry]\n{names}Actions=a\n[Desktop Action a]\n{}Exec=v %c %i\n",
            others.concat()
        );
        let list = actions::Question {
            file: file.clone().into(),
            locale: locale.into(),
        };
        let mut command = Question::of(file.into());
        command.action = Some(b"a".to_vec());
        command.locale = locale.into();
        let asker = &mut asker;
        let compared = list.compare(asker).and_then(|()| command.compare(asker));
        if let Err(difference) = compared {
            panic!("{difference}\ninput: {}", list.file.escape_ascii());
        }
    });
    let all = (LISTS * ASKING) as u64;
    for call in ["actions", "expand_action"] {
        assert_eq!(asker.tally.get(&(call, 0)), Some(&(2 * all)), "{call}");
    }
    let choices = [("label", 1_000), ("Name", 1_000), ("Icon", 1_000)];
    have_encodings("labels_and_commands_of_actions", &asker, &choices);
}
