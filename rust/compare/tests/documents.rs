//! The documents name theorems, definitions and lines of code: each stands where they say.

use std::path::PathBuf;

/// A file of the repository.
fn read(path: &str) -> String {
    let top = PathBuf::from(env!("CARGO_MANIFEST_DIR")).join("../..");
    std::fs::read_to_string(top.join(path)).unwrap_or_else(|e| panic!("{path}: {e}"))
}

/// The part of a page under a heading of the second level.
fn section(page: &str, heading: &str) -> String {
    let text = read(page);
    let from = text
        .find(&format!("\n## {heading}\n"))
        .unwrap_or_else(|| panic!("{page} has no part `{heading}`"));
    let rest = &text[from + 1..];
    rest[..rest.find("\n## ").unwrap_or(rest.len())].to_string()
}

/// What stands between backticks, in order.
fn quoted(text: &str) -> Vec<&str> {
    text.split('`').skip(1).step_by(2).collect()
}

/// The cells of a table's rows, without its head.
fn rows(text: &str) -> Vec<Vec<&str>> {
    text.lines()
        .filter(|line| line.starts_with('|'))
        .skip(2)
        .map(|line| line.trim_matches('|').split('|').map(str::trim).collect())
        .collect()
}

#[test]
fn each_theorem_of_the_readme_is_in_its_file() {
    let mut seen = 0;
    for row in rows(&section("README.md", "What is proved, and what is not")) {
        let [_, theorems, file] = row[..] else {
            panic!("{row:?}")
        };
        let text = read(quoted(file)[0]);
        assert!(!quoted(theorems).is_empty(), "{row:?}");
        for theorem in quoted(theorems) {
            let defined = [
                format!("pub {theorem} : "),
                format!("pub record {theorem} : "),
            ];
            assert!(
                defined.iter().any(|d| text.contains(d)),
                "{theorem} is not in {file}"
            );
            seen += 1;
        }
    }
    assert!(seen > 15, "only {seen} theorems");
}

#[test]
fn each_definition_of_the_architecture_is_in_its_file() {
    let mut seen = 0;
    for row in rows(&section("docs/ARCHITECTURE.md", "Where each rule lives")) {
        let mut directory = "";
        for place in row[1].split(';').filter(|place| !place.trim().is_empty()) {
            let (file, names) = place.split_once(':').unwrap_or_else(|| panic!("{place}"));
            if let Some(named) = quoted(file).first() {
                directory = named;
            }
            let file = file.rsplit(' ').next().unwrap();
            let path = format!("crates/{directory}/specs/{file}.antt");
            let text = read(&path);
            assert!(!quoted(names).is_empty(), "{place}");
            for name in quoted(names) {
                let defined = ["", "record ", "data "].iter().any(|kind| {
                    [" :", " (", " {"]
                        .iter()
                        .any(|next| text.contains(&format!("pub {kind}{name}{next}")))
                });
                assert!(
                    defined || text.contains(&format!("\n  {name} : ")),
                    "{name} is not in {path}"
                );
                seen += 1;
            }
        }
    }
    assert!(seen > 100, "only {seen} definitions");
}

#[test]
fn each_form_is_at_its_line() {
    let mut seen = 0;
    let text = section("docs/DECISIONS.md", "Forms that 01 names");
    let words = quoted(&text);
    for (i, word) in words.iter().enumerate() {
        let Some((path, line)) = word.rsplit_once(':') else {
            continue;
        };
        let Ok(number) = line.parse::<usize>() else {
            continue;
        };
        let code = words
            .get(i + 1)
            .unwrap_or_else(|| panic!("{word}: no code is named"));
        let there = read(path);
        let found = there.lines().nth(number - 1).unwrap_or("");
        assert!(found.contains(code), "{word} is not `{code}` but `{found}`");
        seen += 1;
    }
    assert!(seen > 5, "only {seen} lines");
}
