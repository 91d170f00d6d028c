//! The modules of the reference, and those of the comparison, import each other one way.

use std::collections::BTreeMap;
use std::fs;

/// Each module of a crate with the names that it has behind `crate::` or `super::`, in braces too.
fn imports(name: &str) -> BTreeMap<String, Vec<String>> {
    let is_between = |c: char| !c.is_alphanumeric() && c != '_';
    let mut modules = BTreeMap::new();
    for file in fs::read_dir(format!("{}/../{name}/src", env!("CARGO_MANIFEST_DIR"))).unwrap() {
        let path = file.unwrap().path();
        let text = fs::read_to_string(&path).unwrap();
        let mut names = Vec::new();
        for behind in text.replace("super::", "crate::").split("crate::").skip(1) {
            let is_end = |c: char| c == ';' || !behind.starts_with('{') && is_between(c);
            let named = behind.split(is_end).take(1);
            names.extend(named.flat_map(|named| named.split(is_between).map(str::to_string)));
        }
        modules.insert(path.file_stem().unwrap().to_str().unwrap().into(), names);
    }
    modules
}

/// Follows the imports behind a way of them, and panics where they come back to its start.
fn follow(way: &[&str], modules: &BTreeMap<String, Vec<String>>) {
    for next in modules.get(way[way.len() - 1]).into_iter().flatten() {
        assert!(next != way[0], "{} -> {next}", way.join(" -> "));
        if !way.contains(&&next[..]) {
            follow(&[way, &[next]].concat(), modules);
        }
    }
}

#[test]
fn no_imports_go_in_a_circle() {
    for name in ["reference", "compare"] {
        let modules = imports(name);
        assert!(modules.len() > 9, "{name}: only {:?}", modules.keys());
        for module in modules.keys() {
            follow(&[module], &modules);
        }
    }
}
