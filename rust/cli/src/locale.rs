//! Which locales are asked for, one by its name or those of the environment, and which value they read.

use std::env;
use std::ffi::{OsStr, OsString};
use std::ops::Range;
use std::os::unix::ffi::{OsStrExt, OsStringExt};

use kveldrim::{Refusal, DESKTOP_ENTRY};

use crate::arguments::Locale;
use crate::faults;
use crate::report::{shown, warn};

/// The word that means the locales of the environment.
const AUTO: &str = "auto";

pub fn is_auto(locale: &OsStr) -> bool {
    locale == AUTO
}

/// The locales that a `--locale` asks for, the first first. Those of the environment that are not of the form are passed over
/// with a warning.
pub fn asked(locale: &OsStr) -> Vec<Vec<u8>> {
    match is_auto(locale) {
        true => of_environment(|name| env::var_os(name)),
        false => vec![locale.as_bytes().to_vec()],
    }
}

/// The locales of the first variable that is set and not empty. LANGUAGE has a list, parted by colons.
fn of_environment(variable: impl Fn(&str) -> Option<OsString>) -> Vec<Vec<u8>> {
    let set = |name: &&str| variable(name).is_some_and(|value| !value.is_empty());
    let names = ["LANGUAGE", "LC_ALL", "LC_MESSAGES", "LANG"];
    let Some(name) = names.into_iter().find(set) else {
        return Vec::new();
    };
    let value = variable(name).unwrap_or_default().into_vec();
    let parts: Vec<&[u8]> = match name {
        "LANGUAGE" => value.split(|byte| *byte == b':').collect(),
        _ => vec![&value],
    };
    let mut locales = Vec::new();
    for locale in parts.into_iter().filter(|locale| !locale.is_empty()) {
        match is_locale(locale) {
            true => locales.push(locale.to_vec()),
            false => {
                let form = " is not a locale (as de, de_AT or de_AT.UTF-8@euro) and is passed over";
                let of = [b" of ", name.as_bytes(), form.as_bytes()].concat();
                warn(&[&shown(OsStr::from_bytes(locale))[..], &of].concat());
            }
        }
    }
    locales
}

/// Whether a word is of the form of a locale, as the core sees it.
fn is_locale(word: &[u8]) -> bool {
    kveldrim::choose(b"[Desktop Entry]\nA=\n", DESKTOP_ENTRY, b"A", word).is_ok()
}

/// The first of the locales by which another value than that of the plain key is chosen in one of the groups, or which means the
/// plain key.
fn first<'a>(
    file: &[u8],
    groups: &[impl AsRef<[u8]>],
    key: &[u8],
    locales: &'a [Vec<u8>],
) -> Option<&'a Vec<u8>> {
    let chosen = |locale: &[u8]| -> Vec<_> {
        let groups = groups.iter();
        let ends = groups.map(|group| kveldrim::choose_ends(file, group.as_ref(), key, locale));
        ends.collect()
    };
    let plain = chosen(b"");
    locales
        .iter()
        .find(|locale| chosen(locale) != plain || is_plain(locale))
}

/// Where the value of a key stands that the locales take, each in turn before the plain key.
pub fn choose(
    file: &[u8],
    group: &[u8],
    key: &[u8],
    locales: &[Vec<u8>],
) -> Result<Range<usize>, Refusal> {
    let locale = first(file, &[group], key, locales);
    kveldrim::choose_ends(file, group, key, locale.map_or(b"", |locale| locale))
}

/// The one locale that an answer takes, of those that are asked for: the first that has a Name of its own in one of the groups,
/// else the first of all.
pub fn of_names(file: &[u8], groups: &[impl AsRef<[u8]>], locale: &Locale) -> Vec<u8> {
    let locales = locale.locale.as_deref().map(asked).unwrap_or_default();
    let own = first(file, groups, b"Name", &locales);
    own.or(locales.first()).cloned().unwrap_or_default()
}

/// Whether a locale means the plain key: not even a postfix that is just this locale is read.
fn is_plain(locale: &[u8]) -> bool {
    let key = [b"A[", locale, b"]"].concat();
    let file = [b"[Desktop Entry]\nA=\n", &key[..], b"=\n"].concat();
    locale.is_empty() || read_instead(&file, DESKTOP_ENTRY, &key).is_some()
}

/// Where the value stands that the locale in a key's postfix reads instead of that key's own; none if it reads that.
pub fn read_instead(file: &[u8], group: &[u8], key: &[u8]) -> Option<Range<usize>> {
    let own = kveldrim::lookup_ends(file, group, key).ok()?;
    let (plain, locale) = parts(key)?;
    let chosen = kveldrim::choose_ends(file, group, plain, locale).ok()?;
    (chosen != own).then_some(chosen)
}

/// A key without its postfix, and the locale in that; none if it has no postfix.
pub fn parts(key: &[u8]) -> Option<(&[u8], &[u8])> {
    let plain = faults::plain(key)?;
    let locale = key[plain.len()..].strip_prefix(b"[")?.strip_suffix(b"]")?;
    Some((plain, locale))
}

#[cfg(test)]
mod tests {
    use super::*;

    fn of(variables: &[(&str, &str)]) -> Vec<String> {
        let locales = of_environment(|name| {
            let found = variables.iter().find(|(variable, _)| *variable == name);
            found.map(|(_, value)| value.into())
        });
        locales
            .into_iter()
            .map(|locale| String::from_utf8(locale).unwrap())
            .collect()
    }

    #[test]
    fn the_first_variable_that_is_set() {
        assert_eq!(of(&[]), [""; 0]);
        assert_eq!(of(&[("LANG", "de_AT.UTF-8")]), ["de_AT.UTF-8"]);
        assert_eq!(
            of(&[("LC_ALL", ""), ("LC_MESSAGES", "fr"), ("LANG", "de")]),
            ["fr"]
        );
        assert_eq!(of(&[("LC_ALL", "C"), ("LANG", "fr")]), ["C"]);
        assert_eq!(
            of(&[("LANGUAGE", "sv:nb::de"), ("LC_ALL", "fr")]),
            ["sv", "nb", "de"]
        );
        assert_eq!(of(&[("LANGUAGE", ""), ("LC_ALL", "fr")]), ["fr"]);
        assert_eq!(of(&[("LANGUAGE", "de utf8:fr")]), ["fr"]);
    }

    #[test]
    fn plain_locales() {
        for plain in ["", "C", "POSIX", "C.UTF-8", "POSIX.x"] {
            assert!(is_plain(plain.as_bytes()), "{plain}");
        }
        for other in ["c", "C_DE", "C@x", "C.UTF-8@x", "de", "de.UTF-8"] {
            assert!(!is_plain(other.as_bytes()), "{other}");
        }
    }
}
