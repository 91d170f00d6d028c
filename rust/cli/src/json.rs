//! Objects of JSON, one a line (docs/JSON.md).

use std::fmt::Write;

use serde_json::{json, Value};

/// Bytes as a string; bytes that are not UTF-8 as an object with their hexadecimal digits.
pub fn text(bytes: &[u8]) -> Value {
    match std::str::from_utf8(bytes) {
        Ok(text) => text.into(),
        Err(_) => {
            let mut digits = String::new();
            for byte in bytes {
                let _ = write!(digits, "{byte:02x}");
            }
            json!({ "hex": digits })
        }
    }
}

/// An object on a line of its own.
pub fn line(object: &Value) -> Vec<u8> {
    format!("{object}\n").into_bytes()
}

#[cfg(test)]
mod tests {
    use super::*;

    #[test]
    fn bytes_that_are_not_utf8_are_marked() {
        assert_eq!(
            line(&text("M\u{FC}\n\"".as_bytes())),
            "\"M\u{FC}\\n\\\"\"\n".as_bytes()
        );
        assert_eq!(line(&text(b"M\xFC\x0A")), b"{\"hex\":\"4dfc0a\"}\n");
    }
}
