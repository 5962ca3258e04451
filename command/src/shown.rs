//! Names of files as they are printed: one line each, whatever bytes they have.

use std::path::Path;

/// A path for people: control characters as escapes, bytes that are not UTF-8 as the sign for such.
pub fn path(path: &Path) -> String {
    let text = path.to_string_lossy();
    if !text.contains(char::is_control) {
        return text.into_owned();
    }
    let escaped = |c: char| match c.is_control() {
        true => c.escape_default().to_string(),
        false => c.to_string(),
    };
    text.chars().map(escaped).collect()
}

/// A text as a JSON string, quotation marks included.
pub fn json(text: &str) -> String {
    let mut out = String::from("\"");
    for c in text.chars() {
        match c {
            '"' => out.push_str("\\\""),
            '\\' => out.push_str("\\\\"),
            '\n' => out.push_str("\\n"),
            c if c.is_control() => out.push_str(&format!("\\u{:04x}", c as u32)),
            c => out.push(c),
        }
    }
    out.push('"');
    out
}

#[cfg(test)]
mod tests {
    use super::{json, path};
    use std::ffi::OsStr;
    use std::os::unix::ffi::OsStrExt;
    use std::path::Path;

    #[test]
    fn one_line_each() {
        assert_eq!(path(Path::new("a b/ü")), "a b/ü");
        assert_eq!(path(Path::new("a\nb: same\x1b")), "a\\nb: same\\u{1b}");
        assert_eq!(path(Path::new(OsStr::from_bytes(b"\xff"))), "\u{fffd}");
        assert_eq!(json("a\"\\\n\u{7f}ü"), "\"a\\\"\\\\\\n\\u007fü\"");
    }
}
