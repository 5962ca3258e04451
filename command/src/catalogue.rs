//! The catalogue of a folder: a sum for each archive below, in the form of sha256sum.

use crate::bag::TAGS;
use crate::files::{self, Links};
use crate::seal::PAGE;
use crate::sha256;
use crate::verify::Form;
use std::collections::BTreeMap;
use std::ffi::OsString;
use std::io;
use std::os::unix::ffi::{OsStrExt, OsStringExt};
use std::path::{Path, PathBuf};

pub const CATALOGUE: &str = "catalogue-sha256.txt";

/// The file whose sum stands for an archive: it has, or leads to, the sums of all others.
pub fn file_of(archive: &Path, form: Form) -> PathBuf {
    archive.join(match form {
        Form::Bag => TAGS,
        Form::Flat => PAGE,
    })
}

/// Sums by the path of their file, from the catalogue's folder.
#[derive(Clone, Debug, Default, PartialEq, Eq)]
pub struct Catalogue {
    pub sums: BTreeMap<PathBuf, String>,
}

impl Catalogue {
    /// The sum of an archive's file, by its path from the folder.
    pub fn add(&mut self, folder: &Path, archive: &Path, form: Form) -> io::Result<()> {
        let file = file_of(archive, form);
        let sum = sha256::hex(&files::regular(&file, Links::Refuse)?);
        let inside = file.strip_prefix(folder).unwrap_or(&file);
        self.sums.insert(inside.to_path_buf(), sum);
        Ok(())
    }

    /// As sha256sum prints it.
    pub fn text(&self) -> Vec<u8> {
        let mut text = Vec::new();
        for (path, sum) in &self.sums {
            let (name, escaped) = escape(path.as_os_str().as_bytes());
            if escaped {
                text.push(b'\\');
            }
            text.extend(sum.as_bytes());
            text.extend(b"  ");
            text.extend(name);
            text.push(b'\n');
        }
        text
    }

    /// Exactly what `text` writes.
    pub fn read(text: &[u8]) -> Option<Catalogue> {
        let mut catalogue = Catalogue::default();
        for line in text.split_inclusive(|b| *b == b'\n') {
            let line = line.strip_suffix(b"\n")?;
            let line = line.strip_prefix(b"\\").unwrap_or(line);
            let sum = std::str::from_utf8(line.get(..64)?).ok()?;
            let name = line[64..].strip_prefix(b"  ")?;
            let path = PathBuf::from(OsString::from_vec(unescape(name)));
            catalogue.sums.insert(path, sum.to_string());
        }
        (catalogue.text() == text).then_some(catalogue)
    }
}

/// sha256sum writes a backslash and ends of lines as escapes, with a backslash in front of such a line.
fn escape(name: &[u8]) -> (Vec<u8>, bool) {
    let mut out = Vec::new();
    for byte in name {
        match byte {
            b'\\' => out.extend(b"\\\\"),
            b'\n' => out.extend(b"\\n"),
            b'\r' => out.extend(b"\\r"),
            other => out.push(*other),
        }
    }
    let escaped = out.len() != name.len();
    (out, escaped)
}

/// The name of an escaped line; of another it is the same, for that has no backslash.
fn unescape(name: &[u8]) -> Vec<u8> {
    let mut out = Vec::new();
    let mut bytes = name.iter();
    while let Some(byte) = bytes.next() {
        out.push(match byte {
            b'\\' => match bytes.next() {
                Some(b'n') => b'\n',
                Some(b'r') => b'\r',
                _ => b'\\',
            },
            other => *other,
        });
    }
    out
}

#[cfg(test)]
mod tests {
    use super::Catalogue;
    use std::ffi::OsStr;
    use std::os::unix::ffi::OsStrExt;
    use std::path::PathBuf;

    #[test]
    fn a_catalogue_reads_back() {
        let mut catalogue = Catalogue::default();
        for name in [&b"a/b"[..], b"a\\n", b"a\nb\r", b"\xff", b" x"] {
            let path = PathBuf::from(OsStr::from_bytes(name));
            catalogue.sums.insert(path, "0".repeat(64));
        }
        let text = catalogue.text();
        assert_eq!(Catalogue::read(&text), Some(catalogue));
        assert_eq!(Catalogue::read(b""), Some(Catalogue::default()));
        assert_eq!(Catalogue::read(&text[..text.len() - 1]), None);
        assert_eq!(Catalogue::read(&text[1..]), None);
    }
}
