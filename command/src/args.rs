//! The words behind a command: options, their values, and the rest. Names of files need not be UTF-8.

use crate::failure::{Done, Failure};
use modeltext::words::nearest;
use std::ffi::{OsStr, OsString};
use std::os::unix::ffi::OsStrExt;
use std::path::Path;

/// Words as they were given, options taken out.
#[derive(Clone, Debug, Default, PartialEq, Eq)]
pub struct Args {
    pub words: Vec<OsString>,
    flags: Vec<String>,
    values: Vec<(String, OsString)>,
}

/// Takes the words apart; an option is one of `flags`, or one of `valued` with a value behind it or behind `=`.
pub fn parse(given: &[OsString], flags: &[&str], valued: &[&str]) -> Done<Args> {
    let mut args = Args::default();
    let mut given = given.iter();
    while let Some(word) = given.next() {
        if word == "--" {
            args.words.extend(given.cloned());
            break;
        }
        if !word.as_bytes().starts_with(b"-") || word == "-" {
            args.words.push(word.clone());
            continue;
        }
        let (name, value) = option(word);
        if flags.contains(&&*name) && value.is_none() {
            args.flags.push(name);
        } else if valued.contains(&&*name) {
            let value = value.or_else(|| given.next().cloned());
            let value =
                value.ok_or_else(|| Failure::usage(format!("{name} needs a word behind it")))?;
            args.values.push((name, value));
        } else {
            let known = flags.iter().chain(valued).copied();
            let hint = match nearest(&name, known) {
                Some(meant) => format!("; did you mean {meant}?"),
                None => String::new(),
            };
            return Err(Failure::usage(format!("there is no option {name}{hint}")));
        }
    }
    Ok(args)
}

/// The name of an option, and the value behind its `=`.
fn option(word: &OsStr) -> (String, Option<OsString>) {
    let bytes = word.as_bytes();
    let sign = bytes.iter().position(|b| *b == b'=');
    let at = sign.filter(|_| bytes.starts_with(b"--"));
    let name = &bytes[..at.unwrap_or(bytes.len())];
    let value = at.map(|at| OsStr::from_bytes(&bytes[at + 1..]).to_os_string());
    (String::from_utf8_lossy(name).into_owned(), value)
}

impl Args {
    pub fn has(&self, flag: &str) -> bool {
        self.flags.iter().any(|f| f == flag)
    }

    /// The word behind an option, if it was given; the last counts.
    pub fn value(&self, name: &str) -> Option<&OsStr> {
        let mut values = self.values.iter().rev();
        values.find(|(n, _)| n == name).map(|(_, v)| v.as_os_str())
    }

    /// The words behind an option that may stand several times.
    pub fn values(&self, name: &str) -> Vec<String> {
        let given = self.values.iter().filter(|(n, _)| n == name);
        given
            .map(|(_, v)| v.to_string_lossy().into_owned())
            .collect()
    }

    /// The number behind an option, if it was given.
    pub fn number(&self, name: &str) -> Done<Option<u64>> {
        self.value(name).map(|v| number(v, name)).transpose()
    }

    /// These many words and no more.
    pub fn exactly<const N: usize>(&self, what: &str) -> Done<[&OsStr; N]> {
        let words: Vec<&OsStr> = self.words.iter().map(OsString::as_os_str).collect();
        words
            .try_into()
            .map_err(|_| Failure::usage(format!("wanted is {what}")))
    }

    /// These many names of files or folders and no more.
    pub fn paths<const N: usize>(&self, what: &str) -> Done<[&Path; N]> {
        Ok(self.exactly(what)?.map(Path::new))
    }
}

/// A whole number, with `_` or `,` between digits where one likes.
pub fn number(text: &OsStr, what: &str) -> Done<u64> {
    let text = text.to_string_lossy();
    let digits: String = text.chars().filter(|c| *c != '_' && *c != ',').collect();
    digits.parse().map_err(|_| {
        Failure::usage(format!(
            "{what} wants a whole number from 0 to {}, and not `{text}`",
            u64::MAX
        ))
    })
}

#[cfg(test)]
mod tests {
    use super::parse;
    use std::ffi::{OsStr, OsString};
    use std::os::unix::ffi::OsStrExt;

    fn given(words: &[&str]) -> Vec<OsString> {
        words.iter().map(OsString::from).collect()
    }

    #[test]
    fn options_and_words() {
        let words = given(&[
            "a",
            "--budget",
            "1_000",
            "--plain",
            "--trace-bytes=5",
            "--",
            "-b",
        ]);
        let args = parse(&words, &["--plain"], &["--budget", "--trace-bytes"]).unwrap();
        assert_eq!(args.words, ["a", "-b"]);
        assert!(args.has("--plain") && !args.has("--records"));
        assert_eq!(args.number("--budget").unwrap(), Some(1000));
        assert_eq!(args.number("--trace-bytes").unwrap(), Some(5));
        let wrong = parse(&given(&["--bugdet", "3"]), &[], &["--budget"]).unwrap_err();
        assert_eq!(wrong.status, 2);
        assert_eq!(
            wrong.message,
            "there is no option --bugdet; did you mean --budget?"
        );
        assert!(parse(&given(&["--budget"]), &[], &["--budget"]).is_err());
        let args = parse(&given(&["--budget", "-3"]), &[], &["--budget"]).unwrap();
        assert_eq!(args.number("--budget").unwrap_err().status, 2);
    }

    #[test]
    fn names_that_are_not_utf8() {
        let name = OsStr::from_bytes(b"ber\xfcth=1").to_os_string();
        let to = OsStr::from_bytes(b"--to=\xff=\xfe").to_os_string();
        let args = parse(&[name.clone(), to], &[], &["--to"]).unwrap();
        assert_eq!(args.words, [name]);
        assert_eq!(args.value("--to"), Some(OsStr::from_bytes(b"\xff=\xfe")));
    }
}
