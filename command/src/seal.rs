//! What no command writes into: a folder below one with `bagit.txt`, links resolved, and a flat archive of form 1.

use crate::failure::{Done, Failure};
use crate::files::{self, there, Links};
use crate::shown;
use std::path::{Path, PathBuf};

/// The file that makes a folder a bag (RFC 8493).
pub const BAGIT: &str = "bagit.txt";

/// The page of an archive.
pub const PAGE: &str = "archive.txt";

/// Whether a folder is sealed. It need not be there.
pub fn of(folder: &Path) -> Done<bool> {
    Ok(is_flat_archive(folder) || in_bag(folder)?)
}

/// Whether a folder is a bag, or below one.
pub fn in_bag(folder: &Path) -> Done<bool> {
    let real = resolved(folder)?;
    let mut above = real.ancestors();
    Ok(above.any(|folder| there(&folder.join(BAGIT))))
}

/// A refusal where the file's folder is sealed.
pub fn refuse(file: &Path) -> Done<()> {
    match of(folder_of(file))? {
        false => Ok(()),
        true => Err(Failure::new(format!(
            "{}: not written: its folder is, or is below, an archive or another bag; only archive --replace changes one",
            shown::path(file)
        ))),
    }
}

/// The folder that a file stands in.
pub fn folder_of(file: &Path) -> &Path {
    match file.parent() {
        Some(parent) if !parent.as_os_str().is_empty() => parent,
        Some(_) => Path::new("."),
        None => file,
    }
}

/// An archive of form 1: its page beside the bytes of its model.
fn is_flat_archive(folder: &Path) -> bool {
    let page = folder.join(PAGE);
    if !there(&page) {
        return false;
    }
    let begins = |bytes: Vec<u8>| bytes.starts_with(b"Covrith archive");
    there(&folder.join("model.bin")) || files::regular(&page, Links::Follow).is_ok_and(begins)
}

/// The path without links; of what is not there, its folder without links.
fn resolved(path: &Path) -> Done<PathBuf> {
    let mut rest = Vec::new();
    let mut at = path;
    loop {
        let here = match at.as_os_str().is_empty() {
            true => Path::new("."),
            false => at,
        };
        match here.canonicalize() {
            Ok(mut real) => {
                real.extend(rest.iter().rev());
                return Ok(real);
            }
            Err(e) if e.kind() != std::io::ErrorKind::NotFound || there(here) => {
                return Err(Failure::new(format!("{}: {e}", shown::path(path))));
            }
            Err(e) => match (at.file_name(), at.parent()) {
                (Some(name), Some(parent)) => {
                    rest.push(name);
                    at = parent;
                }
                _ => return Err(Failure::new(format!("{}: {e}", shown::path(path)))),
            },
        }
    }
}
