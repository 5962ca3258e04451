//! Archives in folders: all below, also inside folders of archives. Bags of others are passed by, links are not followed.

use crate::durable::is_leftover;
use crate::files::there;
use crate::form2::is_bag;
use crate::page1::FILES;
use crate::seal::{BAGIT, PAGE};
use crate::verify::Form;
use std::ffi::{OsStr, OsString};
use std::fs;
use std::io;
use std::path::{Path, PathBuf};

/// What is found in and below a folder.
#[derive(Default)]
pub struct Found {
    pub archives: Vec<(PathBuf, Form)>,
    /// Folders that cannot be looked into, and why.
    pub closed: Vec<(PathBuf, String)>,
    /// What an interruption left.
    pub leftovers: Vec<PathBuf>,
}

/// All archives in and below a folder, sorted.
pub fn below(folder: &Path) -> Found {
    let mut found = Found::default();
    let named = fs::metadata(folder).and_then(|kind| match kind.is_dir() {
        true => Ok(()),
        false => Err(io::Error::other("no such folder")),
    });
    match named {
        Ok(()) => walk(folder, false, &mut found),
        Err(e) if e.kind() == io::ErrorKind::NotFound => {
            let why = "no such folder".to_string();
            found.closed.push((folder.to_path_buf(), why));
        }
        Err(e) => found.closed.push((folder.to_path_buf(), e.to_string())),
    }
    found.archives.sort();
    found.closed.sort();
    found.leftovers.sort();
    found
}

/// `payload`: this is the folder `data` of an archive, and no flat one itself.
fn walk(folder: &Path, payload: bool, found: &mut Found) {
    let (names, folders) = match list(folder) {
        Ok(listed) => listed,
        Err(e) => return found.closed.push((folder.to_path_buf(), e.to_string())),
    };
    let has = |name: &str| names.iter().any(|n| n == name);
    let bag = (has(BAGIT) || there(&folder.join("data").join(PAGE))) && is_bag(folder);
    if bag {
        found.archives.push((folder.to_path_buf(), Form::Bag));
    } else if !payload && [PAGE, FILES[2], FILES[3]].into_iter().any(has) {
        found.archives.push((folder.to_path_buf(), Form::Flat));
    }
    for name in names.iter().filter(|name| is_leftover(name)) {
        found.leftovers.push(folder.join(name));
    }
    for name in folders.iter().filter(|name| !is_leftover(name)) {
        walk(&folder.join(name), bag && name == OsStr::new("data"), found);
    }
}

/// The names in a folder, and those of them that are folders.
fn list(folder: &Path) -> io::Result<(Vec<OsString>, Vec<OsString>)> {
    let (mut names, mut folders) = (Vec::new(), Vec::new());
    for entry in fs::read_dir(folder)? {
        let entry = entry?;
        if entry.file_type()?.is_dir() {
            folders.push(entry.file_name());
        }
        names.push(entry.file_name());
    }
    Ok((names, folders))
}
