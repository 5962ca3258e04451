//! Files read whole. What a command finds by itself is opened only where it is a regular file: a FIFO would wait for ever.

use crate::failure::{Done, Failure};
use crate::shown;
use std::fs::{self, File, OpenOptions};
use std::io::{self, Read};
use std::os::unix::fs::OpenOptionsExt;
use std::path::Path;

const O_NONBLOCK: i32 = 0o4000;
#[cfg(target_arch = "aarch64")]
pub const O_NOFOLLOW: i32 = 0o100000;
#[cfg(not(target_arch = "aarch64"))]
pub const O_NOFOLLOW: i32 = 0o400000;

/// Whether a link at the end of a path is followed.
#[derive(Clone, Copy, Debug, PartialEq, Eq)]
pub enum Links {
    Follow,
    Refuse,
}

/// What the user names, whatever it is.
pub fn read(path: &Path) -> Done<Vec<u8>> {
    fs::read(path).map_err(|e| Failure::new(format!("{}: {e}", shown::path(path))))
}

/// What the user names, as text.
pub fn read_text(path: &Path) -> Done<String> {
    text(path, read(path)?)
}

/// A regular file of a folder as text.
pub fn regular_text(path: &Path) -> Done<String> {
    let bytes = regular(path, Links::Follow);
    text(
        path,
        bytes.map_err(|e| Failure::new(format!("{}: {e}", shown::path(path))))?,
    )
}

fn text(path: &Path, bytes: Vec<u8>) -> Done<String> {
    String::from_utf8(bytes).map_err(|e| {
        let at = e.utf8_error().valid_up_to();
        let line = e.as_bytes()[..at].iter().filter(|b| **b == b'\n').count() + 1;
        Failure::new(format!(
            "{}:{line}: byte {at} is no text (UTF-8); bytes of a model are named .bin",
            shown::path(path)
        ))
    })
}

/// Whether something of this name is there: a file, a folder, or a link that leads nowhere.
pub fn there(path: &Path) -> bool {
    match fs::symlink_metadata(path) {
        Ok(_) => true,
        Err(e) => e.kind() != io::ErrorKind::NotFound && e.kind() != io::ErrorKind::NotADirectory,
    }
}

/// The bytes of a regular file.
pub fn regular(path: &Path, links: Links) -> io::Result<Vec<u8>> {
    let mut file = open(path, links)?;
    let length = file.metadata()?.len();
    let mut bytes = Vec::new();
    let room = usize::try_from(length).unwrap_or(usize::MAX);
    if bytes.try_reserve_exact(room).is_err() {
        return Err(io::Error::new(
            io::ErrorKind::OutOfMemory,
            format!("there is no memory for its {length} bytes"),
        ));
    }
    file.read_to_end(&mut bytes)?;
    Ok(bytes)
}

fn open(path: &Path, links: Links) -> io::Result<File> {
    let flags = match links {
        Links::Follow => O_NONBLOCK,
        Links::Refuse => O_NONBLOCK | O_NOFOLLOW,
    };
    let other = || io::Error::other("not a regular file");
    if links == Links::Refuse && !fs::symlink_metadata(path)?.is_file() {
        return Err(other());
    }
    let file = OpenOptions::new()
        .read(true)
        .custom_flags(flags)
        .open(path)?;
    match file.metadata()?.is_file() {
        true => Ok(file),
        false => Err(other()),
    }
}
