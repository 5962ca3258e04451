//! All or nothing, and kept: written beside its place under a random name, synced, brought to its place by one rename, and the folder
//! synced. A kill at any instant leaves the old or the new whole; only what `is_leftover` knows may remain.

use crate::bag::{BagFile, DATA};
use crate::files::{there, O_NOFOLLOW};
use crate::seal::folder_of;
use crate::shown;
use std::ffi::{CString, OsStr, OsString};
use std::fs::{self, File, OpenOptions};
use std::io::{self, ErrorKind, Read, Write};
use std::os::unix::ffi::{OsStrExt, OsStringExt};
use std::os::unix::fs::{MetadataExt, OpenOptionsExt};
use std::path::{Path, PathBuf};

extern "C" {
    fn renameat2(from_dir: i32, from: *const i8, to_dir: i32, to: *const i8, flags: u32) -> i32;
}

const AT_FDCWD: i32 = -100;
const RENAME_NOREPLACE: u32 = 1;
const RENAME_EXCHANGE: u32 = 2;

/// EINVAL, ENOSYS, EOPNOTSUPP: the file system, or the kernel, knows no such rename or no sync of a folder.
const UNSUPPORTED: [i32; 3] = [22, 38, 95];

const PREFIX: &str = ".archive-";
const DIGITS: usize = 16;
/// Between the random digits and the name of the place that an old archive was set aside from.
const ASIDE: &str = "-of-";

/// What is there after something went wrong.
#[derive(Clone, Debug, PartialEq, Eq)]
pub enum Left {
    /// The place is as it was.
    AsBefore,
    /// The new one is in its place, but its folder could not be synced.
    InPlace,
    /// Nothing is in the place: the old one is set aside, here.
    Aside(PathBuf),
}

/// What went wrong, and what is there now.
#[derive(Clone, Debug, PartialEq, Eq)]
pub struct Trouble {
    pub what: String,
    pub left: Left,
    /// What could not be removed.
    pub remains: Option<PathBuf>,
}

impl Trouble {
    fn before(what: impl Into<String>) -> Trouble {
        Trouble {
            what: what.into(),
            left: Left::AsBefore,
            remains: None,
        }
    }

    /// In words; `as_before` says what it means that the place is as it was.
    pub fn message(&self, place: &Path, as_before: &str) -> String {
        let (what, place) = (&self.what, shown::path(place));
        let mut text = match &self.left {
            Left::AsBefore => format!("{place}: {what}; {as_before}"),
            Left::InPlace => format!(
                "{place}: the new one is in its place, but {what}: whether it outlasts a power cut is not known"
            ),
            Left::Aside(old) => format!(
                "{place}: {what}; the old one is whole in {}, and the next archive brings it back",
                shown::path(old)
            ),
        };
        if let Some(path) = &self.remains {
            text.push_str(&format!("; {} is left over", shown::path(path)));
        }
        text
    }
}

/// Whether a name is one of those that only an interruption leaves behind.
pub fn is_leftover(name: &OsStr) -> bool {
    let Some(rest) = name.as_bytes().strip_prefix(PREFIX.as_bytes()) else {
        return false;
    };
    rest.len() >= DIGITS
        && rest[..DIGITS].iter().all(|b| b.is_ascii_hexdigit())
        && (rest.len() == DIGITS || rest[DIGITS..].starts_with(ASIDE.as_bytes()))
}

/// The place that a leftover was set aside from.
fn set_aside_from(name: &OsStr) -> Option<&OsStr> {
    let rest = name.as_bytes().get(PREFIX.len() + DIGITS..)?;
    rest.strip_prefix(ASIDE.as_bytes()).map(OsStr::from_bytes)
}

fn random_name() -> io::Result<String> {
    let mut bytes = [0; DIGITS / 2];
    File::open("/dev/urandom")?.read_exact(&mut bytes)?;
    let digits: String = bytes.iter().map(|b| format!("{b:02x}")).collect();
    Ok(format!("{PREFIX}{digits}"))
}

/// Something new, not yet in its place; the lock tells others that somebody is still at it.
struct New {
    path: PathBuf,
    handle: File,
}

impl New {
    fn folder(parent: &Path) -> io::Result<New> {
        New::make(parent, |path| {
            fs::create_dir(path)?;
            let handle = OpenOptions::new()
                .read(true)
                .custom_flags(O_NOFOLLOW)
                .open(path);
            handle.inspect_err(|_| {
                let _ = fs::remove_dir(path);
            })
        })
    }

    fn file(parent: &Path) -> io::Result<New> {
        New::make(parent, create)
    }

    fn make(parent: &Path, one: impl Fn(&Path) -> io::Result<File>) -> io::Result<New> {
        loop {
            let path = parent.join(random_name()?);
            let handle = match one(&path) {
                Err(e) if e.kind() == ErrorKind::AlreadyExists => continue,
                made => made?,
            };
            // where there are no locks, nobody takes one for a leftover either
            let _ = handle.lock();
            let new = New { path, handle };
            // somebody may have removed it before it was locked
            if new.is_at(&new.path) {
                return Ok(new);
            }
        }
    }

    /// Whether this is what stands at a path.
    fn is_at(&self, path: &Path) -> bool {
        let (Ok(here), Ok(own)) = (fs::symlink_metadata(path), self.handle.metadata()) else {
            return false;
        };
        (here.dev(), here.ino()) == (own.dev(), own.ino())
    }

    /// Its first name, where that is still there.
    fn left(&self) -> Option<PathBuf> {
        there(&self.path).then(|| self.path.clone())
    }

    /// Takes it away again.
    fn abandon(self, what: String) -> Trouble {
        let removed = remove(&self.path);
        Trouble {
            remains: removed.is_err().then_some(self.path),
            ..Trouble::before(what)
        }
    }
}

fn create(path: &Path) -> io::Result<File> {
    OpenOptions::new()
        .write(true)
        .create_new(true)
        .custom_flags(O_NOFOLLOW)
        .open(path)
}

fn at(what: &Path, e: io::Error) -> String {
    format!("{}: {e}", shown::path(what))
}

/// Puts a folder with these files, at most one folder deep, into its place; `replace` puts it in place of the folder that is there.
/// Gives what else is to be said.
pub fn write_folder(
    place: &Path,
    files: &[BagFile],
    replace: bool,
) -> Result<Vec<String>, Trouble> {
    let parent = folder_of(place);
    let new = New::folder(parent).map_err(|e| Trouble::before(e.to_string()))?;
    if let Err(what) = fill(&new.path, files) {
        return Err(new.abandon(what));
    }
    let mut notes = Vec::new();
    let brought = match replace {
        true => exchange(&new, place)?,
        false => rename_new(&new.path, place, true).map(|()| None),
    };
    let old = match brought {
        Ok(old) => old,
        Err(e) if new.is_at(place) => return Err(in_place(e.to_string(), new.left())),
        Err(e) => return Err(new.abandon(e.to_string())),
    };
    sync_folder(parent, &mut notes)
        .map_err(|e| in_place(format!("its folder was not synced: {e}"), old.clone()))?;
    if let Some(old) = old {
        if let Err(e) = remove(&old) {
            notes.push(format!(
                "{}: the old archive is left over: {e}",
                shown::path(&old)
            ));
        }
    }
    Ok(notes)
}

fn in_place(what: String, remains: Option<PathBuf>) -> Trouble {
    Trouble {
        what,
        left: Left::InPlace,
        remains,
    }
}

/// Files and folders, each synced; the folder that all is in last.
fn fill(folder: &Path, files: &[BagFile]) -> Result<(), String> {
    let data = folder.join(DATA);
    fs::create_dir(&data).map_err(|e| at(Path::new(DATA), e))?;
    for (name, bytes) in files {
        let mut file = create(&folder.join(name)).map_err(|e| at(Path::new(name), e))?;
        let written = file.write_all(bytes).and_then(|()| file.sync_all());
        written.map_err(|e| at(Path::new(name), e))?;
    }
    for (path, name) in [(&*data, DATA), (folder, ".")] {
        sync_folder(path, &mut Vec::new()).map_err(|e| at(Path::new(name), e))?;
    }
    Ok(())
}

/// Puts the new folder in place of the old, and gives where the old one is now. What cannot be put right is the outer failure.
fn exchange(new: &New, place: &Path) -> Result<io::Result<Option<PathBuf>>, Trouble> {
    match rename_by(&new.path, place, RENAME_EXCHANGE) {
        Err(e) if unsupported(&e) => {}
        done => return Ok(done.map(|()| Some(new.path.clone()))),
    }
    let mut name = OsString::from_vec(new.path.file_name().unwrap_or_default().as_bytes().to_vec());
    name.push(ASIDE);
    name.push(place.file_name().unwrap_or_default());
    let aside = new.path.with_file_name(name);
    if let Err(e) = rename_new(place, &aside, true) {
        return Ok(Err(e));
    }
    let brought = rename_new(&new.path, place, true);
    match brought {
        Ok(()) => Ok(Ok(Some(aside))),
        Err(e) => match rename_new(&aside, place, true) {
            Ok(()) => Ok(Err(e)),
            Err(_) => Err(Trouble {
                what: e.to_string(),
                left: Left::Aside(aside),
                remains: Some(new.path.clone()),
            }),
        },
    }
}

/// Writes a file; `replace` over a regular file that is there, and never over anything else. `sync` is for what cannot be made again.
pub fn write_file(place: &Path, bytes: &[u8], replace: bool, sync: bool) -> Result<(), Trouble> {
    let old = match fs::symlink_metadata(place) {
        Ok(old) if !old.is_file() => {
            return Err(Trouble::before("it is there, and no regular file"));
        }
        Ok(_) if !replace => {
            return Err(Trouble::before("it is there; --replace writes over it"));
        }
        Ok(_) => true,
        Err(e) if e.kind() == ErrorKind::NotFound => false,
        Err(e) => return Err(Trouble::before(e.to_string())),
    };
    let parent = folder_of(place);
    let new = New::file(parent).map_err(|e| Trouble::before(e.to_string()))?;
    let mut handle = &new.handle;
    let written = handle.write_all(bytes).and_then(|()| match sync {
        true => handle.sync_all(),
        false => Ok(()),
    });
    if let Err(e) = written {
        return Err(new.abandon(e.to_string()));
    }
    let brought = match old {
        true => fs::rename(&new.path, place),
        false => rename_new(&new.path, place, false),
    };
    match brought {
        Ok(()) => {}
        Err(e) if new.is_at(place) => return Err(in_place(e.to_string(), new.left())),
        Err(e) => return Err(new.abandon(e.to_string())),
    }
    match sync {
        true => sync_folder(parent, &mut Vec::new())
            .map_err(|e| in_place(format!("its folder was not synced: {e}"), None)),
        false => Ok(()),
    }
}

/// Syncs a folder; where the file system cannot, that is noted.
fn sync_folder(folder: &Path, notes: &mut Vec<String>) -> io::Result<()> {
    match File::open(folder)?.sync_all() {
        Err(e) if unsupported(&e) => {
            notes.push(format!(
                "{}: this file system cannot sync a folder",
                shown::path(folder)
            ));
            Ok(())
        }
        done => done,
    }
}

/// A rename to a name that is not there.
fn rename_new(from: &Path, to: &Path, folder: bool) -> io::Result<()> {
    match rename_by(from, to, RENAME_NOREPLACE) {
        Err(e) if unsupported(&e) => {}
        done => return done,
    }
    if !folder {
        fs::hard_link(from, to)?;
        return fs::remove_file(from);
    }
    // without the flag, only an empty folder that somebody makes at this instant would be lost
    if there(to) {
        return Err(ErrorKind::AlreadyExists.into());
    }
    fs::rename(from, to)
}

fn rename_by(from: &Path, to: &Path, flags: u32) -> io::Result<()> {
    let name = |path: &Path| CString::new(path.as_os_str().as_bytes()).map_err(io::Error::from);
    let (from, to) = (name(from)?, name(to)?);
    // SAFETY: both are strings that end with 0, and live until the call is done.
    let done = unsafe {
        renameat2(
            AT_FDCWD,
            from.as_ptr().cast(),
            AT_FDCWD,
            to.as_ptr().cast(),
            flags,
        )
    };
    match done {
        0 => Ok(()),
        _ => Err(io::Error::last_os_error()),
    }
}

fn unsupported(e: &io::Error) -> bool {
    e.raw_os_error().is_some_and(|n| UNSUPPORTED.contains(&n))
}

/// Removes what an interruption left in a folder, and brings back an old archive whose place is empty. Gives what is to be said.
pub fn sweep(folder: &Path) -> Vec<String> {
    let Ok(entries) = fs::read_dir(folder) else {
        return Vec::new();
    };
    let leftovers = entries.flatten().map(|entry| entry.path());
    let named = |path: &PathBuf| path.file_name().is_some_and(is_leftover);
    let mut found: Vec<PathBuf> = leftovers.filter(named).collect();
    found.sort();
    found.iter().filter_map(|path| sweep_one(path)).collect()
}

fn sweep_one(path: &Path) -> Option<String> {
    let kind = fs::symlink_metadata(path).ok()?.file_type();
    if !kind.is_dir() && !kind.is_file() {
        return None; // a link is not ours
    }
    let handle = OpenOptions::new()
        .read(true)
        .custom_flags(O_NOFOLLOW)
        .open(path)
        .ok()?;
    if handle.try_lock().is_err() {
        return None; // somebody is at it
    }
    let name = shown::path(path);
    let place = path.file_name().and_then(set_aside_from);
    if let Some(place) = place.map(|place| path.with_file_name(place)) {
        if !there(&place) {
            let brought = rename_new(path, &place, true)
                .and_then(|()| sync_folder(folder_of(path), &mut Vec::new()));
            let place = shown::path(&place);
            return Some(match brought {
                Ok(()) => format!("{place}: brought back after an interruption"),
                Err(e) => format!("{name}: the old archive of {place} is not brought back: {e}"),
            });
        }
    }
    match remove(path) {
        Ok(()) => Some(format!("{name}: left by an interruption, removed")),
        Err(e) => Some(format!("{name}: left by an interruption, not removed: {e}")),
    }
}

/// Removes a file, or a folder whose files are its own and those of its `data/`: we make nothing else.
fn remove(path: &Path) -> io::Result<()> {
    if !fs::symlink_metadata(path)?.is_dir() {
        return fs::remove_file(path);
    }
    for folder in [&path.join(DATA), path] {
        match fs::symlink_metadata(folder) {
            Ok(kind) if kind.is_dir() => {}
            _ => continue, // none, or a link, which goes with the files
        }
        for entry in fs::read_dir(folder)? {
            let entry = entry?;
            if !entry.file_type()?.is_dir() {
                fs::remove_file(entry.path())?;
            }
        }
        fs::remove_dir(folder)?;
    }
    Ok(())
}

#[cfg(test)]
mod tests {
    use super::{is_leftover, random_name, set_aside_from};
    use std::ffi::OsStr;

    #[test]
    fn names_of_leftovers() {
        let name = random_name().unwrap();
        assert_ne!(name, random_name().unwrap());
        assert!(is_leftover(OsStr::new(&name)));
        let aside = format!("{name}-of-week 3");
        assert!(is_leftover(OsStr::new(&aside)));
        assert_eq!(
            set_aside_from(OsStr::new(&aside)),
            Some(OsStr::new("week 3"))
        );
        assert_eq!(set_aside_from(OsStr::new(&name)), None);
        for other in [
            ".archive",
            ".archive-",
            ".archive-12",
            ".archive-0123456789abcdeg",
            "archive-0123456789abcdef",
        ] {
            assert!(!is_leftover(OsStr::new(other)), "{other}");
        }
    }
}
