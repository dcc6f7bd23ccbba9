//! Files in and out: never more than is wanted, and a file that is written is whole or as it was.

use std::fs::{self, File, OpenOptions};
use std::io::{self, ErrorKind, Read, Write};
use std::path::{Path, PathBuf};

/// No firmware for this core is longer, debug information and all.
pub const MOST_FIRMWARE: usize = 64 << 20;

/// Names that are tried for a file that is being written.
const MOST_TURNS: u32 = 100;

/// All of a file, which must not be longer than `most`.
pub fn read(path: &Path, most: usize, what: &str) -> Result<Vec<u8>, String> {
    let file = open(path, what)?;
    let mut bytes = Vec::new();
    file.take(most as u64 + 1).read_to_end(&mut bytes).map_err(|error| unreadable(path, &error, what))?;
    if bytes.len() > most {
        return Err(format!("{} is longer than {most} bytes, the most that {what} has; name {what}", path.display()));
    }
    Ok(bytes)
}

pub fn open(path: &Path, what: &str) -> Result<File, String> {
    if path.is_dir() {
        return Err(format!("{} is a directory; name {what} in it", path.display()));
    }
    File::open(path).map_err(|error| unreadable(path, &error, what))
}

pub fn unreadable(path: &Path, error: &io::Error, what: &str) -> String {
    let shown = path.display();
    match error.kind() {
        ErrorKind::NotFound => format!("there is no file {shown}; name {what} that is there"),
        _ => format!("cannot read {shown}: {error}; name {what} that can be read"),
    }
}

fn unwritable(path: &Path, error: &io::Error) -> String {
    format!("cannot write {}: {error}; name a file that can be written", path.display())
}

/// Whether both names lead to one file.
pub fn same(one: &Path, other: &Path) -> bool {
    matches!((fs::canonicalize(one), fs::canonicalize(other)), (Ok(one), Ok(other)) if one == other)
}

/// Whether a file can be written there, tried before long work.
pub fn has_place(path: &Path) -> Result<(), String> {
    let shown = path.display();
    if path.is_dir() {
        return Err(format!("{shown} is a directory; name a file in it"));
    }
    let tried = match fs::metadata(path) {
        Ok(old) if old.permissions().readonly() => Err(ErrorKind::PermissionDenied.into()),
        Ok(old) if !old.is_file() => Ok(()),
        _ => beside(path).and_then(|(name, _)| fs::remove_file(name)),
    };
    tried.map_err(|error| unwritable(path, &error))
}

/// A regular file is written beside its place and then put there, so that an old one stays until the new one is whole.
pub fn write(path: &Path, bytes: &[u8]) -> Result<(), String> {
    has_place(path)?;
    let written = match fs::metadata(path) {
        Ok(old) if !old.is_file() => fs::write(path, bytes),
        Ok(old) => fs::canonicalize(path).and_then(|path| replace(&path, bytes, Some(old.permissions()))),
        Err(_) => replace(path, bytes, None),
    };
    written.map_err(|error| unwritable(path, &error))
}

fn replace(path: &Path, bytes: &[u8], permissions: Option<fs::Permissions>) -> io::Result<()> {
    let (name, mut file) = beside(path)?;
    let written = file.write_all(bytes).and_then(|()| file.sync_all());
    let kept = written.and_then(|()| permissions.map_or(Ok(()), |kept| fs::set_permissions(&name, kept)));
    kept.and_then(|()| fs::rename(&name, path)).inspect_err(|_| {
        let _ = fs::remove_file(&name);
    })
}

/// A new file in the same folder, under a name that nothing has.
fn beside(path: &Path) -> io::Result<(PathBuf, File)> {
    let mut turn = 0;
    loop {
        let name = path.with_file_name(format!(".ppe42-{}-{turn}", std::process::id()));
        match OpenOptions::new().write(true).create_new(true).open(&name) {
            Err(error) if error.kind() == ErrorKind::AlreadyExists && turn < MOST_TURNS => turn += 1,
            opened => return opened.map(|file| (name, file)),
        }
    }
}
