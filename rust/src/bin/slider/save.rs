//! Files that are written whole or not at all: a reader sees the old file or the new one, never a part, also after a power failure.

use crate::args::quoted;
use crate::Failure;
use std::ffi::OsString;
use std::fs::{self, File, OpenOptions};
use std::io::{self, Write};
use std::path::{Path, PathBuf};

/// Writes a file. A device or a pipe cannot be replaced, so it is written to.
pub fn whole(path: &Path, bytes: &[u8]) -> Result<(), Failure> {
    let written = match fs::metadata(path) {
        Ok(old) if !old.is_file() => OpenOptions::new().write(true).open(path).and_then(|mut file| file.write_all(bytes)),
        _ => replaced(path, bytes),
    };
    written.map_err(|error| format!("cannot write {}: {error}", quoted(path.as_os_str())).into())
}

/// Beside the file, then in its place. A link stays, and what it leads to is replaced.
fn replaced(path: &Path, bytes: &[u8]) -> io::Result<()> {
    let path = fs::canonicalize(path).unwrap_or_else(|_| path.to_path_buf());
    let beside = beside(&path)?;
    let done = filled(&beside, bytes, &path).and_then(|()| fs::rename(&beside, &path));
    if done.is_err() {
        let _ = fs::remove_file(&beside); // the first error is the one to tell
    }
    done
}

/// A name that this process alone uses.
fn beside(path: &Path) -> io::Result<PathBuf> {
    let no_name = || io::Error::new(io::ErrorKind::InvalidInput, "it names no file");
    let mut name = OsString::from(".");
    name.push(path.file_name().ok_or_else(no_name)?);
    name.push(format!(".{}.part", std::process::id()));
    Ok(path.with_file_name(name))
}

fn filled(path: &Path, bytes: &[u8], old: &Path) -> io::Result<()> {
    let mut file = File::options().write(true).create_new(true).open(path)?;
    if let Ok(old) = fs::metadata(old) {
        file.set_permissions(old.permissions())?;
    }
    file.write_all(bytes)?;
    file.sync_all()
}

#[cfg(test)]
mod tests {
    use super::*;

    fn folder(name: &str) -> PathBuf {
        let folder = std::env::temp_dir().join(format!("slider-save-{name}-{}", std::process::id()));
        fs::create_dir_all(&folder).unwrap();
        folder
    }

    fn names(folder: &Path) -> Vec<OsString> {
        let mut names: Vec<_> = fs::read_dir(folder).unwrap().map(|entry| entry.unwrap().file_name()).collect();
        names.sort();
        names
    }

    #[test]
    fn new_and_replaced() {
        let folder = folder("new");
        let path = folder.join("report");
        for text in ["one", "another", ""] {
            whole(&path, text.as_bytes()).unwrap();
            assert_eq!((fs::read_to_string(&path).unwrap().as_str(), names(&folder)), (text, vec!["report".into()]));
        }
        let link = folder.join("link");
        std::os::unix::fs::symlink("report", &link).unwrap();
        whole(&link, b"through the link").unwrap();
        assert!(fs::symlink_metadata(&link).unwrap().file_type().is_symlink());
        assert_eq!(fs::read_to_string(&path).unwrap(), "through the link");
        fs::remove_dir_all(folder).unwrap();
    }

    #[test]
    fn what_cannot_be_written() {
        let folder = folder("not");
        for path in [folder.clone(), folder.join("no/such/folder"), "".into(), "..".into(), "/".into(), "/dev/full".into()] {
            let failure = whole(&path, b"text").unwrap_err();
            assert!(failure.message.starts_with("cannot write \""), "{path:?}: {}", failure.message);
        }
        assert!(names(&folder).is_empty());
        fs::remove_dir_all(folder).unwrap();
        whole(Path::new("/dev/null"), b"text").unwrap();
        assert!(!fs::metadata("/dev/null").unwrap().is_file());
    }
}
