//! A file that is written whole or not at all: what stood there stays until all of what replaces it is written.

use std::fs::{self, File, Permissions};
use std::io::{self, ErrorKind, Write};
use std::os::unix::ffi::OsStrExt;
use std::path::{Path, PathBuf};
use std::process;

pub struct Whole {
    to: To,
}

enum To {
    /// A regular file with these permissions, or none yet: it is written beside its place, and takes it.
    Place(PathBuf, Option<Permissions>),
    /// A device, a pipe, or what the shell has opened: none of them can be replaced.
    Stream(File),
}

impl Whole {
    /// Tries whether it can be written, and leaves all as it is.
    pub fn open(path: &Path) -> io::Result<Whole> {
        let permissions = match File::options().append(true).open(path) {
            Ok(there) if path.starts_with("/dev") || !there.metadata()?.is_file() => {
                return Ok(Whole { to: To::Stream(there) });
            }
            Ok(there) => Some(there.metadata()?.permissions()),
            Err(e) if e.kind() == ErrorKind::NotFound => None,
            Err(e) => return Err(e),
        };
        if path.file_name().is_none() || path.as_os_str().as_bytes().ends_with(b"/") {
            return Err(io::Error::other("no file's name"));
        }
        // Where a link stands, that stays, and what it names is written.
        let place = fs::canonicalize(path).unwrap_or_else(|_| named(path));
        let beside = beside(&place);
        new(&beside)?;
        fs::remove_file(&beside)?;
        Ok(Whole { to: To::Place(place, permissions) })
    }

    pub fn write(self, bytes: &[u8]) -> io::Result<()> {
        match self.to {
            To::Stream(mut file) => file.write_all(bytes),
            To::Place(place, permissions) => {
                let beside = beside(&place);
                let written = fill(&beside, bytes, permissions).and_then(|()| fs::rename(&beside, &place));
                written.inspect_err(|_| drop(fs::remove_file(&beside)))
            }
        }
    }
}

/// What a link names that is not there yet; what is no link is the place itself.
fn named(path: &Path) -> PathBuf {
    let link = fs::read_link(path).unwrap_or_else(|_| path.file_name().unwrap_or_default().into());
    path.parent().unwrap_or(Path::new("")).join(link)
}

/// In the same folder, so that it can be renamed.
fn beside(place: &Path) -> PathBuf {
    place.with_added_extension(process::id().to_string())
}

/// A new file. One that is there already was left by a program of the same number, which was ended as it wrote.
fn new(beside: &Path) -> io::Result<File> {
    match fs::remove_file(beside) {
        Err(e) if e.kind() != ErrorKind::NotFound => Err(e),
        _ => File::create_new(beside),
    }
}

fn fill(beside: &Path, bytes: &[u8], permissions: Option<Permissions>) -> io::Result<()> {
    let mut file = new(beside)?;
    permissions.map(|permissions| file.set_permissions(permissions)).transpose()?;
    file.write_all(bytes)?;
    file.sync_all()
}

#[cfg(test)]
mod tests {
    use super::*;
    use std::env;
    use std::os::unix::fs::symlink;

    /// A second signal, or a loss of power, may leave one; in a container the next night's kit has the same number.
    #[test]
    fn what_an_earlier_program_left_is_replaced() {
        let place = env::temp_dir().join(format!("neukolja-left-{}", process::id()));
        fs::write(beside(&place), "a part of ano").expect("a file");
        let whole = Whole::open(&place).expect("it can be written");
        fs::write(beside(&place), "a part of ano").expect("a file");
        whole.write(b"a report").expect("it is written");
        assert_eq!(fs::read(&place).expect("a file"), b"a report");
        assert!(!beside(&place).exists());
        fs::remove_file(&place).expect("it is there");
    }

    /// Also one whose file is not there yet.
    #[test]
    fn a_link_stays() {
        let folder = env::temp_dir().join(format!("neukolja-whole-{}", process::id()));
        fs::create_dir(&folder).expect("a folder");
        let [link, file] = ["link", "file"].map(|name| folder.join(name));
        symlink("file", &link).expect("a link");
        for text in ["new", "old"] {
            Whole::open(&link).and_then(|whole| whole.write(text.as_bytes())).expect("it is written");
            assert!(fs::symlink_metadata(&link).expect("a link").is_symlink());
            assert_eq!(fs::read_to_string(&file).expect("a file"), text);
        }
        assert_eq!(fs::read_dir(&folder).expect("a folder").count(), 2);
        fs::remove_dir_all(&folder).expect("it goes");
    }
}
