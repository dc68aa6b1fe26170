//! Files that are there whole or not at all.

use std::fs::{self, File};
use std::io::{self, ErrorKind, Write};
use std::path::{Path, PathBuf};
use std::process;
use std::sync::atomic::{AtomicUsize, Ordering};

/// Writes a file under another name in its folder, and gives it its own when all of it is written.
pub fn write_whole(path: &Path, bytes: &[u8]) -> io::Result<()> {
    let (part, mut file) = new_part(path)?;
    let written = file.write_all(bytes).and_then(|()| fs::rename(&part, path));
    if written.is_err() {
        // What went wrong first is told.
        let _ = fs::remove_file(&part);
    }
    written
}

/// A new file beside another. Its name is short, since that of the other may be as long as can be;
/// one that is there, left by a program that was stopped or written by one elsewhere, is passed over.
fn new_part(path: &Path) -> io::Result<(PathBuf, File)> {
    static NEXT: AtomicUsize = AtomicUsize::new(0);
    loop {
        let number = NEXT.fetch_add(1, Ordering::Relaxed);
        let part = path.with_file_name(format!(".draw-{}-{number}.part", process::id()));
        match File::create_new(&part) {
            Err(error) if error.kind() == ErrorKind::AlreadyExists => {}
            opened => return opened.map(|file| (part, file)),
        }
    }
}
