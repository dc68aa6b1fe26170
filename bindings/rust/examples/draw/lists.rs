//! The lists of a batch, and the pictures that they become.

use std::collections::hash_map::{Entry, HashMap};
use std::ffi::OsStr;
use std::path::{Path, PathBuf};
use std::{fs, io};

use crate::failure::{shown, Failure};

/// A list, and the file that its picture goes to.
#[derive(Debug, PartialEq)]
pub struct Task {
    pub list: PathBuf,
    pub picture: PathBuf,
}

/// The lists that words name, in their order: a file itself, and of a folder what it holds. Beside
/// them the folders that hold none.
pub fn lists_of(words: &[PathBuf]) -> (Vec<PathBuf>, Vec<Failure>) {
    let (mut lists, mut wrong) = (Vec::new(), Vec::new());
    for word in words {
        if !word.is_dir() {
            lists.push(word.clone());
            continue;
        }
        match lists_in(word) {
            Ok(held) if held.is_empty() => wrong.push(Failure::NoList(shown(word))),
            Ok(held) => lists.extend(held),
            Err(error) => wrong.push(Failure::File(shown(word), error)),
        }
    }
    (lists, wrong)
}

/// The files in a folder that end in .mzp, by name.
fn lists_in(folder: &Path) -> io::Result<Vec<PathBuf>> {
    let mut lists = Vec::new();
    for entry in fs::read_dir(folder)? {
        let path = entry?.path();
        // A link to nowhere counts as a file, so that it is told.
        if ends_in_mzp(&path) && !path.is_dir() {
            lists.push(path);
        }
    }
    lists.sort();
    Ok(lists)
}

fn ends_in_mzp(path: &Path) -> bool {
    path.extension() == Some(OsStr::new("mzp"))
}

impl Task {
    /// NAME.mzp becomes NAME.pgm. Another name is kept whole before .pgm, so that a list whose name
    /// ends in that is not written over.
    pub fn new(list: PathBuf, out: &Path) -> Task {
        // What has no name, as `missing/..`, is no file either, and reading it tells so.
        let mut name = PathBuf::from(list.file_name().unwrap_or_default());
        if ends_in_mzp(&name) {
            name.set_extension("pgm");
        } else {
            name.as_mut_os_string().push(".pgm");
        }
        let picture = out.join(name);
        Task { list, picture }
    }
}

/// The first two lists that have one picture.
pub fn same_picture(tasks: &[Task]) -> Option<Failure> {
    let mut by_picture = HashMap::new();
    let mut taken = tasks
        .iter()
        .filter_map(|task| match by_picture.entry(&task.picture) {
            Entry::Vacant(place) => {
                place.insert(&task.list);
                None
            }
            Entry::Occupied(first) => Some((*first.get(), task)),
        });
    let (first, second) = taken.next()?;
    Some(Failure::SamePicture {
        picture: shown(&second.picture),
        lists: [shown(first), shown(&second.list)],
        more: taken.count(),
    })
}

#[cfg(test)]
mod tests {
    use super::*;

    fn tasks(lists: &[&str]) -> Vec<Task> {
        let task = |list: &&str| Task::new(list.into(), Path::new("out"));
        lists.iter().map(task).collect()
    }

    #[test]
    fn a_picture_has_its_lists_name() {
        for (list, picture) in [
            ("a.mzp", "out/a.pgm"),
            ("in/a.b.mzp", "out/a.b.pgm"),
            ("../a", "out/a.pgm"),
            ("a.pgm", "out/a.pgm.pgm"),
            ("a.MZP", "out/a.MZP.pgm"),
            (".mzp", "out/.mzp.pgm"),
            ("a.mzp/", "out/a.pgm"),
        ] {
            assert_eq!(tasks(&[list])[0].picture, Path::new(picture), "{list}");
        }
    }

    #[test]
    fn two_lists_with_one_picture_are_both_named() {
        let said = |lists: &[&str]| same_picture(&tasks(lists)).map(|same| same.to_string());
        assert_eq!(said(&["a.mzp", "b.mzp", "a.list"]), None);
        assert_eq!(
            said(&["a.mzp", "b.mzp", "in/a.mzp"]).unwrap(),
            "a.mzp and in/a.mzp would both be out/a.pgm"
        );
        assert_eq!(
            said(&["b.mzp", "a", "a.mzp", "b.mzp", "b"]).unwrap(),
            "a and a.mzp would both be out/a.pgm, and 2 more lists have a picture that is taken"
        );
    }
}
