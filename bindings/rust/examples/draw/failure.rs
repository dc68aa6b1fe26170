//! What can go wrong, and how it is told.

use std::path::Path;
use std::{fmt, io};

use mosszephyr::Refusal;

/// Why there is no picture. The first string is the file's name, or what else is at fault.
pub enum Failure {
    Words(String),
    Refused(String, Refusal),
    Empty(String),
    File(String, io::Error),
    /// A folder in which no file's name ends in .mzp.
    NoList(String),
    /// Two lists of a batch that have one picture, and how many more pictures have two.
    SamePicture {
        picture: String,
        lists: [String; 2],
        more: usize,
    },
    /// A list that no thread came to the end of, and why.
    Stopped(String, String),
}

impl Failure {
    /// What the program exits with.
    pub fn status(&self) -> u8 {
        match self {
            Failure::Refused(..) => 1,
            _ => 2,
        }
    }
}

impl fmt::Display for Failure {
    fn fmt(&self, f: &mut fmt::Formatter<'_>) -> fmt::Result {
        match self {
            Failure::Words(wrong) => write!(f, "{wrong} (./draw --help tells the words)"),
            Failure::Refused(what, refusal) => write!(f, "{what}: {refusal}"),
            Failure::Empty(name) => write!(f, "{name}: nothing to draw: the picture has no pixel"),
            Failure::File(name, error) => write!(f, "{name}: {error}"),
            Failure::NoList(folder) => write!(f, "{folder}: no file in this folder ends in .mzp"),
            Failure::SamePicture {
                picture,
                lists: [first, second],
                more,
            } => {
                write!(f, "{first} and {second} would both be {picture}")?;
                match more {
                    0 => Ok(()),
                    _ => write!(f, ", and {more} more lists have a picture that is taken"),
                }
            }
            Failure::Stopped(name, why) => write!(f, "{name}: the drawing stopped: {why}"),
        }
    }
}

/// A file's name as it is told.
pub fn shown(path: &Path) -> String {
    path.display().to_string()
}
