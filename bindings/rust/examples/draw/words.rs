//! What the words behind the program's name ask for.

use std::ffi::{OsStr, OsString};
use std::path::{Path, PathBuf};

use crate::flags::{number, quoted, Batch, Flags};

#[derive(Debug, PartialEq)]
pub enum Asked {
    Help,
    Drawing(Request),
    Batch(Batch),
}

#[derive(Debug, PartialEq)]
pub struct Request {
    pub list: PathBuf,
    pub out: Out,
    /// Width and height. Without them the list's own placement has a say.
    pub size: Option<(usize, usize)>,
    /// Black on white.
    pub ink: bool,
}

/// Where the picture goes.
#[derive(Debug, PartialEq)]
pub enum Out {
    Screen,
    Stdout,
    File(PathBuf),
}

/// Reads the words; where one is wrong, the answer names it. Flags may stand anywhere before `--`.
pub fn asked(words: impl IntoIterator<Item = OsString>) -> Result<Asked, String> {
    let mut words = words.into_iter();
    let mut flags = Flags::default();
    let mut plain = Vec::new();
    while let Some(word) = words.next() {
        match word.to_str() {
            Some("--") => plain.extend(words.by_ref()),
            Some("-h" | "--help") => return Ok(Asked::Help),
            Some(flag) if flag.len() > 1 && flag.starts_with('-') => {
                flags.take(flag, &mut words)?
            }
            _ => plain.push(word),
        }
    }
    if flags.batch {
        return flags.batch_of(plain).map(Asked::Batch);
    }
    if let Some(flag) = flags.for_batch_alone() {
        return Err(format!("`{flag}` goes with --batch alone"));
    }
    request(&plain, flags.ink).map(Asked::Drawing)
}

/// A number behind the list begins a size, so no picture's file is named by a bare number.
fn request(words: &[OsString], ink: bool) -> Result<Request, String> {
    let (list, out, size) = match words {
        [] => return Err("no LIST: the file of a path list is wanted".into()),
        [list] => (list, Out::Screen, None),
        [_, lone] if number(lone).is_some() => return Err(no_size(lone)),
        [list, out] => (list, out_of(out)?, None),
        [list, width, height] if number(width).is_some() => {
            (list, Out::Screen, Some((width, height)))
        }
        [_, out, lone] => return Err(out_of(out).map_or_else(|no_out| no_out, |_| no_size(lone))),
        [list, out, width, height] => (list, out_of(out)?, Some((width, height))),
        [_, _, _, _, more, ..] => return Err(format!("{} is a word too many", quoted(more))),
    };
    if out == Out::File(list.into()) {
        return Err(format!("{} is both LIST and OUT", quoted(list)));
    }
    let size = match size {
        Some((width, height)) => Some((pixels(width, "width")?, pixels(height, "height")?)),
        None => None,
    };
    Ok(Request {
        list: list.into(),
        out,
        size,
        ink,
    })
}

/// Only a picture's name is taken, so that a word in a wrong place overwrites no list.
fn out_of(word: &OsStr) -> Result<Out, String> {
    if word == "-" {
        return Ok(Out::Stdout);
    }
    if Path::new(word).extension() == Some(OsStr::new("pgm")) {
        return Ok(Out::File(word.into()));
    }
    let word = quoted(word);
    Err(format!(
        "{word} is no OUT: a name that ends in .pgm is wanted, or - for standard output"
    ))
}

fn pixels(word: &OsStr, side: &str) -> Result<usize, String> {
    number(word).ok_or_else(|| {
        let word = quoted(word);
        format!("{word} is no {side}: a whole number of pixels is wanted")
    })
}

fn no_size(lone: &OsStr) -> String {
    let lone = quoted(lone);
    format!("{lone} alone is no size: a width and a height are wanted")
}

#[cfg(test)]
mod tests {
    use super::*;

    fn asked_by(line: &str) -> Result<Asked, String> {
        asked(line.split_whitespace().map(OsString::from))
    }

    fn drawing(out: Out, size: Option<(usize, usize)>, ink: bool) -> Result<Asked, String> {
        let list = "a.mzp".into();
        Ok(Asked::Drawing(Request {
            list,
            out,
            size,
            ink,
        }))
    }

    fn file(name: &str) -> Out {
        Out::File(name.into())
    }

    #[test]
    fn the_number_of_words_tells_what_they_are() {
        assert_eq!(asked_by("a.mzp"), drawing(Out::Screen, None, false));
        let b = || file("b.pgm");
        assert_eq!(asked_by("a.mzp b.pgm"), drawing(b(), None, false));
        assert_eq!(asked_by("a.mzp -"), drawing(Out::Stdout, None, false));
        let size = Some((640, 240));
        assert_eq!(asked_by("a.mzp 640 240"), drawing(Out::Screen, size, false));
        assert_eq!(asked_by("a.mzp b.pgm 640 240"), drawing(b(), size, false));
        assert_eq!(
            asked_by("a.mzp - 640 240"),
            drawing(Out::Stdout, size, false)
        );
    }

    #[test]
    fn flags_stand_anywhere_before_two_dashes() {
        for line in [
            "--ink a.mzp b.pgm",
            "a.mzp --ink b.pgm",
            "a.mzp b.pgm --ink",
        ] {
            assert_eq!(asked_by(line), drawing(file("b.pgm"), None, true), "{line}");
        }
        assert_eq!(
            asked_by("--ink -- a.mzp --help.pgm"),
            drawing(file("--help.pgm"), None, true)
        );
        let dashes = asked_by("-- --ink --.pgm").unwrap();
        let list = "--ink".into();
        let out = file("--.pgm");
        let size = None;
        let ink = false;
        assert_eq!(
            dashes,
            Asked::Drawing(Request {
                list,
                out,
                size,
                ink
            })
        );
    }

    #[test]
    fn help_is_given_whatever_else_is_there() {
        for line in ["-h", "--help", "a b c d e -h", "a --help 3x"] {
            assert_eq!(asked_by(line), Ok(Asked::Help), "{line}");
        }
    }

    #[test]
    fn a_wrong_word_is_named() {
        let wanted = "a whole number of pixels is wanted";
        let none = "no LIST: the file of a path list is wanted";
        let flags = "--ink, --batch, --out, --size, --threads and --help are";
        let lone = "`640` alone is no size: a width and a height are wanted";
        let no_out = |word: &str| {
            format!(
                "`{word}` is no OUT: a name that ends in .pgm is wanted, or - for standard output"
            )
        };
        for (line, said) in [
            ("", none.into()),
            ("--ink", none.into()),
            ("a b.pgm 12x 3", format!("`12x` is no width: {wanted}")),
            ("a - 12 3.5", format!("`3.5` is no height: {wanted}")),
            ("a 12 y", format!("`y` is no height: {wanted}")),
            ("a -- b.pgm -1 2", format!("`-1` is no width: {wanted}")),
            ("a b.pgm 640", lone.into()),
            ("a 640", lone.into()),
            ("a b.mzp", no_out("b.mzp")),
            ("a 640x240", no_out("640x240")),
            ("a b 640", no_out("b")),
            ("a .pgm 6 4", no_out(".pgm")),
            ("a.pgm a.pgm", "`a.pgm` is both LIST and OUT".into()),
            ("a b 1 2 more", "`more` is a word too many".into()),
            ("a --inc", format!("`--inc` is no flag: {flags}")),
            ("a b -1 2", format!("`-1` is no flag: {flags}")),
        ] {
            assert_eq!(asked_by(line), Err(said), "{line}");
        }
    }
}
