//! The flags, and the batch that they ask for.

use std::ffi::{OsStr, OsString};
use std::path::{Path, PathBuf};

use mosszephyr::MOST_SIDE;

/// The most threads that may be asked for.
pub const MOST_THREADS: usize = 64;

/// What the flags say.
#[derive(Default)]
pub struct Flags {
    pub ink: bool,
    pub batch: bool,
    out: Option<PathBuf>,
    size: Option<(usize, usize)>,
    threads: Option<usize>,
}

/// Many lists, each of which becomes a picture.
#[derive(Debug, PartialEq)]
pub struct Batch {
    /// Files of lists, and folders with such files.
    pub words: Vec<PathBuf>,
    /// The folder that the pictures go to.
    pub out: PathBuf,
    /// Width and height of every picture. Without them each has its list's own placement.
    pub size: Option<(usize, usize)>,
    /// How many threads draw, from 1 to [`MOST_THREADS`]. Without it as many as there are processors.
    pub threads: Option<usize>,
    /// Black on white.
    pub ink: bool,
}

impl Flags {
    /// Takes a flag, and from the words behind it what it wants.
    pub fn take(
        &mut self,
        flag: &str,
        behind: &mut impl Iterator<Item = OsString>,
    ) -> Result<(), String> {
        let mut next = |wanted: &str| {
            let word = behind.next().filter(|word| says_something(word));
            word.ok_or_else(|| format!("`{flag}` wants {wanted} behind it"))
        };
        match flag {
            "--ink" => self.ink = true,
            "--batch" => self.batch = true,
            "--out" => {
                let out = next("a folder")?;
                once(flag, &mut self.out, out.into())?;
            }
            "--size" => {
                let wanted = "a width and a height";
                let width = side(&next(wanted)?, "width")?;
                let height = side(&next(wanted)?, "height")?;
                once(flag, &mut self.size, (width, height))?;
            }
            "--threads" => {
                let threads = threads(&next("a number")?)?;
                once(flag, &mut self.threads, threads)?;
            }
            _ => {
                return Err(format!(
                    "`{flag}` is no flag: --ink, --batch, --out, --size, --threads and --help are"
                ));
            }
        }
        Ok(())
    }

    /// A flag that says something of a batch alone, where one is given.
    pub fn for_batch_alone(&self) -> Option<&'static str> {
        match self {
            Flags { out: Some(_), .. } => Some("--out"),
            Flags { size: Some(_), .. } => Some("--size"),
            Flags {
                threads: Some(_), ..
            } => Some("--threads"),
            _ => None,
        }
    }

    /// The batch of the words that are no flags. A bare number is taken for a size in the wrong place,
    /// as where one list is drawn.
    pub fn batch_of(self, words: Vec<OsString>) -> Result<Batch, String> {
        if let Some(word) = words.iter().find(|word| number(word).is_some()) {
            let word = quoted(word);
            return Err(format!(
                "{word} is no list: --size WIDTH HEIGHT gives a batch's pictures their size"
            ));
        }
        if words.is_empty() {
            return Err("no LIST: the files of path lists are wanted, or folders of them".into());
        }
        let Some(out) = self.out else {
            return Err("no --out: the folder that the pictures of a batch go to is wanted".into());
        };
        Ok(Batch {
            words: words.into_iter().map(PathBuf::from).collect(),
            out,
            size: self.size,
            threads: self.threads,
            ink: self.ink,
        })
    }
}

/// Puts what a flag says into its place, which must be empty.
fn once<T>(flag: &str, place: &mut Option<T>, value: T) -> Result<(), String> {
    match place.replace(value) {
        None => Ok(()),
        Some(_) => Err(format!("`{flag}` stands there twice")),
    }
}

fn side(word: &OsStr, which: &str) -> Result<usize, String> {
    let wanted = format!("{which}: a whole number of pixels is wanted, from 1 to {MOST_SIDE}");
    within(word, MOST_SIDE, &wanted)
}

fn threads(word: &OsStr) -> Result<usize, String> {
    let wanted = format!("number of threads: 1 to {MOST_THREADS} are wanted");
    within(word, MOST_THREADS, &wanted)
}

fn within(word: &OsStr, most: usize, wanted: &str) -> Result<usize, String> {
    number(word)
        .filter(|number| (1..=most).contains(number))
        .ok_or_else(|| format!("{} is no {wanted}", quoted(word)))
}

/// What begins with a dash is another flag; an empty word, as a shell makes of a variable that is not
/// set, would be the folder that one stands in.
fn says_something(word: &OsStr) -> bool {
    !word.is_empty() && !word.as_encoded_bytes().starts_with(b"-")
}

pub fn number(word: &OsStr) -> Option<usize> {
    word.to_str()?.parse().ok()
}

/// A word as it is told.
pub fn quoted(word: &OsStr) -> String {
    format!("`{}`", Path::new(word).display())
}

#[cfg(test)]
mod tests {
    use super::*;
    use crate::words::{asked, Asked};

    fn asked_by(line: &str) -> Result<Asked, String> {
        asked(line.split_whitespace().map(OsString::from))
    }

    fn batch(words: &[&str]) -> Batch {
        Batch {
            words: words.iter().map(PathBuf::from).collect(),
            out: "out".into(),
            size: None,
            threads: None,
            ink: false,
        }
    }

    #[test]
    fn flags_stand_in_any_order() {
        let all = Batch {
            size: Some((640, 240)),
            threads: Some(3),
            ink: true,
            ..batch(&["a.mzp", "in"])
        };
        for line in [
            "--batch a.mzp in --out out --size 640 240 --threads 3 --ink",
            "--ink --threads 3 --size 640 240 --out out --batch a.mzp in",
            "a.mzp --out out --ink in --size 640 240 --batch --threads 3",
            "--size 640 240 --threads 3 --ink --batch --out out -- a.mzp in",
        ] {
            let all = Batch {
                words: all.words.clone(),
                out: all.out.clone(),
                ..all
            };
            assert_eq!(asked_by(line), Ok(Asked::Batch(all)), "{line}");
        }
    }

    #[test]
    fn behind_two_dashes_all_are_lists() {
        let expected = batch(&["a", "--ink", "--", "-h"]);
        let line = "--out out --batch a -- --ink -- -h";
        assert_eq!(asked_by(line), Ok(Asked::Batch(expected)));
    }

    #[test]
    fn the_least_and_the_most_are_taken() {
        for (size, threads) in [((1, 1), 1), ((4096, 4096), 64)] {
            let expected = Batch {
                size: Some(size),
                threads: Some(threads),
                ..batch(&["a"])
            };
            let (width, height) = size;
            let line = format!("--batch a --out out --size {width} {height} --threads {threads}");
            assert_eq!(asked_by(&line), Ok(Asked::Batch(expected)), "{line}");
        }
    }

    #[test]
    fn what_is_wrong_is_named() {
        let pixels = "a whole number of pixels is wanted, from 1 to 4096";
        let sizes = "`--size` wants a width and a height behind it";
        let threads = "number of threads: 1 to 64 are wanted";
        let alone = "goes with --batch alone";
        let no_list = "no LIST: the files of path lists are wanted, or folders of them";
        let folder = "`--out` wants a folder behind it";
        let no_out = "no --out: the folder that the pictures of a batch go to is wanted";
        let by_size = "is no list: --size WIDTH HEIGHT gives a batch's pictures their size";
        for (line, said) in [
            ("--batch", no_list.into()),
            ("--batch --out out", no_list.into()),
            ("--batch a", no_out.into()),
            ("--batch a --out", folder.into()),
            ("--out --batch a", folder.into()),
            ("--batch a --out -", folder.into()),
            ("--out b --out c", "`--out` stands there twice".into()),
            ("--batch a --size", sizes.into()),
            ("--batch a --size 640", sizes.into()),
            ("--batch a --size 640 --out b", sizes.into()),
            ("--size 0 240", format!("`0` is no width: {pixels}")),
            ("--size 640 4097", format!("`4097` is no height: {pixels}")),
            ("--size 640x 240", format!("`640x` is no width: {pixels}")),
            ("--threads", "`--threads` wants a number behind it".into()),
            ("--threads 0", format!("`0` is no {threads}")),
            ("--threads 65", format!("`65` is no {threads}")),
            ("--threads many", format!("`many` is no {threads}")),
            ("--batch a 640 240 --out b", format!("`640` {by_size}")),
            ("a --out b", format!("`--out` {alone}")),
            ("a --size 6 4", format!("`--size` {alone}")),
            ("a --threads 2", format!("`--threads` {alone}")),
        ] {
            assert_eq!(asked_by(line), Err(said), "{line}");
        }
        let empty = ["--batch", "a", "--out", ""].map(OsString::from);
        assert_eq!(asked(empty), Err(folder.into()));
    }
}
