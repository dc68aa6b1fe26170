//! A command's flags, as `--seed 7 --only cells` or `--brief`.

use std::collections::HashMap;

#[derive(Debug)]
pub struct Flags(HashMap<String, String>);

impl Flags {
    /// Reads pairs of a flag and its value; each flag must be one of the known ones.
    pub fn read(words: &[String], known: &[&str]) -> Result<Flags, String> {
        Flags::read_with(words, known, &[])
    }

    /// The same, where each of `alone` may stand among them without a value.
    pub fn read_with(words: &[String], known: &[&str], alone: &[&str]) -> Result<Flags, String> {
        let mut flags = HashMap::new();
        let mut words = words.iter();
        while let Some(flag) = words.next() {
            let value = if alone.contains(&flag.as_str()) {
                String::new()
            } else if known.contains(&flag.as_str()) {
                let value = words.next();
                value.ok_or(format!("{flag} needs a value"))?.clone()
            } else {
                return Err(format!("what is {flag}?"));
            };
            flags.insert(flag.clone(), value);
        }
        Ok(Flags(flags))
    }

    pub fn has(&self, flag: &str) -> bool {
        self.0.contains_key(flag)
    }

    pub fn number(&self, flag: &str, otherwise: u64) -> Result<u64, String> {
        let Some(word) = self.0.get(flag) else {
            return Ok(otherwise);
        };
        let number = word.parse();
        number.map_err(|_| format!("{flag} needs a whole number"))
    }

    pub fn word(&self, flag: &str) -> Option<&str> {
        self.0.get(flag).map(String::as_str)
    }
}

#[cfg(test)]
mod tests {
    use super::*;

    fn read(line: &str) -> Result<Flags, String> {
        let words: Vec<String> = line.split_whitespace().map(str::to_string).collect();
        Flags::read(&words, &["--seed", "--only"])
    }

    #[test]
    fn flags_have_values() {
        let flags = read("--seed 7 --only cells").unwrap();
        assert_eq!(flags.number("--seed", 1), Ok(7));
        assert_eq!(flags.word("--only"), Some("cells"));
        assert_eq!(read("").unwrap().number("--seed", 1), Ok(1));
        assert!(flags.number("--only", 1).is_err());
    }

    /// A flag without a value takes no word from those around it, and only where it is named so.
    #[test]
    fn flags_may_stand_alone() {
        let words = ["--only", "cells", "--brief", "--seed", "7"].map(str::to_string);
        let flags = Flags::read_with(&words, &["--seed", "--only"], &["--brief"]).unwrap();
        assert!(flags.has("--brief"));
        assert_eq!(flags.number("--seed", 1), Ok(7));
        assert_eq!(flags.word("--only"), Some("cells"));
        assert!(!read("--seed 7").unwrap().has("--brief"));
        assert_eq!(read("--brief").unwrap_err(), "what is --brief?");
    }

    #[test]
    fn what_is_unknown_or_lacks_a_value_is_told() {
        assert_eq!(read("--speed 7").unwrap_err(), "what is --speed?");
        assert_eq!(read("--seed").unwrap_err(), "--seed needs a value");
    }
}
