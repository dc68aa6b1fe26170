//! A kind of comparison: where its cases come from, how one is judged, and how one that differs is
//! made smaller. Each kind has its module; the program runs them one behind the other.

pub mod bands;
pub mod boxes;
pub mod by_hand;
pub mod calls;
pub mod cells;
pub mod cuts;
pub mod drawings;
pub mod filled;
pub mod in_bands;
pub mod lists;
pub mod lost_moves;
pub mod maps;
pub mod moved_twice;
pub mod no_room;
pub mod placements;
pub mod stores;
pub mod unslanted;

use std::collections::BTreeMap;
use std::iter::repeat;
use std::panic::{catch_unwind, AssertUnwindSafe};
use std::time::{Duration, Instant};

use compare::numbers::{same, shown, Dice};
use compare::shrink::{smallest, Candidates};

/// The heading that a case counts under, and how many parts of it were compared, one count for each of
/// the kind's.
#[derive(Debug)]
pub struct Agreed {
    heading: &'static str,
    parts: Vec<usize>,
}

impl From<&'static str> for Agreed {
    fn from(heading: &'static str) -> Agreed {
        Agreed {
            heading,
            parts: Vec::new(),
        }
    }
}

/// What agreed, or in words how the two sides differ.
pub type Verdict = Result<Agreed, String>;

pub trait Kind {
    type Case: Clone;

    /// What is said of a case's parts behind their counts.
    const PARTS: &'static [&'static str] = &[];

    fn name(&self) -> String;

    /// The case of this number; what the number does not say is drawn from the dice.
    fn draw(&self, number: u64, dice: &mut Dice) -> Self::Case;

    /// Gives one case to both sides.
    fn judge(&self, case: &Self::Case) -> Verdict;

    /// Simpler cases than this one, the boldest first.
    fn simpler<'a>(&self, case: &'a Self::Case) -> Candidates<'a, Self::Case>;

    /// The case in words, numbers with their bits.
    fn show(&self, case: &Self::Case) -> String;
}

/// How many cases counted under each heading, and their parts.
#[derive(Default)]
pub struct Tally {
    headings: BTreeMap<&'static str, u64>,
    parts: Vec<u64>,
}

impl Tally {
    fn add(&mut self, agreed: Agreed) {
        *self.headings.entry(agreed.heading).or_default() += 1;
        let counted = self.parts.len().max(agreed.parts.len());
        self.parts.resize(counted, 0);
        for (sum, parts) in self.parts.iter_mut().zip(agreed.parts) {
            *sum += parts as u64;
        }
    }

    pub fn cases(&self) -> u64 {
        self.headings.values().sum()
    }

    /// The headings with their counts, short ones first.
    pub fn told<K: Kind>(&self) -> String {
        let mut headings: Vec<_> = self.headings.iter().collect();
        headings.sort_by_key(|(heading, _)| heading.len());
        let mut told: Vec<String> = headings
            .iter()
            .map(|(heading, count)| format!("{count} {heading}"))
            .collect();
        let counts = self.parts.iter().copied().chain(repeat(0));
        let parts = K::PARTS.iter().zip(counts);
        told.extend(parts.map(|(parts, count)| format!("{count} {parts}")));
        told.join("; ")
    }
}

/// Judges so many cases, or stops at the first that differs and tells its smallest form.
pub fn run<K: Kind>(kind: &K, seed: u64, count: u64) -> Result<Tally, String> {
    let name = kind.name();
    let mut dice = Dice::named(seed, &name);
    let mut tally = Tally::default();
    for number in 0..count {
        let case = kind.draw(number, &mut dice);
        match judged(kind, &case) {
            Ok(agreed) => tally.add(agreed),
            Err(_) => {
                return Err(told(
                    kind,
                    case,
                    &format!("{name}, case {number}, seed {seed}"),
                ))
            }
        }
    }
    Ok(tally)
}

/// A panic on zeno's side is a difference too, so that its case is told.
fn judged<K: Kind>(kind: &K, case: &K::Case) -> Verdict {
    let verdict = catch_unwind(AssertUnwindSafe(|| kind.judge(case)));
    verdict.unwrap_or_else(|_| Err("a panic".to_string()))
}

/// How long a smaller form is sought.
pub const SEEKING: Duration = Duration::from_secs(60);

/// What differs in the smallest form of a case, and the case as it was met.
fn told<K: Kind>(kind: &K, case: K::Case, place: &str) -> String {
    let start = Instant::now();
    let differs = |case: &K::Case| start.elapsed() < SEEKING && judged(kind, case).is_err();
    let least = smallest(case.clone(), |case| kind.simpler(case), differs);
    let difference = judged(kind, &least).expect_err("the smallest form differs");
    format!(
        "DIFFERENT: {place}\nsmallest form:\n{}{difference}\nas met:\n{}",
        kind.show(&least),
        kind.show(&case),
    )
}

/// Numbers with their names and bits, one to a line.
fn listed<'a>(names: impl Iterator<Item = &'a str>, numbers: &[f32]) -> String {
    let lines = names.zip(numbers);
    lines
        .map(|(name, &number)| format!("  {name} = {}\n", shown(number)))
        .collect()
}

/// Says where two lists of numbers differ, bit for bit but for NaN.
fn agree(by: &str, names: &[&str], ours: &[f32], theirs: &[f32]) -> Result<(), String> {
    agree_if(same, by, names, ours, theirs)
}

/// The same with zeros of either sign as one.
fn agree_but_for_zeros(
    by: &str,
    names: &[&str],
    ours: &[f32],
    theirs: &[f32],
) -> Result<(), String> {
    let is_same = |a, b| a == b || same(a, b);
    agree_if(is_same, by, names, ours, theirs)
}

fn agree_if(
    is_same: fn(f32, f32) -> bool,
    by: &str,
    names: &[&str],
    ours: &[f32],
    theirs: &[f32],
) -> Result<(), String> {
    for ((name, &our), &their) in names.iter().zip(ours).zip(theirs) {
        if !is_same(our, their) {
            let (our, their) = (shown(our), shown(their));
            return Err(format!("{name}: the port {our}, {by} {their}"));
        }
    }
    Ok(())
}
