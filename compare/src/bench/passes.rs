//! One pass over a group's labels, each label timed by itself.

use std::hint::black_box;
use std::time::{Duration, Instant};

use super::samples::{Group, Sample};
use super::timed::each;
use crate::face;
use compare::drawing::Drawing;
use compare::oracle::HeapStorage;

/// What is asked of the port for each label.
#[derive(Clone, Copy, PartialEq)]
pub enum Pass {
    /// The label, with a workspace that just fits it.
    Whole,
    /// The same behind a clearing of the mask, which is timed too.
    Cleared,
    /// The label, with a workspace of the largest pool.
    Roomy,
    /// So many rows at a time.
    InBands(usize),
    /// The list with a byte too many, which is refused after its last record.
    Judging,
    /// The label, with a workspace that lacks a place: drawn up to the record whose place does not fit,
    /// and refused before it is swept.
    Unswept,
    /// An empty list and no width: only the workspace is wiped.
    Wiping,
}

impl Pass {
    /// How many of the labels of a round are timed: bands take long, so that a tenth is enough.
    pub fn share_of(self, labels: usize) -> usize {
        match self {
            Pass::InBands(_) => labels.div_ceil(10),
            _ => labels,
        }
    }
}

/// Milliseconds of one label in zeno: setting the mask to zero, the path, the sweep.
#[derive(Clone, Copy, Default)]
pub struct ZenoPass {
    pub clearing: f64,
    pub path: f64,
    pub sweep: f64,
}

impl ZenoPass {
    pub fn whole(&self) -> f64 {
        self.clearing + self.uncleared()
    }

    pub fn uncleared(&self) -> f64 {
        self.path + self.sweep
    }
}

/// Both sides draw what the reading and zeno say; the mask starts as anything for the port.
pub fn both_agree(group: &Group) -> Result<(), String> {
    let mut words = vec![7; group.most_words()];
    for sample in &group.samples {
        let mut mask = vec![9; group.width * group.height];
        let words = &mut words[..sample.words()];
        words.fill(7);
        let answer = face::draw(&sample.call, &sample.call.list, &mut mask, words);
        let same = answer.number == 0 && answer.cells as usize == sample.cells;
        if !same || mask != sample.mask {
            return Err(format!("{}: the sides differ: {answer:?}", group.name));
        }
    }
    Ok(())
}

/// Zeno, its storage kept from label to label. It has grown, and the mask has been written, before
/// the first label is timed.
pub fn zeno(group: &Group, labels: usize) -> ZenoPass {
    let mut storage = HeapStorage::default();
    let mut mask = vec![1; group.width * group.height];
    let askables: Vec<_> = group.samples.iter().map(Sample::askable).collect();
    askables[0].paint(&mut storage, &mut mask, || {});
    let [mut clearing, mut path, mut sweep] = [Duration::ZERO; 3];
    for askable in askables.iter().cycle().take(labels) {
        let start = Instant::now();
        black_box(&mut mask).fill(0);
        let cleared = Instant::now();
        let mut drawn = cleared;
        askable.paint(&mut storage, black_box(&mut mask), || {
            drawn = Instant::now()
        });
        sweep += drawn.elapsed();
        path += drawn - cleared;
        clearing += cleared - start;
    }
    ZenoPass {
        clearing: each(clearing, labels),
        path: each(path, labels),
        sweep: each(sweep, labels),
    }
}

/// The port, over masks as they were left: milliseconds of one label.
pub fn port(group: &Group, labels: usize, pass: Pass) -> f64 {
    let lists: Vec<Vec<u8>> = group.samples.iter().map(Sample::one_byte_more).collect();
    let narrow: Vec<Drawing> = group.samples.iter().map(without_width).collect();
    let mut mask = vec![1; group.width * group.height];
    let mut words = vec![1; group.most_words()];
    let mut time = Duration::ZERO;
    for n in (0..group.samples.len()).cycle().take(labels) {
        let call = &group.samples[n].call;
        let lent = match pass {
            Pass::Roomy => words.len(),
            Pass::Unswept => group.samples[n].words() - 4,
            _ => group.samples[n].words(),
        };
        let words = &mut words[..lent];
        let start = Instant::now();
        if pass == Pass::Cleared {
            black_box(&mut mask).fill(0);
        }
        black_box(match pass {
            Pass::Whole | Pass::Cleared | Pass::Roomy | Pass::Unswept => {
                face::draw(call, &call.list, &mut mask, words)
            }
            Pass::InBands(step) => face::draw_in_bands(call, step, &call.list, &mut mask, words),
            Pass::Judging => face::draw(call, &lists[n], &mut mask, words),
            Pass::Wiping => face::draw(&narrow[n], &[], &mut mask, words),
        });
        time += start.elapsed();
    }
    each(time, labels)
}

/// The same rows with nothing to write in them.
fn without_width(sample: &Sample) -> Drawing {
    let mut call = sample.call.clone();
    (call.width, call.pitch) = (0, 0);
    call
}
