//! What was timed, round by round.

use std::time::Duration;

use super::passes::{self, Pass, ZenoPass};
use super::samples::Group;

/// One label's or one store's time, round by round.
pub struct Rounds(pub Vec<f64>);

impl Rounds {
    pub fn best(&self) -> f64 {
        self.0.iter().copied().fold(f64::INFINITY, f64::min)
    }

    /// By how much the slowest round is above the best, in hundredths.
    pub fn spread(&self) -> f64 {
        let worst = self.0.iter().copied().fold(0.0, f64::max);
        100.0 * (worst / self.best() - 1.0)
    }
}

/// Milliseconds of one label, or one store, of so many.
pub fn each(time: Duration, count: usize) -> f64 {
    1000.0 * time.as_secs_f64() / count as f64
}

/// All that was timed of a group.
pub struct Timed<'a> {
    pub group: &'a Group,
    zeno: Vec<ZenoPass>,
    port: Vec<(Pass, Rounds)>,
}

impl Timed<'_> {
    /// Times every group, in zeno and in these passes of the port, once both sides agree on all.
    pub fn all<'a>(
        groups: &'a [Group],
        passes: &[Pass],
        labels: usize,
        rounds: u64,
    ) -> Result<Vec<Timed<'a>>, String> {
        for group in groups {
            passes::both_agree(group)?;
        }
        let timed = |group: &'a Group| Timed::new(group, passes, labels, rounds);
        Ok(groups.iter().map(timed).collect())
    }

    fn new<'a>(group: &'a Group, passes: &[Pass], labels: usize, rounds: u64) -> Timed<'a> {
        let untimed = |&pass: &Pass| (pass, Rounds(Vec::new()));
        let mut timed = Timed {
            group,
            zeno: Vec::new(),
            port: passes.iter().map(untimed).collect(),
        };
        for _ in 0..rounds {
            timed.round(labels);
        }
        timed
    }

    /// The passes of a round stand beside each other, so that a slow moment meets both sides.
    fn round(&mut self, labels: usize) {
        self.zeno.push(passes::zeno(self.group, labels));
        for (pass, times) in &mut self.port {
            let time = passes::port(self.group, pass.share_of(labels), *pass);
            times.0.push(time);
        }
    }

    /// The port in one of the passes that were timed.
    pub fn port(&self, pass: Pass) -> &Rounds {
        let found = self.port.iter().find(|(timed, _)| *timed == pass);
        &found.expect("a table tells what was timed").1
    }

    /// Zeno as it is used, clearing its mask.
    pub fn zeno(&self) -> Rounds {
        Rounds(self.zeno.iter().map(ZenoPass::whole).collect())
    }

    /// The same rounds without the clearing.
    pub fn zeno_uncleared(&self) -> Rounds {
        Rounds(self.zeno.iter().map(ZenoPass::uncleared).collect())
    }

    /// The port and zeno's clearing of the same round.
    pub fn port_and_clearing(&self) -> Rounds {
        let port = self.port(Pass::Whole).0.iter();
        let both = port.zip(&self.zeno);
        Rounds(both.map(|(port, zeno)| port + zeno.clearing).collect())
    }

    /// Zeno's parts in its best round.
    pub fn zeno_parts(&self) -> ZenoPass {
        let by_time = |a: &&ZenoPass, b: &&ZenoPass| a.whole().total_cmp(&b.whole());
        let best = self.zeno.iter().min_by(by_time);
        best.copied().unwrap_or_default()
    }
}
