//! A MoveTo lost behind a Close: the port refuses the list with 18, zeno goes on from where the
//! closed subpath started. With the MoveTo put back both draw what zeno drew without it.

use super::drawings::judged;
use super::{Agreed, Kind, Verdict};
use compare::drawing::{ordinary_of, Drawing};
use compare::driver;
use compare::list;
use compare::numbers::Dice;
use compare::paths::{without_moves_to_the_start, Character};
use compare::reading;
use compare::shrink::Candidates;

pub struct LostMoves;

impl Kind for LostMoves {
    type Case = Drawing;

    const PARTS: &'static [&'static str] = &["pixels compared"];

    fn name(&self) -> String {
        "drawings with a MoveTo lost behind a Close".to_string()
    }

    fn draw(&self, _: u64, dice: &mut Dice) -> Drawing {
        ordinary_of(Character::BehindClose, dice)
    }

    fn judge(&self, case: &Drawing) -> Verdict {
        let whole = judged(case)?;
        if whole.heading != "accepted" {
            return Ok(whole);
        }
        let path = reading::judge(case).expect("an accepted list");
        let lost = without_moves_to_the_start(&path);
        if lost.len() == path.len() {
            return Ok("no MoveTo to lose".into());
        }
        let broken = Drawing {
            list: list::written(&lost),
            ..case.clone()
        };
        let told = judged(&broken)?;
        if told.heading != "refused 18" {
            return Err(format!("without its MoveTo the list is {}", told.heading));
        }
        if driver::painted(case, &lost) != driver::painted(case, &path) {
            return Err("zeno draws something else without the MoveTo".to_string());
        }
        Ok(Agreed {
            heading: "refused 18, zeno's mask and cells with the MoveTo put back",
            ..whole
        })
    }

    fn simpler<'a>(&self, case: &'a Drawing) -> Candidates<'a, Drawing> {
        case.simpler()
    }

    fn show(&self, case: &Drawing) -> String {
        case.shown()
    }
}
