//! docs/RULES.md, "When a label is turned away": the table of refusals with its order.

use super::records::{record_at, Record};
use crate::drawing::Drawing;
use crate::list;
use crate::oracle::{Command, Point, Transform};

/// A refusal's number and the index of the record at fault, 0 where no record is; the end of the list
/// counts as the record behind the last.
#[derive(Clone, Copy, Debug, PartialEq, Eq)]
pub struct Refusal {
    pub number: u8,
    pub index: usize,
}

/// A call that 1 to 12 and 18 let pass: the commands of its list, in order.
pub type Accepted = Vec<Command>;

/// The largest width and height.
pub const SIDE: usize = 4096;
/// The largest pitch, and the longest list.
const MOST: usize = 65_536;
/// How far from zero a point may lie by the point rule, in pixels.
pub const REACH: i64 = 4096;
/// The most places of a pool.
const PLACES: usize = 16_384;

/// Refusals 1 to 12 and 18 of a drawing, in their order.
pub fn judge(drawing: &Drawing) -> Result<Accepted, Refusal> {
    judge_sizes(drawing)?;
    judge_floats(&drawing.transform, drawing.offset)?;
    judge_list(&drawing.list, &drawing.transform, drawing.offset)
}

/// Refusals 6 to 12 and 18 of bounds, as for an offset of zero.
pub fn judge_bounds(bytes: &[u8], transform: &Transform) -> Result<Accepted, Refusal> {
    let zero = Point::new(0.0, 0.0);
    judge_floats(transform, zero)?;
    judge_list(bytes, transform, zero)
}

/// Refusals 6 to 12 and 18 of a placement. An empty list is 12 with index 0 where the offset by
/// itself fails the point rule.
pub fn judge_placement(
    bytes: &[u8],
    transform: &Transform,
    offset: Point,
) -> Result<Accepted, Refusal> {
    judge_floats(transform, offset)?;
    if bytes.is_empty() && !passes_point_rule(offset) {
        return refused(12, 0);
    }
    judge_list(bytes, transform, offset)
}

/// How many places the pool has: (words − rows) / 4, `PLACES` at most. Asked only past refusal 5.
pub fn pool(words: usize, rows: usize) -> usize {
    ((words - rows) / 4).min(PLACES)
}

/// 13: the distinct places of a drawing outnumber the pool. The record at fault is the first that
/// stores, with all before it, into more places than the pool has. `since` tells for each place, in
/// whatever order, the record that stores into it first.
pub fn judge_room(since: &[usize], words: usize, rows: usize) -> Result<(), Refusal> {
    let room = pool(words, rows);
    if since.len() <= room {
        return Ok(());
    }
    let mut since = since.to_vec();
    since.sort_unstable();
    refused(13, since[room])
}

/// The point rule: each part is finite and, times 256 and cut toward zero, at most 256 times `REACH`
/// either way.
pub fn passes_point_rule(point: Point) -> bool {
    [point.x, point.y].iter().all(|&part| {
        // 256 times a binary32 is exact in binary64.
        part.is_finite() && (f64::from(part) * 256.0).trunc().abs() <= 256.0 * REACH as f64
    })
}

fn refused<T>(number: u8, index: usize) -> Result<T, Refusal> {
    Err(Refusal { number, index })
}

/// 1 to 5.
fn judge_sizes(d: &Drawing) -> Result<(), Refusal> {
    if d.width > SIDE || d.height > SIDE {
        return refused(1, 0);
    }
    if d.first > d.end || d.end > d.height {
        return refused(2, 0);
    }
    if d.pitch < d.width || d.pitch > MOST {
        return refused(3, 0);
    }
    let rows = d.end - d.first;
    if rows > 0 && d.mask.len() < d.pitch * (rows - 1) + d.width {
        return refused(4, 0);
    }
    if d.words.len() < rows {
        return refused(5, 0);
    }
    Ok(())
}

/// 6: a number of the transform or of the offset is not finite.
fn judge_floats(t: &Transform, offset: Point) -> Result<(), Refusal> {
    let parts = [t.xx, t.xy, t.yx, t.yy, t.x, t.y, offset.x, offset.y];
    if parts.iter().all(|part| part.is_finite()) {
        return Ok(());
    }
    refused(6, 0)
}

/// 7, then the records in their order, up to one that is refused.
fn judge_list(bytes: &[u8], transform: &Transform, offset: Point) -> Result<Accepted, Refusal> {
    if bytes.len() > MOST {
        return refused(7, 0);
    }
    let mut commands = Vec::new();
    let mut at = 0;
    loop {
        match record_at(&bytes[at..]) {
            Record::End => return Ok(commands),
            Record::Faulty(number) => return refused(number, commands.len()),
            Record::Command(command, taken) => {
                judge_command(&command, &commands, transform, offset)?;
                commands.push(command);
                at += taken;
            }
        }
    }
}

/// 11 and 18 by the commands before, then 12 for each of the command's points.
fn judge_command(
    command: &Command,
    before: &[Command],
    transform: &Transform,
    offset: Point,
) -> Result<(), Refusal> {
    let index = before.len();
    if index == 0 && !matches!(command, Command::MoveTo(_)) {
        return refused(11, 0);
    }
    let draws = !matches!(command, Command::MoveTo(_) | Command::Close);
    if draws && before.last() == Some(&Command::Close) {
        return refused(18, index);
    }
    let (_, points) = list::parts(command);
    if points
        .iter()
        .all(|&p| passes_point_rule(moved(p, transform, offset)))
    {
        return Ok(());
    }
    refused(12, index)
}

/// The transformed point, each operation rounding by itself, and then moved by the offset.
fn moved(p: Point, t: &Transform, offset: Point) -> Point {
    let x = (p.x * t.xx + p.y * t.yx) + t.x;
    let y = (p.x * t.xy + p.y * t.yy) + t.y;
    Point::new(x + offset.x, y + offset.y)
}
