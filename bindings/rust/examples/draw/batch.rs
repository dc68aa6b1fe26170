//! Many lists, drawn by several threads and written to one folder.

use std::fs;
use std::io::{self, Write};
use std::thread::available_parallelism;
use std::time::Duration;

use crate::desk::Desk;
use crate::failure::{shown, Failure};
use crate::flags::{Batch, MOST_THREADS};
use crate::lists::{lists_of, same_picture, Task};
use crate::off_grid::labels_off_grid;
use crate::progress::{pace, Progress};
use crate::sharing::share_out;
use crate::to_stdout;

/// How many coordinates of a label that is drawn lie off the grid, or why it is not drawn.
type Drawn = Result<usize, Failure>;

/// Draws what can be drawn, tells what cannot at the end, and answers with what to exit with.
pub fn run(batch: &Batch) -> Result<u8, Failure> {
    let (lists, wrong) = lists_of(&batch.words);
    let task = |list| Task::new(list, &batch.out);
    let tasks: Vec<_> = lists.into_iter().map(task).collect();
    if let Some(same) = same_picture(&tasks) {
        return Err(same);
    }
    if tasks.is_empty() {
        tell(wrong.iter());
        return Ok(worst(wrong.iter()));
    }
    let out = shown(&batch.out);
    fs::create_dir_all(&batch.out).map_err(|error| Failure::File(out.clone(), error))?;
    let (drawn, took) = draw_all(&tasks, batch);
    let not_drawn = drawn.iter().filter_map(|one| one.as_ref().err());
    let failures = wrong.iter().chain(not_drawn);
    tell(failures.clone());
    to_stdout(summary(&drawn, &out, took).as_bytes())?;
    Ok(worst(failures))
}

/// What became of each list, and how long it took.
fn draw_all(tasks: &[Task], batch: &Batch) -> (Vec<Drawn>, Duration) {
    let stopped = |task: &Task, why| Err(Failure::Stopped(shown(&task.list), why));
    let undone = |task| stopped(task, "no thread came to it".into());
    let mut drawn: Vec<Drawn> = tasks.iter().map(undone).collect();
    let mut progress = Progress::new(tasks.len());
    share_out(
        tasks.len(),
        batch.threads.unwrap_or_else(processors),
        Desk::default,
        |desk, at| desk.draw(&tasks[at], batch.size, batch.ink),
        |at, outcome| {
            drawn[at] = outcome.unwrap_or_else(|panic| stopped(&tasks[at], panic));
            progress.step();
        },
    );
    (drawn, progress.end())
}

fn processors() -> usize {
    available_parallelism().map_or(1, |count| count.get().min(MOST_THREADS))
}

/// Where standard error is gone, the status is left to tell.
fn tell<'a>(failures: impl Iterator<Item = &'a Failure>) {
    let lines: String = failures.map(|one| format!("draw: {one}\n")).collect();
    let _ = io::stderr().write_all(lines.as_bytes());
}

fn worst<'a>(failures: impl Iterator<Item = &'a Failure>) -> u8 {
    failures.map(Failure::status).max().unwrap_or(0)
}

/// How many labels were drawn, and how fast; and, where there are some, how many lie off the grid.
fn summary(drawn: &[Drawn], out: &str, took: Duration) -> String {
    let count = |is: fn(&Drawn) -> bool| drawn.iter().filter(|&one| is(one)).count();
    let (all, written) = (drawn.len(), count(Result::is_ok));
    let refused = count(|one| matches!(one, Err(Failure::Refused(..))));
    let failed = match all - written - refused {
        0 => String::new(),
        failed => format!(", {failed} failed"),
    };
    let seconds = took.as_secs_f64();
    let pace = pace(all, took);
    let off_grid = labels_off_grid(count(|one| matches!(one, Ok(1..))), written);
    format!(
        "draw: {written} of {all} labels drawn and written to {out}, {refused} refused{failed}, \
         in {seconds:.1} s, {pace}\n{off_grid}"
    )
}

#[cfg(test)]
mod tests {
    use super::*;
    use mosszephyr::Refusal;

    fn refused() -> Failure {
        Failure::Refused("a".into(), Refusal::List)
    }

    fn stopped() -> Failure {
        Failure::Stopped("a".into(), "b".into())
    }

    #[test]
    fn the_worst_status_is_the_batchs() {
        assert_eq!(worst([].iter()), 0);
        assert_eq!(worst([refused(), refused()].iter()), 1);
        assert_eq!(worst([refused(), stopped(), refused()].iter()), 2);
    }

    #[test]
    fn a_summary_counts_what_became_of_the_lists() {
        let said = |drawn: &[Drawn]| summary(drawn, "out", Duration::from_millis(250));
        assert_eq!(
            said(&[Ok(0), Ok(0), Ok(0)]),
            "draw: 3 of 3 labels drawn and written to out, 0 refused, in 0.2 s, 12 labels a second\n"
        );
        assert_eq!(
            said(&[Ok(7), Err(refused()), Ok(0), Err(stopped()), Err(refused())]),
            "draw: 2 of 5 labels drawn and written to out, 2 refused, 1 failed, in 0.2 s, 20 labels \
             a second\ndraw: 1 of 2 labels has coordinates off the 1/256 grid\n"
        );
    }
}
