//! The program behind `./draw`: shows a path list in the terminal or writes it as a binary PGM
//! picture, or writes those of a whole batch. usage.txt tells its words. Exits with 1 where a label is
//! refused, with 2 where anything else fails.

mod batch;
mod desk;
mod failure;
mod flags;
mod frame;
mod lists;
mod off_grid;
mod pgm;
mod progress;
mod screen;
mod sharing;
mod whole;
mod words;

use std::io::Write;
use std::process::ExitCode;
use std::{env, fs, io};

use mosszephyr::draw;

use failure::{shown, Failure};
use frame::Frame;
use off_grid::off_grid;
use pgm::pgm;
use screen::Screen;
use words::{asked, Asked, Out, Request};

fn main() -> ExitCode {
    let ended = match asked(env::args_os().skip(1)) {
        Ok(Asked::Help) => to_stdout(include_bytes!("usage.txt")).map(|()| 0),
        Ok(Asked::Drawing(request)) => run(&request).map(|()| 0),
        Ok(Asked::Batch(batch)) => batch::run(&batch),
        Err(wrong) => Err(Failure::Words(wrong)),
    };
    let status = ended.unwrap_or_else(|failure| {
        eprintln!("draw: {failure}");
        failure.status()
    });
    ExitCode::from(status)
}

/// The label is drawn at its own size first, so that the terminal shows none that would be refused.
fn run(request: &Request) -> Result<(), Failure> {
    let name = shown(&request.list);
    let bytes = fs::read(&request.list).map_err(|error| Failure::File(name.clone(), error))?;
    let list = mosszephyr::Path::from(bytes);
    let refused = |refusal| Failure::Refused(name.clone(), refusal);
    let frame = Frame::of(&list, request.size).map_err(refused)?;
    let picture =
        draw(&list, &frame.whole()).map_err(|refusal| frame.refused(name.clone(), refusal))?;
    if picture.mask().is_empty() {
        return Err(Failure::Empty(name));
    }
    let drawn = frame.report(&name, &picture);
    let off_grid = off_grid(&name, picture.cut(), list.coordinates());
    match &request.out {
        Out::Screen => {
            let screen = Screen::of_environment();
            let seen = draw(&list, &frame.seen_on(&screen)).map_err(refused)?;
            let (width, height) = (seen.width(), seen.height());
            to_stdout(screen.lines(seen.mask(), width, request.ink).as_bytes())?;
            eprint!("{drawn}, shown as {width} x {height}\n{off_grid}");
        }
        Out::Stdout => {
            to_stdout(&pgm(picture.mask(), frame.width, request.ink))?;
            eprint!("{drawn}, written to standard output\n{off_grid}");
        }
        Out::File(out) => {
            let out_name = shown(out);
            fs::write(out, pgm(picture.mask(), frame.width, request.ink))
                .map_err(|error| Failure::File(out_name.clone(), error))?;
            to_stdout(format!("{drawn}, written to {out_name}\n{off_grid}").as_bytes())?;
        }
    }
    Ok(())
}

fn to_stdout(bytes: &[u8]) -> Result<(), Failure> {
    let mut out = io::stdout().lock();
    out.write_all(bytes)
        .and_then(|()| out.flush())
        .map_err(|error| Failure::File("standard output".into(), error))
}
