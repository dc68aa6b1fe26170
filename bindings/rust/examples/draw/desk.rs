//! Where one thread draws list after list, with memory that it keeps.

use std::fs::File;
use std::io::{self, Read};
use std::path::Path;

use mosszephyr::{Workspace, MOST_LIST, MOST_SIDE};

use crate::failure::{shown, Failure};
use crate::frame::Frame;
use crate::lists::Task;
use crate::pgm::{header, make_ink};
use crate::whole::write_whole;

#[derive(Default)]
pub struct Desk {
    workspace: Workspace,
    /// The bytes of the list.
    list: Vec<u8>,
    /// The bytes of the picture's file.
    picture: Vec<u8>,
}

impl Desk {
    /// Draws a list and writes its picture; tells how many coordinates lie off the grid.
    pub fn draw(
        &mut self,
        task: &Task,
        size: Option<(usize, usize)>,
        ink: bool,
    ) -> Result<usize, Failure> {
        let Task { list, picture } = task;
        self.read(list)
            .map_err(|error| Failure::File(shown(list), error))?;
        let cut = self.paint(list, size, ink)?;
        write_whole(picture, &self.picture)
            .map_err(|error| Failure::File(shown(picture), error))?;
        Ok(cut)
    }

    /// One byte more than a list may have is enough to have it refused.
    fn read(&mut self, list: &Path) -> io::Result<usize> {
        self.list.clear();
        let file = File::open(list)?;
        file.take(MOST_LIST as u64 + 1).read_to_end(&mut self.list)
    }

    /// The covers are drawn where they stand in the file.
    fn paint(
        &mut self,
        name: &Path,
        size: Option<(usize, usize)>,
        ink: bool,
    ) -> Result<usize, Failure> {
        let frame = Frame::of(&self.list, size)
            .map_err(|refusal| Failure::Refused(shown(name), refusal))?;
        let header = header(frame.width, frame.height);
        // A label that is larger is refused, whatever it is lent.
        let pixels = frame.width.min(MOST_SIDE) * frame.height.min(MOST_SIDE);
        self.picture.resize(header.len() + pixels, 0);
        let (before_rows, covers) = self.picture.split_at_mut(header.len());
        let drawn = self
            .workspace
            .draw(&self.list, &frame.whole(), covers)
            .map_err(|refusal| frame.refused(shown(name), refusal))?;
        if covers.is_empty() {
            return Err(Failure::Empty(shown(name)));
        }
        before_rows.copy_from_slice(header.as_bytes());
        if ink {
            make_ink(covers);
        }
        Ok(drawn.cut)
    }
}
