//! What is lent to the port for one call.

/// Entries to lend. They stand between marks that nobody may write, or fill a block of the heap
/// exactly, so that a memory checker sees any step outside it, reading ones too.
pub struct Lent<T> {
    all: Vec<T>,
    guard: usize,
    mark: T,
}

/// How many marks stand on either side.
const GUARD: usize = 64;

/// A byte and a word that no fill, no cover and no wiping writes.
pub const BYTE_MARK: u8 = 0xa6;
pub const WORD_MARK: u32 = 0xa65b_c3d9;

/// What stands around what is lent.
#[derive(Clone, Copy, PartialEq)]
pub enum Around {
    Marks,
    Nothing,
}

impl<T: Copy + PartialEq> Lent<T> {
    pub fn new(content: &[T], mark: T, around: Around) -> Lent<T> {
        let guard = match around {
            Around::Marks => GUARD,
            Around::Nothing => 0,
        };
        let mut all = Vec::with_capacity(content.len() + 2 * guard);
        all.resize(guard, mark);
        all.extend_from_slice(content);
        all.resize(content.len() + 2 * guard, mark);
        Lent { all, guard, mark }
    }

    pub fn part(&self) -> &[T] {
        &self.all[self.guard..self.all.len() - self.guard]
    }

    pub fn part_mut(&mut self) -> &mut [T] {
        let end = self.all.len() - self.guard;
        &mut self.all[self.guard..end]
    }

    /// Whether every mark still stands.
    pub fn is_kept(&self) -> bool {
        let (before, rest) = self.all.split_at(self.guard);
        let behind = &rest[rest.len() - self.guard..];
        before.iter().chain(behind).all(|mark| *mark == self.mark)
    }
}

#[cfg(test)]
mod tests {
    use super::*;

    #[test]
    fn a_step_outside_is_seen() {
        for step in [GUARD - 1, GUARD + 3] {
            let mut lent = Lent::new(&[1, 2, 3], BYTE_MARK, Around::Marks);
            lent.part_mut().fill(0);
            assert!(lent.is_kept());
            lent.all[step] = 0;
            assert!(!lent.is_kept());
        }
    }

    #[test]
    fn the_part_is_the_content() {
        for around in [Around::Marks, Around::Nothing] {
            let lent = Lent::new(&[7, 8], WORD_MARK, around);
            assert_eq!(lent.part(), [7, 8]);
            assert!(lent.is_kept());
        }
    }
}
