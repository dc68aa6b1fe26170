//! A binary PGM picture, as Netpbm describes it.

/// The file of a picture whose rows of `width` covers follow each other. A byte is the cover or, as
/// ink, the light that is left.
pub fn pgm(covers: &[u8], width: usize, ink: bool) -> Vec<u8> {
    let mut file = header(width, covers.len() / width).into_bytes();
    let before_rows = file.len();
    file.extend(covers);
    if ink {
        make_ink(&mut file[before_rows..]);
    }
    file
}

/// What stands before the rows.
pub fn header(width: usize, height: usize) -> String {
    format!("P5\n{width} {height}\n255\n")
}

/// Each cover becomes the light that it leaves.
pub fn make_ink(covers: &mut [u8]) {
    for cover in covers {
        *cover = 255 - *cover;
    }
}

#[cfg(test)]
mod tests {
    use super::*;

    #[test]
    fn width_comes_before_height_and_rows_behind_the_header() {
        let file = pgm(b"abcdef", 3, false);
        assert_eq!(file, b"P5\n3 2\n255\nabcdef");
    }

    #[test]
    fn ink_is_dark() {
        let file = pgm(&[0, 255, 1], 1, true);
        assert_eq!(file, b"P5\n1 3\n255\n\xff\x00\xfe");
    }
}
