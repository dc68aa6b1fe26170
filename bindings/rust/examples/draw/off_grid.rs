//! What is told of coordinates that do not lie on the grid.

/// A line that tells how many of a list's do not; none where all do.
pub fn off_grid(name: &str, cut: usize, coordinates: usize) -> String {
    let lie = match cut {
        0 => return String::new(),
        1 => "lies",
        _ => "lie",
    };
    let (cut, all) = (grouped(cut), grouped(coordinates));
    format!("draw: {name}: {cut} of {all} coordinates {lie} off the 1/256 grid\n")
}

/// A line that tells how many of a batch's labels have some that do not; none where all do.
pub fn labels_off_grid(labels: usize, all: usize) -> String {
    let have = match labels {
        0 => return String::new(),
        1 => "has",
        _ => "have",
    };
    let (labels, all) = (grouped(labels), grouped(all));
    format!("draw: {labels} of {all} labels {have} coordinates off the 1/256 grid\n")
}

/// A number with a comma before each three digits.
fn grouped(number: usize) -> String {
    match number {
        ..1000 => number.to_string(),
        _ => format!("{},{:03}", grouped(number / 1000), number % 1000),
    }
}

#[cfg(test)]
mod tests {
    use super::*;

    #[test]
    fn one_lies_and_more_lie() {
        for (cut, all, said) in [
            (1, 8, "1 of 8 coordinates lies"),
            (2, 2, "2 of 2 coordinates lie"),
            (3, 2504, "3 of 2,504 coordinates lie"),
            (14_042, 14_042, "14,042 of 14,042 coordinates lie"),
        ] {
            let line = format!("draw: a.mzp: {said} off the 1/256 grid\n");
            assert_eq!(off_grid("a.mzp", cut, all), line);
        }
        assert_eq!(off_grid("a.mzp", 0, 8), "");
    }

    #[test]
    fn one_label_has_and_more_have() {
        for (labels, all, said) in [
            (1, 1, "1 of 1 labels has"),
            (2, 5_000, "2 of 5,000 labels have"),
        ] {
            let line = format!("draw: {said} coordinates off the 1/256 grid\n");
            assert_eq!(labels_off_grid(labels, all), line);
        }
        assert_eq!(labels_off_grid(0, 5_000), "");
    }

    #[test]
    fn digits_stand_in_threes() {
        for (number, said) in [
            (0, "0"),
            (999, "999"),
            (1_000, "1,000"),
            (14_042, "14,042"),
            (1_020_030, "1,020,030"),
        ] {
            assert_eq!(grouped(number), said);
        }
    }
}
