//! The text of `gradelist`: the header, then for each input line its number with verdict and
//! trials under the default order and ceiling, or with `R` and the refusal.

use crate::grading::grade;
use crate::grid::CELLS;
use crate::job::HIGHEST_COUNT;
use crate::order::default_order;

pub const HEADER: &str = "line verdict trials\n";

/// The whole output for a whole input. A line ends at its newline, and the last newline is
/// optional; every other byte, a carriage return too, belongs to the line.
pub fn gradelist(input: &[u8]) -> String {
    let order = default_order();
    let mut text = String::from(HEADER);
    let lines = input.split_inclusive(|&byte| byte == b'\n');
    for (number, line) in (1..).zip(lines) {
        let line = line.strip_suffix(b"\n").unwrap_or(line);
        let answer = match grade(line, &order, HIGHEST_COUNT, &mut [0; CELLS]) {
            Ok(grade) => format!("{number} {} {}\n", grade.verdict, grade.trials),
            Err(refusal) => format!("{number} R {}\n", refusal.number),
        };
        text.push_str(&answer);
    }
    text
}
