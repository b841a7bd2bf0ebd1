//! The order of trials: 1,458 literals, each once. Its refusals are 22 for the length, 23 for the
//! first entry that is no literal, and, after all of 23, 24 for the first repeated entry.

use crate::grid::VARIABLES;
use crate::refusal::{demand, demand_none, Refusal};

pub const ENTRIES: usize = 2 * VARIABLES;

/// +1, −1, +2, −2 to −729.
pub fn default_order() -> Vec<i16> {
    (1..=VARIABLES as i16).flat_map(|v| [v, -v]).collect()
}

/// The check of a lent order: 22, 23, 24.
pub fn check(order: &[i16]) -> Result<(), Refusal> {
    demand(order.len() == ENTRIES, 22)?;
    check_entries(order)
}

/// 23 and 24 alone, for an order whose length is settled.
pub fn check_entries(order: &[i16]) -> Result<(), Refusal> {
    let no_literal = |&entry: &i16| entry == 0 || entry.unsigned_abs() as usize > VARIABLES;
    demand_none(order.iter().position(no_literal), 23)?;
    let repeats_earlier = |&place: &usize| order[..place].contains(&order[place]);
    demand_none((0..order.len()).find(repeats_earlier), 24)
}
