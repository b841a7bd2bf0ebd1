//! The clause families F1 to F9 by nested loops in the order of their indices, the two clause sets
//! as vectors of them, and the clause call. A clause's number is its place in the vector, so equal
//! clauses under two numbers both stay.

use crate::grid::variable;
use crate::refusal::{demand, Refusal};
use std::sync::LazyLock;

/// Two or nine literals, then zeros.
#[derive(Clone, Copy, Debug, PartialEq, Eq)]
pub struct Clause {
    padded: [i16; 9],
    length: usize,
}

impl Clause {
    pub fn literals(&self) -> &[i16] {
        &self.padded[..self.length]
    }
}

fn not_both(first: i16, second: i16) -> Clause {
    let mut padded = [0; 9];
    padded[..2].copy_from_slice(&[-first, -second]);
    Clause { padded, length: 2 }
}

fn some_of(variables: impl Iterator<Item = i16>) -> Clause {
    let mut padded = [0; 9];
    let mut length = 0;
    for variable in variables {
        padded[length] = variable;
        length += 1;
    }
    Clause { padded, length }
}

/// The variable of z at place (x,y), from 1 to 3, of box (a,b).
fn in_box(a: i16, b: i16, x: i16, y: i16, z: i16) -> i16 {
    variable(3 * a + x, 3 * b + y, z)
}

/// Each cell (x,y) holds some digit.
fn f1(family: &mut Vec<Clause>) {
    for x in 1..=9 {
        for y in 1..=9 {
            family.push(some_of((1..=9).map(|z| variable(x, y, z))));
        }
    }
}

/// Not z at both (x,y) and (i,y).
fn f2(family: &mut Vec<Clause>) {
    for y in 1..=9 {
        for z in 1..=9 {
            for x in 1..=9 {
                for i in x + 1..=9 {
                    family.push(not_both(variable(x, y, z), variable(i, y, z)));
                }
            }
        }
    }
}

/// Not z at both (x,y) and (x,i).
fn f3(family: &mut Vec<Clause>) {
    for x in 1..=9 {
        for z in 1..=9 {
            for y in 1..=9 {
                for i in y + 1..=9 {
                    family.push(not_both(variable(x, y, z), variable(x, i, z)));
                }
            }
        }
    }
}

/// Not z at two places of one box in the same row, columns y and k.
fn f4(family: &mut Vec<Clause>) {
    for z in 1..=9 {
        for a in 0..=2 {
            for b in 0..=2 {
                for x in 1..=3 {
                    for y in 1..=3 {
                        for k in y + 1..=3 {
                            family.push(not_both(in_box(a, b, x, y, z), in_box(a, b, x, k, z)));
                        }
                    }
                }
            }
        }
    }
}

/// Not z at two places of one box, rows x and k, columns y and l.
fn f5(family: &mut Vec<Clause>) {
    for z in 1..=9 {
        for a in 0..=2 {
            for b in 0..=2 {
                for x in 1..=3 {
                    for y in 1..=3 {
                        for k in x + 1..=3 {
                            for l in 1..=3 {
                                let (one, other) = (in_box(a, b, x, y, z), in_box(a, b, k, l, z));
                                family.push(not_both(one, other));
                            }
                        }
                    }
                }
            }
        }
    }
}

/// Not both z and i in one cell.
fn f6(family: &mut Vec<Clause>) {
    for x in 1..=9 {
        for y in 1..=9 {
            for z in 1..=9 {
                for i in z + 1..=9 {
                    family.push(not_both(variable(x, y, z), variable(x, y, i)));
                }
            }
        }
    }
}

/// z somewhere in column y.
fn f7(family: &mut Vec<Clause>) {
    for y in 1..=9 {
        for z in 1..=9 {
            family.push(some_of((1..=9).map(|x| variable(x, y, z))));
        }
    }
}

/// z somewhere in row x.
fn f8(family: &mut Vec<Clause>) {
    for x in 1..=9 {
        for z in 1..=9 {
            family.push(some_of((1..=9).map(|y| variable(x, y, z))));
        }
    }
}

/// z somewhere in box (a,b).
fn f9(family: &mut Vec<Clause>) {
    for z in 1..=9 {
        for a in 0..=2 {
            for b in 0..=2 {
                let places = (1..=3).flat_map(|x| (1..=3).map(move |y| (x, y)));
                family.push(some_of(places.map(|(x, y)| in_box(a, b, x, y, z))));
            }
        }
    }
}

type Family = fn(&mut Vec<Clause>);

static MINIMAL: LazyLock<Vec<Clause>> = LazyLock::new(|| joined(&[f1, f2, f3, f4, f5]));
static EXTENDED: LazyLock<Vec<Clause>> =
    LazyLock::new(|| joined(&[f1, f2, f3, f4, f5, f6, f7, f8, f9]));

fn joined(families: &[Family]) -> Vec<Clause> {
    let mut set = Vec::new();
    for family in families {
        family(&mut set);
    }
    set
}

/// Clause set 1 (minimal) or 2 (extended); refusal 43 for any other.
pub fn clause_set(set: u32) -> Result<&'static [Clause], Refusal> {
    match set {
        1 => Ok(&MINIMAL),
        2 => Ok(&EXTENDED),
        _ => Err(Refusal::new(43)),
    }
}

/// The clause call: the length, 2 or 9, with the nine lent literals filled. Refusals 43, 44, 45.
pub fn clause(set: u32, number: u32, literals: &mut [i16]) -> Result<u8, Refusal> {
    let clauses = clause_set(set)?;
    demand((number as usize) < clauses.len(), 44)?;
    demand(literals.len() == 9, 45)?;
    let clause = &clauses[number as usize];
    literals.copy_from_slice(&clause.padded);
    Ok(clause.length as u8)
}
