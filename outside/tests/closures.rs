//! The unit closure against its definition as the least set of literals, taken word for word.

use reference::cases::{named, Random};
use reference::clauses::{clause_set, Clause};
use reference::closure::{close, unsatisfied, Contradiction, State};
use reference::grid::givens;
use std::collections::BTreeSet;

/// The least set of literals, built further after both signs of a variable are in.
fn least_set(clauses: &[Clause], literals: &[i16]) -> BTreeSet<i16> {
    let mut set: BTreeSet<i16> = literals.iter().copied().collect();
    loop {
        let before = set.len();
        for clause in clauses {
            for &remaining in clause.literals() {
                let mut others = clause
                    .literals()
                    .iter()
                    .filter(|&&other| other != remaining);
                if others.all(|other| set.contains(&-other)) {
                    set.insert(remaining);
                }
            }
        }
        if set.len() == before {
            return set;
        }
    }
}

fn closed(clauses: &[Clause], literals: &[i16]) -> Result<BTreeSet<i16>, Contradiction> {
    let mut state = State::of(literals);
    close(clauses, &mut state)?;
    let marks = (1..).zip(state.marks);
    let set: BTreeSet<i16> = marks
        .filter(|&(_, mark)| mark != 0)
        .map(|(v, mark)| if mark == 1 { v } else { -v })
        .collect();
    assert_eq!(set.len(), state.decided);
    Ok(set)
}

#[test]
fn closure_is_the_least_set() {
    let mut random = Random(4);
    let mut starts: Vec<Vec<i16>> = named().iter().map(|grid| givens(grid)).collect();
    for round in 0..12 {
        starts.push(givens(&random.with_none(40 + round)));
        starts.push(givens(&random.with_several(40 + round)));
        // Any literals over distinct variables, negative ones too.
        let mut variables: Vec<i16> = (1..=729).collect();
        random.shuffle(&mut variables);
        variables.truncate(60 * round);
        let negative = variables.iter().map(|v| -v).collect();
        starts.push(negative);
    }
    let mut contradictions = 0;
    for start in &starts {
        for set in [1, 2] {
            let clauses = clause_set(set).unwrap();
            let expected = least_set(clauses, start);
            let contradiction = expected.iter().any(|literal| expected.contains(&-literal));
            contradictions += usize::from(contradiction);
            let answer = if contradiction {
                Err(Contradiction)
            } else {
                Ok(expected)
            };
            assert_eq!(
                closed(clauses, start),
                answer,
                "set {set}, literals {start:?}"
            );
        }
    }
    // Both kinds are among the cases.
    assert!(contradictions >= 10 && contradictions + 10 <= 2 * starts.len());
}

/// Leaving out satisfied clauses changes no closure of a larger state.
#[test]
fn satisfied_clauses_add_nothing() {
    let mut random = Random(5);
    for round in 0..12 {
        let grid = random.with_one(45 + round);
        for set in [1, 2] {
            let clauses = clause_set(set).unwrap();
            let mut state = State::of(&givens(&grid));
            close(clauses, &mut state).expect("the grid has a completion");
            let live = unsatisfied(clauses, &state);
            assert!(live.len() < clauses.len());
            for literal in random.order() {
                if !state.decides(literal) {
                    let (mut one, mut other) = (state.clone(), state.clone());
                    one.join(literal);
                    other.join(literal);
                    let answers = (close(clauses, &mut one), close(&live, &mut other));
                    assert_eq!(answers.0, answers.1);
                    assert!(answers.0.is_err() || one == other);
                }
            }
        }
    }
}
