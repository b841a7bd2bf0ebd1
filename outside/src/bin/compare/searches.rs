//! Searches: the number of completions and both buffers on named, lent and generated grids, each as
//! it is and turned; on many published, lent and minimal grids, turned and without some of their
//! givens, so that most have several completions, and one in four damaged; and on grids that cost a
//! search much: where the reference's takes too long, beside the plain one. Refused searches: every
//! refusal at its boundaries, alone and with all others.

use crate::lent::{buffer_faults, grid_faults, Call, Lent};
use crate::Tally;
use reference::cases::{bad, named, published, slow, Grid, Random, AI_ESCARGOT};
use reference::grid::CELLS;
use reference::{plain_search, proved, search};
use std::thread;

/// Turned copies of each grid, and of each published one.
const TURNED: usize = 4;
const TURNED_PUBLISHED: usize = 20;

/// Searches without some givens from each kind of grids, and how many givens they go without at most.
const LESS: usize = 80_000;
const MOST_LESS: usize = 8;

/// Grids with few givens.
const FEW: usize = 60;

const SEARCH: Call<2> = Call {
    name: "search",
    reference: |lent, [first, second]| {
        search::search(&lent.grid, first, second).map(|completions| (completions as u8, 0))
    },
    proved: |lent, [first, second]| {
        proved::search(&lent.grid, first, second).map(|completions| (completions, 0))
    },
};

/// Beside the plain search, which `solvers` compares with public solvers.
const PLAIN_SEARCH: Call<2> = Call {
    name: "search beside the plain one",
    reference: |lent, [first, second]| {
        plain_search::search(&lent.grid, first, second).map(|completions| (completions, 0))
    },
    ..SEARCH
};

pub fn searches(grids: &[Grid], lent_grids: &[Grid]) -> Tally {
    let published = published();
    let mut random = Random(9);
    let few: Vec<Grid> = (0..FEW).map(|_| random.with_few()).collect();
    thread::scope(|scope| {
        let parts = [
            scope.spawn(|| with_less(Random(10), &published)),
            scope.spawn(|| with_less(Random(11), &few)),
            scope.spawn(|| with_less(Random(12), lent_grids)),
            scope.spawn(|| turned(Random(13), &published, TURNED_PUBLISHED)),
        ];
        let mut tally = of_all_kinds(grids);
        for part in parts {
            tally.add(part.join().expect("no comparison panics"));
        }
        tally
    })
}

/// Searches of turned grids without some of their givens, one in four with any digit in a blank.
fn with_less(mut random: Random, grids: &[Grid]) -> Tally {
    let mut tally = Tally::default();
    for grid in grids.iter().cycle().take(LESS) {
        let (turned, less) = (random.turned(grid), 1 + random.below(MOST_LESS));
        let mut grid = random.without(turned, less);
        if random.below(4) == 0 {
            grid = random.damaged(grid);
        }
        let _ = tally.call(&SEARCH, &lent(&grid));
    }
    tally
}

/// Searches of grids, each as it is and so many times turned.
fn turned(mut random: Random, grids: &[Grid], copies: usize) -> Tally {
    let mut tally = Tally::default();
    for grid in grids {
        let _ = tally.call(&SEARCH, &lent(grid));
        for _ in 0..copies {
            let _ = tally.call(&SEARCH, &lent(&random.turned(grid)));
        }
    }
    tally
}

fn of_all_kinds(grids: &[Grid]) -> Tally {
    let mut tally = Tally::default();
    let mut random = Random(6);
    let mut kinds = grid_faults().to_vec();
    kinds.extend([0, 1].map(|number| buffer_faults(number, CELLS)));
    tally.refused(
        &mut random,
        &kinds,
        |_| lent(AI_ESCARGOT),
        |tally, lent| {
            let _ = tally.call(&SEARCH, lent);
        },
    );
    tally.add(turned(random, &[grids, &named()].concat(), TURNED));
    for grid in bad() {
        let _ = tally.call(&SEARCH, &lent(&grid));
    }
    for grid in slow() {
        let _ = tally.call(&PLAIN_SEARCH, &lent(&grid));
    }
    tally
}

/// A search takes neither technique nor order nor ceiling.
fn lent(grid: &Grid) -> Lent<2> {
    Lent {
        grid: grid.to_vec(),
        technique: 0,
        order: Vec::new(),
        ceiling: 0,
        buffers: [CELLS; 2],
    }
}
