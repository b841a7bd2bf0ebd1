//! Hunts for grids that cost the search most, by the nodes of the plain one. Arguments: the minutes to
//! hunt (default 1), a seed (default 1), and a bound (default 4000). It first measures `bad-grids` and
//! `slow-grids`. Then it climbs from turned grids of the collection, each climb among grids with as many
//! completions as its start: a few givens change, and the change stays unless the search takes markedly
//! fewer nodes. The top of a climb is a find if it takes more nodes than the bound. Finds are written
//! to standard output as the collections have them, one grid a line; figures, to standard error.

use reference::cases::{bad, slow, Grid, Random};
use reference::grid::is_given;
use reference::plain_search::Search;
use std::env;
use std::time::{Duration, Instant};

/// Changes without a new top after which a climb ends.
const PATIENCE: usize = 500;

/// The part of the nodes that a change may lose at the start of a climb, and what is left of it from
/// change to change: small losses lead out of low tops.
const SLACK: f64 = 0.1;
const SLACK_LEFT: f64 = 0.997;

/// Nodes after which a search is left: a grid that takes as many is a find by itself.
const MOST_NODES: usize = 200_000;

/// A grid with the number of its completions and the nodes that its search takes.
struct Cost {
    grid: Grid,
    completions: usize,
    nodes: usize,
}

impl Cost {
    fn of(grid: Grid) -> Cost {
        let search = Search::within(&grid, MOST_NODES);
        Cost {
            grid,
            completions: search.found.len(),
            nodes: search.count.nodes,
        }
    }

    /// The shortest of five times.
    fn time(&self) -> Duration {
        let times = [(); 5].map(|()| {
            let start = Instant::now();
            Search::within(&self.grid, MOST_NODES);
            start.elapsed()
        });
        times.into_iter().min().unwrap_or_default()
    }

    fn report(&self, name: &str) {
        let (nodes, time) = (self.nodes, 1e3 * self.time().as_secs_f64());
        eprintln!("{name}: {nodes} nodes, {time:.2} ms");
    }
}

fn main() -> Result<(), String> {
    let mut numbers = env::args().skip(1).map(|word| {
        let number = word.parse();
        number.map_err(|error| format!("{word}: {error}"))
    });
    let minutes = numbers.next().unwrap_or(Ok(1))?;
    let mut random = Random(numbers.next().unwrap_or(Ok(1))?);
    let bound = numbers.next().unwrap_or(Ok(4_000))? as usize;

    let collection = [bad(), slow()].concat();
    let collection: Vec<Cost> = collection.into_iter().map(Cost::of).collect();
    for (completions, kind) in ["none", "one", "several"].into_iter().enumerate() {
        let of_kind = || {
            collection
                .iter()
                .filter(|cost| cost.completions == completions)
        };
        if let Some(top) = of_kind().max_by_key(|cost| cost.nodes) {
            top.report(&format!(
                "{} grids with {kind}, the worst",
                of_kind().count()
            ));
        }
    }

    let end = Instant::now() + Duration::from_secs(60 * minutes);
    let (mut climbs, mut finds, mut grids) = (0, 0, 0);
    while Instant::now() < end {
        let known = collection[random.below(collection.len())].grid;
        let top = climb(&mut random, &known, end, &mut grids);
        climbs += 1;
        if top.nodes > bound {
            finds += 1;
            println!("{}", String::from_utf8_lossy(&top.grid));
            top.report(&format!("found, {} completions", top.completions));
        }
    }
    eprintln!("{climbs} climbs over {grids} grids, {finds} finds");
    Ok(())
}

fn climb(random: &mut Random, known: &Grid, end: Instant, grids: &mut usize) -> Cost {
    let mut top = Cost::of(random.turned(known));
    let (mut grid, mut nodes) = (top.grid, top.nodes);
    let (mut slack, mut without_gain) = (SLACK, 0);
    while without_gain < PATIENCE && top.nodes < MOST_NODES && Instant::now() < end {
        let mut changed = grid;
        for _ in 0..=random.below(3) {
            change(random, &mut changed);
        }
        let next = Cost::of(changed);
        *grids += 1;
        slack *= SLACK_LEFT;
        without_gain += 1;
        let least = nodes as f64 * (1.0 - slack);
        if next.completions != top.completions || (next.nodes as f64) < least {
            continue;
        }
        (grid, nodes) = (next.grid, next.nodes);
        if nodes > top.nodes {
            top = next;
            without_gain = 0;
        }
    }
    top
}

/// A given leaves, comes, changes its digit, moves to a blank or changes places with another; or the
/// whole grid is turned.
fn change(random: &mut Random, grid: &mut Grid) {
    let cells = 0..grid.len();
    let (givens, blanks): (Vec<usize>, Vec<usize>) = cells.partition(|&cell| is_given(grid[cell]));
    let digit = b'1' + random.below(9) as u8;
    let mut any = |cells: &[usize]| (!cells.is_empty()).then(|| cells[random.below(cells.len())]);
    let (given, other, blank) = (any(&givens), any(&givens), any(&blanks));
    match (random.below(8), given, other, blank) {
        (0, Some(given), ..) => grid[given] = b'.',
        (1, .., Some(blank)) => grid[blank] = digit,
        (2 | 3, Some(given), ..) => grid[given] = digit,
        (4 | 5, Some(given), _, Some(blank)) => grid.swap(given, blank),
        (6, Some(given), Some(other), _) => grid.swap(given, other),
        _ => *grid = random.turned(grid),
    }
}
