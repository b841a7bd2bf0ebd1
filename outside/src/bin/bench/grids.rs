//! The sets of grids that calls are timed on. What qqwing generates differs from run to run, and so does
//! what is made of it; all else is the same in every run.

use reference::cases::{published, Grid, Random};
use reference::grid::CELLS;
use reference::order::default_order;
use reference::plain_search::grade;
use std::process::Command;

/// Grids with few givens, and grids that qqwing generates.
const FEW: usize = 60;
const GENERATED: usize = 100;

pub struct Grids {
    /// Grids with none, one and several completions, from many blanks to as many as can be.
    pub mixed: Vec<Grid>,
    pub published: Vec<Grid>,
    /// The published grids that no technique finishes, each as it is and three times turned.
    verdict_five: Vec<Grid>,
    /// By qqwing, with one completion; none where it is not installed.
    generated: Vec<Grid>,
    few: Vec<Grid>,
    /// Of the published, those with few givens and the generated, each without some of its givens.
    several: Vec<Grid>,
    /// Of the same, each with a wrong given.
    none: Vec<Grid>,
}

impl Grids {
    pub fn new() -> Result<Grids, String> {
        let mut random = Random(5);
        let mixed = (0..8).flat_map(|round| {
            let blanks = CELLS - 3 * round;
            [
                random.with_none(blanks),
                random.with_one(blanks),
                random.with_several(blanks),
            ]
        });
        let mixed = mixed.collect();
        let published = published();
        let order = default_order();
        let is_five = |grid: &&Grid| {
            let answer = grade(&grid[..], &order, u32::MAX, &mut [0; CELLS]);
            answer.is_ok_and(|(verdict, _)| verdict == 5)
        };
        let five = published.iter().filter(is_five);
        let verdict_five = five.flat_map(|grid| {
            let turned = [(); 3].map(|()| random.turned(grid));
            [*grid, turned[0], turned[1], turned[2]]
        });
        let verdict_five = verdict_five.collect();
        let generated = by_qqwing()?;
        let few: Vec<Grid> = (0..FEW).map(|_| random.with_few()).collect();
        let all = [&published[..], &few, &generated].concat();
        let mut other = Random(6);
        Ok(Grids {
            mixed,
            published,
            verdict_five,
            generated,
            few,
            none: all.iter().map(|grid| random.spoiled(*grid)).collect(),
            several: all.iter().map(|grid| other.thinned(*grid)).collect(),
        })
    }

    /// The sets for searches, with their names.
    pub fn searched(&self) -> [(&str, &[Grid]); 6] {
        [
            ("published", &self.published),
            ("verdict 5", &self.verdict_five),
            ("generated", &self.generated),
            ("few givens", &self.few),
            ("several completions", &self.several),
            ("no completion", &self.none),
        ]
    }

    /// The sets for other programs and for gradings.
    pub fn graded(&self) -> [(&str, &[Grid]); 2] {
        [
            ("published", &self.published),
            ("generated", &self.generated),
        ]
    }
}

fn by_qqwing() -> Result<Vec<Grid>, String> {
    let mut qqwing = Command::new("qqwing");
    qqwing.args(["--generate", &GENERATED.to_string(), "--one-line"]);
    let Ok(output) = qqwing.output() else {
        println!("generated grids: qqwing is not installed");
        return Ok(Vec::new());
    };
    let lines = output.stdout.split(|&byte| byte == b'\n');
    let grids = lines.filter(|line| !line.is_empty()).map(|line| {
        let grid = Grid::try_from(line);
        grid.map_err(|_| format!("qqwing: no grid: {}", line.escape_ascii()))
    });
    grids.collect()
}
