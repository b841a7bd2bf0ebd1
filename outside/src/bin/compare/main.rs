//! Compares the proved library with the reference: the clause call, the grid check, the completion
//! test, jobs, searches, gradings, batches, job files and the lines of listings, each on well-formed and
//! on broken input; and the program `gradelist`, which the variable GRADELIST names. A file of grids,
//! one a line, may be named as the argument; jobs, searches, gradings, batches and listings run on them
//! too. It prints the number of cases of each kind and the first difference with its input; the exit
//! status is 1 at any difference.

mod batches;
mod gradings;
mod jobfiles;
mod jobs;
mod lent;
mod listings;
mod searches;

use lent::Twice;
use reference::cases::{named, Grid, Random};
use reference::clauses;
use reference::grid::{self, CELLS};
use reference::proved;
use reference::search::smallest_two;
use std::collections::BTreeMap;
use std::fmt::Debug;
use std::path::Path;
use std::process::ExitCode;
use std::{env, fs, io, iter, thread};

#[derive(Default)]
struct Tally {
    cases: usize,
    differences: usize,
    first: Option<String>,
    /// The number of calls by the reference's answer or refusal, where they are told apart.
    answers: BTreeMap<u8, usize>,
}

impl Tally {
    /// Counts one case; `input` describes it if the answers differ.
    fn case<A: Debug + PartialEq>(
        &mut self,
        proved: A,
        reference: A,
        input: impl FnOnce() -> String,
    ) {
        self.cases += 1;
        if proved != reference {
            self.differences += 1;
            self.first.get_or_insert_with(|| {
                format!("{}: proved {proved:?}, reference {reference:?}", input())
            });
        }
    }

    /// Counts the cases of another tally too.
    fn add(&mut self, other: Tally) {
        self.cases += other.cases;
        self.differences += other.differences;
        self.first = self.first.take().or(other.first);
        for (number, calls) in other.answers {
            *self.answers.entry(number).or_default() += calls;
        }
    }

    /// Counts one answer of the reference.
    fn answered(&mut self, number: u8) {
        *self.answers.entry(number).or_default() += 1;
    }
}

/// Rounds of generated grids, one of each kind a round.
const ROUNDS: usize = 260;

fn main() -> Result<ExitCode, String> {
    let program = env::var_os("GRADELIST").ok_or("set GRADELIST to the path of the program")?;
    let lent = env::args().nth(1).map_or(Ok(Vec::new()), read_grids)?;
    let mut grids = generated(&mut Random(4));
    grids.extend(&lent);
    let tallies = thread::scope(|scope| {
        let jobs = scope.spawn(|| jobs::jobs(&grids));
        let gradings = scope.spawn(|| gradings::gradings(&grids));
        let batches = scope.spawn(|| batches::batches(&grids));
        let listings = scope.spawn(|| listings::listings(&grids, Path::new(&program)));
        let searches = searches::searches(&grids, &lent);
        let ended = "no comparison panics";
        let [lines, runs] = listings.join().expect(ended)?;
        io::Result::Ok([
            ("clause calls", clause_calls()),
            ("grid checks", grid_checks()),
            ("completion tests by answer or refusal", completion_tests()),
            ("jobs by outcome or refusal", jobs.join().expect(ended)),
            ("searches by answer or refusal", searches),
            (
                "gradings by verdict or refusal",
                gradings.join().expect(ended),
            ),
            (
                "batches, with jobs by outcome, or by refusal",
                batches.join().expect(ended),
            ),
            ("job files by technique or refusal", jobfiles::job_files()),
            ("lines of listings by verdict or refusal", lines),
            ("runs of gradelist, with lines by verdict or refusal", runs),
        ])
    });
    let tallies = tallies.map_err(|error| format!("gradelist: {error}"))?;
    println!("compare, with {} lent grids:", lent.len());
    for (name, tally) in &tallies {
        println!("{} {name} {:?}", tally.cases, tally.answers);
    }
    let differences: usize = tallies.iter().map(|(_, tally)| tally.differences).sum();
    println!("{differences} differences");
    let first = tallies.into_iter().find_map(|(_, tally)| tally.first);
    Ok(match first {
        None => ExitCode::SUCCESS,
        Some(first) => {
            println!("first difference: {first}");
            ExitCode::FAILURE
        }
    })
}

/// Grids with none, one and several completions, from few blanks to as many as can be.
fn generated(random: &mut Random) -> Vec<Grid> {
    let mut grids = Vec::new();
    for blanks in (0..ROUNDS).map(|round| 20 + round % 62) {
        grids.push(random.with_none(blanks));
        grids.push(random.with_one(blanks));
        grids.push(random.with_several(blanks));
        let full = random.full();
        grids.push(random.blanked(full, blanks));
    }
    grids
}

/// The grids of a file, one a line.
fn read_grids(path: String) -> Result<Vec<Grid>, String> {
    let text = fs::read(&path).map_err(|error| format!("{path}: {error}"))?;
    let lines = text.strip_suffix(b"\n").unwrap_or(&text);
    let grids = lines.split(|&byte| byte == b'\n').map(|line| {
        let grid = Grid::try_from(line).ok();
        grid.filter(|grid| grid::check(grid).is_ok())
            .ok_or_else(|| format!("{path}: no grid: {}", shown(line)))
    });
    grids.collect()
}

const SETS: [u32; 11] = [0, 1, 2, 3, 4, 255, 256, 257, 258, 65_537, u32::MAX];

/// Where the families begin, and where the sets end.
const LIMITS: [u32; 10] = [
    0, 81, 2_997, 5_913, 6_642, 8_829, 11_745, 11_826, 11_907, 11_988,
];

/// What a lent buffer holds before the call: a literal, a number that is none, and the zero of the
/// padding.
const FILLS: [i16; 3] = [365, -21_846, 0];

fn clause_calls() -> Tally {
    let mut tally = Tally::default();
    for set in [1, 2] {
        for number in 0..=12_100 {
            clause_call(&mut tally, set, number, 9);
        }
    }
    let far = [
        0,
        1 << 8,
        1 << 15,
        1 << 16,
        1 << 24,
        1 << 31,
        u32::MAX - 12_100,
    ];
    let near_limits = |base: u32| LIMITS.map(|limit| base.wrapping_add(limit));
    let mut numbers: Vec<u32> = far
        .into_iter()
        .flat_map(near_limits)
        .chain([1 << 16, 1 << 31, u32::MAX])
        .flat_map(|centre| (-3..=3).map(move |step| centre.wrapping_add_signed(step)))
        .collect();
    numbers.sort_unstable();
    numbers.dedup();
    for set in SETS {
        for &number in &numbers {
            for length in (0..=20).chain([27, 81, 128, 265, 729, 1_458]) {
                clause_call(&mut tally, set, number, length);
            }
        }
    }
    tally
}

/// One clause call over each fill. The buffers are compared with their guards.
fn clause_call(tally: &mut Tally, set: u32, number: u32, length: usize) {
    for fill in FILLS {
        let mut literals = Twice::new(length, iter::repeat(fill));
        let reference = clauses::clause(set, number, literals.ours());
        let proved = proved::clause(set, number, literals.theirs());
        let [our, their] = literals.first_differing();
        tally.case((proved, their), (reference, our), || {
            format!("clause call, set {set}, number {number}, {length} literals of {fill}")
        });
    }
}

fn grid_checks() -> Tally {
    let mut tally = Tally::default();
    let mut random = Random(2);
    let mut check = |bytes: &[u8]| {
        let reference = grid::check(bytes);
        tally.case(proved::check_grid(bytes), reference, || {
            format!("grid check, {}", shown(bytes))
        });
    };
    for length in (0..=200).chain([255, 256, 257, 337, 1_000, 10_000, 65_617]) {
        for fill in *b".0159:/ \0\xff" {
            check(&vec![fill; length]);
        }
    }
    for place in 0..CELLS {
        for byte in 0..=255 {
            let full = random.full();
            let mut grid = random.blanked(full, 40);
            grid[place] = byte;
            check(&grid);
        }
    }
    for round in 0..20_000 {
        let full = random.full();
        let mut grid = random.blanked(full, round % 82);
        for _ in 0..random.below(5) {
            grid[random.below(CELLS)] = random.word() as u8;
        }
        check(&grid);
        let bytes: Vec<u8> = (0..random.below(164))
            .map(|_| random.word() as u8)
            .collect();
        check(&bytes);
    }
    tally
}

fn completion_tests() -> Tally {
    let mut tally = Tally::default();
    let mut random = Random(3);
    let mut test = |grid: &[u8], candidate: &[u8]| {
        let reference = grid::is_completion(grid, candidate);
        tally.case(proved::is_completion(grid, candidate), reference, || {
            format!(
                "completion test, grid {}, candidate {}",
                shown(grid),
                shown(candidate)
            )
        });
        tally.answered(reference.map_or_else(|refusal| refusal.number, u8::from));
    };
    for round in 0..4_000 {
        let full = random.full();
        let grid = random.blanked(full, round % 82);
        test(&grid, &full);
        test(&full, &grid);
        test(&grid, &random.full());
        test(&[b'.'; CELLS], &full);

        // One byte of the candidate changed, then one of the grid: a digit, a blank, any byte.
        let place = random.below(CELLS);
        for byte in [
            b'1' + random.below(9) as u8,
            b'0',
            b'.',
            random.word() as u8,
        ] {
            let (mut candidate, mut other) = (full, grid);
            candidate[place] = byte;
            other[place] = byte;
            test(&grid, &candidate);
            test(&other, &full);
            test(&other, &candidate);
            test(&[b'0'; CELLS], &candidate);
        }

        // Two cells swapped, two rows of a band, and two digits throughout.
        let mut cells = full;
        cells.swap(place, random.below(CELLS));
        let rows: [u8; CELLS] = std::array::from_fn(|cell| full[(cell + 9) % 27 + cell / 27 * 27]);
        let digits = full.map(|byte| {
            if byte > b'2' {
                byte
            } else {
                b'3' - (byte - b'0')
            }
        });
        for candidate in [cells, rows, digits] {
            test(&grid, &candidate);
            test(&[b'.'; CELLS], &candidate);
        }

        // Squares in which one kind of house is wrong and the other two are right: boxes, columns,
        // rows.
        let shift = random.below(9);
        let wrong_houses: [fn(usize, usize) -> usize; 3] =
            [|x, y| x + y, |x, y| 3 * (x % 3) + y, |x, y| 3 * (y % 3) + x];
        for digit in wrong_houses {
            let square: [u8; CELLS] =
                std::array::from_fn(|cell| b'1' + ((digit(cell / 9, cell % 9) + shift) % 9) as u8);
            test(&[b'0'; CELLS], &square);
        }

        let long = [&full[..], &full[..]].concat();
        let (short, longer) = (random.below(CELLS), CELLS + 1 + random.below(CELLS));
        for length in [short, longer] {
            test(&grid, &long[..length]);
            test(&long[..length], &full);
            test(&long[..length], &long[..length]);
        }
        let bytes: Vec<u8> = (0..CELLS).map(|_| random.word() as u8).collect();
        test(&grid, &bytes);
        test(&bytes, &full);
        test(&bytes[..short], &full);
    }
    for grid in named() {
        for completion in smallest_two(&grid) {
            test(&grid, &completion);
        }
    }
    tally
}

/// The bytes as text, with escapes; of a long input only the start.
fn shown(bytes: &[u8]) -> String {
    let start = &bytes[..bytes.len().min(2 * CELLS)];
    let more = if start.len() < bytes.len() { ".." } else { "" };
    format!("\"{}\"{more} ({} bytes)", start.escape_ascii(), bytes.len())
}
