//! Times the proved calls and prints a table of times, ours beside another program's, with their
//! ratio: each side's least over interleaved repetitions. It checks first that all sides give equal
//! answers; no figure makes it fail. Clause calls, jobs by technique, searches and gradings stand
//! beside plain Rust of the same steps, jobs with trials beside a simple loop too. Searches stand
//! beside two other searches in plain Rust, beside qqwing, and beside cadical, where these are
//! installed. Last, the program that the environment names as GRADELIST grades files of lines.

mod grids;
mod listings;
mod searches;

use grids::Grids;
use reference::cases::{Grid, AI_ESCARGOT, FIGURE_FIVE};
use reference::clauses::clause_set;
use reference::grid::{CELLS, VARIABLES};
use reference::order::default_order;
use reference::refusal::Refusal;
use reference::{plain, plain_job, plain_search, proved, simple_job};
use std::hint::black_box;
use std::path::Path;
use std::process::{self, ExitStatus};
use std::time::Instant;
use std::{env, fs, io};

/// Rounds over all clauses.
const ROUNDS: usize = 200;
const REPETITIONS: usize = 15;

/// How long one repetition on grids takes, in nanoseconds, as far as whole rounds allow.
const REPETITION: f64 = 2e7;

type ClauseCall = fn(u32, u32, &mut [i16]) -> u64;

/// What a call on a grid answers: the outcome, the verdict or the number of completions, with the
/// count of trials.
type Answer = Result<(u8, u32), Refusal>;

/// A call on a grid that writes a buffer.
type Call<'a> = &'a dyn Fn(&Grid, &mut [u8]) -> Answer;

/// A job call.
type JobCall = fn(&[u8], u32, &[i16], u32, &mut [u8]) -> Answer;

/// A row of the table, its times in nanoseconds.
fn row(what: &str, each: &str, ours: f64, beside: &str, theirs: f64) {
    println!(
        "{what:<36} {each:<7} {:>10} {:>12.1}   {beside:<9} {:>10} {:>7.3}",
        shown(ours),
        1e9 / ours,
        shown(theirs),
        ours / theirs
    );
}

fn shown(nanoseconds: f64) -> String {
    match nanoseconds {
        less if less < 1e3 => format!("{less:.1} ns"),
        less if less < 1e6 => format!("{:.2} µs", less / 1e3),
        more => format!("{:.2} ms", more / 1e6),
    }
}

fn main() -> Result<(), String> {
    let folder = env::temp_dir().join(format!("reference-bench-{}", process::id()));
    let told = |error: io::Error| format!("temporary folder: {error}");
    fs::create_dir_all(&folder).map_err(told)?;
    let answer = table(&folder);
    let removed = fs::remove_dir_all(&folder).map_err(told);
    answer.and(removed)
}

/// Prints the table. The files that programs read and write stand in the folder.
fn table(folder: &Path) -> Result<(), String> {
    println!(
        "{:<36} {:<7} {:>10} {:>12}   {:<9} {:>10} {:>7}",
        "what", "each", "ours", "a second", "beside", "theirs", "ratio"
    );
    clauses()?;
    let grids = Grids::new()?;
    for technique in 1..=4 {
        jobs("AI Escargot", &[*AI_ESCARGOT], technique)?;
        jobs("figure 5", &FIGURE_FIVE.map(|grid| *grid), technique)?;
        jobs("mixed", &grids.mixed, technique)?;
    }
    jobs_beside("published", &grids.published, 4, "plain", plain_job::job)?;
    jobs_beside("published", &grids.published, 4, "simple", simple_job::job)?;
    let filled = |(_, set): &(&str, &[Grid])| !set.is_empty();
    for (name, set) in grids.searched().into_iter().filter(filled) {
        searches::beside_plain(name, set)?;
    }
    searches::slowest()?;
    for (name, set) in grids.graded().into_iter().filter(filled) {
        searches::beside_qqwing(name, set, folder).map_err(|error| format!("qqwing: {error}"))?;
        searches::beside_cadical(name, set, folder).map_err(|error| format!("cadical: {error}"))?;
        gradings(name, set)?;
    }
    listings::listings(&grids.published, folder).map_err(|error| format!("gradelist: {error}"))
}

/// The least of each side's times over interleaved repetitions.
fn least<const N: usize>(repetitions: usize, sides: [impl Fn() -> f64; N]) -> [f64; N] {
    let mut least = [f64::MAX; N];
    for _ in 0..repetitions {
        for (least, side) in least.iter_mut().zip(&sides) {
            *least = least.min(side());
        }
    }
    least
}

fn clauses() -> Result<(), String> {
    let sizes = [1, 2].map(|set| clause_set(set).map_or(0, |clauses| clauses.len() as u32));
    let calls: [ClauseCall; 2] = [proved::packed_clause, plain::clause];
    for (set, size) in (1..).zip(sizes) {
        for number in 0..size {
            let answers = calls.map(|call| {
                let mut literals = [1; 9];
                (call(set, number, &mut literals), literals)
            });
            if answers[0] != answers[1] {
                return Err(format!(
                    "set {set}, number {number}: proved and plain differ: {answers:?}"
                ));
            }
        }
    }
    let proved = || clause_time(sizes, proved::packed_clause);
    let plain = || clause_time(sizes, plain::clause);
    let sides: [&dyn Fn() -> f64; 2] = [&proved, &plain];
    let [proved, plain] = least(REPETITIONS, sides);
    row("clauses of both sets", "call", proved, "plain", plain);
    Ok(())
}

/// The nanoseconds of one call, over all numbers of both sets in many rounds. Generic over the
/// call, so that each side is a direct call.
fn clause_time(sizes: [u32; 2], call: impl Fn(u32, u32, &mut [i16]) -> u64) -> f64 {
    let mut literals = [0; 9];
    let start = Instant::now();
    for _ in 0..ROUNDS {
        for (set, size) in (1..).zip(sizes) {
            for number in 0..size {
                black_box(call(
                    black_box(set),
                    black_box(number),
                    black_box(&mut literals),
                ));
            }
        }
    }
    let calls = ROUNDS as f64 * f64::from(sizes[0] + sizes[1]);
    start.elapsed().as_nanos() as f64 / calls
}

/// Times the proved call and others on some grids, in nanoseconds a call. The calls write a buffer of
/// `length` bytes.
fn times<const N: usize>(
    name: &str,
    grids: &[Grid],
    length: usize,
    calls: [Call; N],
) -> Result<[f64; N], String> {
    for grid in grids {
        same_answers(name, grid, length, calls)?;
    }
    let rounds = calls.map(|call| {
        let once = time(grids, length, call, 1) * grids.len() as f64;
        (REPETITION / once).max(1.0) as usize
    });
    let sides = std::array::from_fn(|side| move || time(grids, length, calls[side], rounds[side]));
    Ok(least(REPETITIONS, sides))
}

/// An error, unless the calls give equal answers and bytes.
fn same_answers<const N: usize>(
    name: &str,
    grid: &Grid,
    length: usize,
    calls: [Call; N],
) -> Result<(), String> {
    let answers = calls.map(|call| {
        let mut buffer = vec![77; length];
        (call(grid, &mut buffer), buffer)
    });
    match answers.iter().position(|answer| *answer != answers[0]) {
        None => Ok(()),
        Some(other) => Err(format!(
            "{name}: proved {:?} and beside it {:?}, or their buffers, differ on {}",
            answers[0].0,
            answers[other].0,
            String::from_utf8_lossy(grid)
        )),
    }
}

/// The nanoseconds of one call, over all grids in some rounds.
fn time(grids: &[Grid], length: usize, call: Call, rounds: usize) -> f64 {
    let mut buffer = vec![0; length];
    let start = Instant::now();
    for _ in 0..rounds {
        for grid in grids {
            let _ = black_box(call(black_box(grid), black_box(&mut buffer)));
        }
    }
    start.elapsed().as_nanos() as f64 / (rounds * grids.len()) as f64
}

/// Jobs of one technique on some grids beside the plain ones, and those with trials beside the
/// simple loop too.
fn jobs(name: &str, grids: &[Grid], technique: u32) -> Result<(), String> {
    jobs_beside(name, grids, technique, "plain", plain_job::job)?;
    if technique > 2 {
        jobs_beside(name, grids, technique, "simple", simple_job::job)?;
    }
    Ok(())
}

/// Jobs under the default order and no ceiling.
fn jobs_beside(
    name: &str,
    grids: &[Grid],
    technique: u32,
    beside: &str,
    call: JobCall,
) -> Result<(), String> {
    let order = default_order();
    let name = format!("technique {technique}, {name}");
    let job = |call: JobCall| {
        let order = &order;
        move |grid: &Grid, marks: &mut [u8]| call(grid, technique, order, u32::MAX, marks)
    };
    let calls: [Call; 2] = [&job(proved::job), &job(call)];
    let [ours, theirs] = times(&name, grids, VARIABLES, calls)?;
    row(&name, "job", ours, beside, theirs);
    let trials = grids.iter().map(|grid| {
        let answer = calls[0](grid, &mut [0; VARIABLES]);
        answer.map_or(0.0, |(_, count)| f64::from(count))
    });
    let trials = trials.sum::<f64>() / grids.len() as f64;
    if trials > 0.0 {
        row(&name, "trial", ours / trials, beside, theirs / trials);
    }
    Ok(())
}

/// Gradings under the default order and no ceiling.
fn gradings(name: &str, grids: &[Grid]) -> Result<(), String> {
    let order = default_order();
    let name = format!("gradings, {name}");
    let proved: Call = &|grid, completion| proved::grade(grid, &order, u32::MAX, completion);
    let plain: Call = &|grid, completion| plain_search::grade(grid, &order, u32::MAX, completion);
    let [ours, theirs] = times(&name, grids, CELLS, [proved, plain])?;
    row(&name, "grading", ours, "plain", theirs);
    Ok(())
}

/// An error, unless a program has ended with one of these statuses.
fn ended(status: ExitStatus, expected: &[i32]) -> io::Result<()> {
    match status.code() {
        Some(code) if expected.contains(&code) => Ok(()),
        _ => Err(io::Error::other(format!("ended with {status}"))),
    }
}
