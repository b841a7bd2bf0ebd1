//! Searches: beside plain Rust of the same steps, beside a search by unit closures and a program of
//! bit masks, both in plain Rust, and beside two installed programs. Their start, their reading and
//! their output count; cadical gets a formula to find a completion and one with that blocked.

use crate::{ended, least, row, same_answers, time, times, Answer, Call};
use reference::cases::{bad, slow, Grid, SLOW_BEFORE};
use reference::dimacs::{blocking, write};
use reference::grid::CELLS;
use reference::refusal::Refusal;
use reference::{closure_search, masks, plain_search, proved};
use std::fs::File;
use std::path::Path;
use std::process::{Command, Stdio};
use std::time::Instant;
use std::{fs, io};

/// How long qqwing gets for a set of grids, in nanoseconds, so that its start is of no account.
const QQWING: f64 = 1e9;

/// How often each side searches each grid that costs much.
const RUNS: usize = 7;

type SearchCall = fn(&[u8], &mut [u8], &mut [u8]) -> Result<u8, Refusal>;

const PROVED: Call = &|grid, buffer| searched(proved::search, grid, buffer);
const PLAIN: Call = &|grid, buffer| searched(plain_search::search, grid, buffer);
const CLOSURES: Call = &|grid, buffer| filled(&closure_search::smallest_two(grid), buffer);
const MASKS: Call = &|grid, buffer| filled(&masks::smallest_two(grid), buffer);

/// A search that writes both completions into one buffer.
fn searched(search: SearchCall, grid: &Grid, buffer: &mut [u8]) -> Answer {
    let (first, second) = buffer.split_at_mut(CELLS);
    search(grid, first, second).map(|completions| (completions, 0))
}

fn filled(found: &[Grid], buffer: &mut [u8]) -> Answer {
    for (place, part) in buffer.chunks_exact_mut(CELLS).enumerate() {
        part.copy_from_slice(found.get(place).unwrap_or(&[0; CELLS]));
    }
    Ok((found.len() as u8, 0))
}

pub fn beside_plain(name: &str, grids: &[Grid]) -> Result<(), String> {
    let name = format!("searches, {name}");
    let calls = [PROVED, PLAIN, CLOSURES, MASKS];
    let [ours, theirs @ ..] = times(&name, grids, 2 * CELLS, calls)?;
    for (beside, theirs) in ["plain", "closures", "masks"].into_iter().zip(theirs) {
        row(&name, "search", ours, beside, theirs);
    }
    Ok(())
}

/// Each side's longest search of those on grids that cost much: those made for the search before, and
/// those that hunts for this one found.
pub fn slowest() -> Result<(), String> {
    let slow = slow();
    let (before, found) = slow.split_at(SLOW_BEFORE);
    slowest_of(&[&bad(), before].concat(), "bad grids")?;
    slowest_of(found, "grids hunted")
}

fn slowest_of(grids: &[Grid], kind: &str) -> Result<(), String> {
    let name = format!("slowest search of {} {kind}", grids.len());
    let calls = [PROVED, PLAIN, CLOSURES];
    let mut slowest = [0f64; 3];
    for grid in grids {
        same_answers(&name, grid, 2 * CELLS, calls)?;
        let sides = calls.map(|call| move || time(&[*grid], 2 * CELLS, call, 1));
        for (slowest, least) in slowest.iter_mut().zip(least(RUNS, sides)) {
            *slowest = slowest.max(least);
        }
    }
    let [ours, plain, closures] = slowest;
    row(&name, "search", ours, "plain", plain);
    row(&name, "search", ours, "closures", closures);
    Ok(())
}

/// The proved search and `qqwing --solve` on the same grids, as often as fills qqwing's time. Of
/// several completions it gives any one.
pub fn beside_qqwing(name: &str, grids: &[Grid], folder: &Path) -> io::Result<()> {
    if Command::new("qqwing").arg("--version").output().is_err() {
        println!("searches, {name}: qqwing is not installed");
        return Ok(());
    }
    let once = qqwing_time(grids, 1, folder)?;
    let rounds = (QQWING / (once * grids.len() as f64)).max(1.0) as usize;
    let qqwing = qqwing_time(grids, rounds, folder)?;
    let ours = time(grids, 2 * CELLS, PROVED, rounds);
    let name = format!("searches, {name}");
    row(&name, "search", ours, "qqwing", qqwing);
    Ok(())
}

/// The nanoseconds of qqwing for one grid, over all grids in some rounds, read from a file.
fn qqwing_time(grids: &[Grid], rounds: usize, folder: &Path) -> io::Result<f64> {
    let lines: Vec<u8> = grids
        .iter()
        .flat_map(|grid| [grid, &b"\n"[..]].concat())
        .collect();
    let path = folder.join("grids");
    fs::write(&path, lines.repeat(rounds))?;
    let start = Instant::now();
    let status = Command::new("qqwing")
        .args(["--solve", "--one-line"])
        .stdin(File::open(&path)?)
        .stdout(Stdio::null())
        .status()?;
    let time = start.elapsed().as_nanos() as f64;
    ended(status, &[0])?;
    Ok(time / (rounds * grids.len()) as f64)
}

/// The proved search and cadical on the same grids.
pub fn beside_cadical(name: &str, grids: &[Grid], folder: &Path) -> io::Result<()> {
    if Command::new("cadical").arg("--version").output().is_err() {
        println!("searches, {name}: cadical is not installed");
        return Ok(());
    }
    let path = folder.join("formula");
    let mut cadical = 0.0;
    for grid in grids {
        let mut first = [0; CELLS];
        let found = proved::search(grid, &mut first, &mut [0; CELLS]);
        let blocked = [blocking(&first)];
        let formulas = [&[][..], &blocked[..]];
        for added in formulas.into_iter().take(1 + usize::from(found != Ok(0))) {
            let formula = write(2, grid, added).map_err(|_| io::ErrorKind::InvalidInput)?;
            fs::write(&path, formula)?;
            let start = Instant::now();
            let status = Command::new("cadical")
                .arg("-q")
                .arg(&path)
                .stdout(Stdio::null())
                .status()?;
            cadical += start.elapsed().as_nanos() as f64;
            ended(status, &[10, 20])?;
        }
    }
    let name = format!("searches, {name}");
    let ours = time(grids, 2 * CELLS, PROVED, 1);
    row(
        &name,
        "search",
        ours,
        "cadical",
        cadical / grids.len() as f64,
    );
    Ok(())
}
