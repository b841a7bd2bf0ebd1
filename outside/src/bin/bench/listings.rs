//! The program that the environment names as GRADELIST, on files of lines.

use crate::{ended, row};
use reference::cases::Grid;
use reference::listing::gradelist;
use std::fs::File;
use std::path::Path;
use std::process::Command;
use std::thread::sleep;
use std::time::{Duration, Instant};
use std::{env, fs, io};

/// Lines of which the reference makes a listing too.
const LINES: usize = 100;

/// The program on ever longer files, with the most memory that it holds, and on the shortest beside
/// the reference's listing, which must be the same.
pub fn listings(grids: &[Grid], folder: &Path) -> io::Result<()> {
    let Ok(program) = env::var("GRADELIST") else {
        println!("gradelist: the environment names no program");
        return Ok(());
    };
    let [input, output] = ["lines", "listing"].map(|name| folder.join(name));
    let lines = |count: usize| -> Vec<u8> {
        let grids = grids.iter().cycle().take(count);
        grids.flat_map(|grid| [grid, &b"\n"[..]].concat()).collect()
    };
    for count in [LINES, 10 * LINES, 100 * LINES] {
        fs::write(&input, lines(count))?;
        let (seconds, memory) = program_time(&program, &input, &output)?;
        println!(
            "gradelist, published, {count} lines: {:.2} s, {:.1} lines a second, {memory} kB at most",
            seconds,
            count as f64 / seconds
        );
        if count == LINES {
            let start = Instant::now();
            let listing = gradelist(&lines(count));
            let reference = start.elapsed().as_nanos() as f64 / count as f64;
            if fs::read(&output)? != listing.as_bytes() {
                return Err(io::Error::other("another listing than the reference's"));
            }
            let ours = 1e9 * seconds / count as f64;
            row("gradelist, published", "line", ours, "reference", reference);
        }
    }
    Ok(())
}

/// The seconds of a run, and the most memory that was seen in it, in kB.
fn program_time(program: &str, input: &Path, output: &Path) -> io::Result<(f64, usize)> {
    let start = Instant::now();
    let mut child = Command::new(program)
        .stdin(File::open(input)?)
        .stdout(File::create(output)?)
        .spawn()?;
    let about = format!("/proc/{}/status", child.id());
    let mut memory = 0;
    let status = loop {
        if let Some(status) = child.try_wait()? {
            break status;
        }
        let text = fs::read_to_string(&about).unwrap_or_default();
        let peak = text.lines().find_map(|line| line.strip_prefix("VmHWM:"));
        let peak = peak.and_then(|line| line.split_whitespace().next()?.parse().ok());
        memory = memory.max(peak.unwrap_or(0));
        sleep(Duration::from_millis(1));
    };
    let seconds = start.elapsed().as_secs_f64();
    ended(status, &[0])?;
    Ok((seconds, memory))
}
