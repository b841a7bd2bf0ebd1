//! A random fuzz of the proved reader of job files, beside the reference's: whole files and random
//! changes of them, each file made from one that came before. Arguments: the seconds to run (default
//! 600) and a seed (default 1). It prints the number of files by technique or refusal, and ends with
//! status 1 at the first difference.

use reference::cases::{named, Random};
use reference::grid::CELLS;
use reference::jobfile::read;
use reference::order::ENTRIES;
use reference::proved::read_job_file;
use std::collections::BTreeMap;
use std::env;
use std::time::{Duration, Instant};

/// Files that changes start from.
const POOL: usize = 256;

fn main() -> Result<(), String> {
    let mut numbers = env::args().skip(1).map(|word| {
        let number = word.parse();
        number.map_err(|error| format!("{word}: {error}"))
    });
    let seconds = numbers.next().unwrap_or(Ok(600))?;
    let mut random = Random(numbers.next().unwrap_or(Ok(1))?);

    let mut pool: Vec<Vec<u8>> = (0..POOL).map(|_| whole(&mut random)).collect();
    let mut answers: BTreeMap<u8, usize> = BTreeMap::new();
    let end = Instant::now() + Duration::from_secs(seconds);
    while Instant::now() < end {
        for _ in 0..1_000 {
            let mut file = pool[random.below(POOL)].clone();
            for _ in 0..random.below(4) {
                change(&mut random, &mut file);
            }
            *answers.entry(compared(&file)?).or_default() += 1;
            pool[random.below(POOL)] = match random.below(4) {
                0 => whole(&mut random),
                _ => file,
            };
        }
    }
    println!(
        "fuzz: {} job files by technique or refusal {answers:?}, no difference",
        answers.values().sum::<usize>()
    );
    Ok(())
}

/// The technique or the refusal on which both agree, with both buffers.
fn compared(file: &[u8]) -> Result<u8, String> {
    let [mut our_grid, mut their_grid] = [[7; CELLS]; 2];
    let [mut our_order, mut their_order] = [[7; ENTRIES]; 2];
    let ours =
        read(file, &mut our_grid, &mut our_order).map(|job| (job.technique as u8, job.ceiling));
    let theirs = read_job_file(file, &mut their_grid, &mut their_order);
    if ours == theirs && our_grid == their_grid && our_order == their_order {
        Ok(ours.map_or_else(|refusal| refusal.number, |(technique, _)| technique))
    } else {
        Err(format!("difference: {ours:?}, {theirs:?}: {file:?}"))
    }
}

fn piece(kind: u16, body: &[u8]) -> Vec<u8> {
    let header = [(body.len() as u16).to_le_bytes(), kind.to_le_bytes()];
    [&header.concat(), body].concat()
}

/// A whole file: a grid and a technique, with or without a ceiling and an order.
fn whole(random: &mut Random) -> Vec<u8> {
    let grids = named();
    let any = random.below(grids.len());
    let grid = random.turned(&grids[any]);
    let mut file = [piece(1, &grid), piece(2, &[1 + random.below(4) as u8])].concat();
    if random.below(2) == 0 {
        file.extend(piece(3, &random.word().to_le_bytes()[..4]));
    }
    if random.below(2) == 0 {
        let order = random.order();
        let body: Vec<u8> = order.iter().flat_map(|entry| entry.to_le_bytes()).collect();
        file.extend(piece(4, &body));
    }
    file
}

/// A byte changes, comes or goes, the file is cut, a part of it comes twice or goes, or two parts
/// change places.
fn change(random: &mut Random, file: &mut Vec<u8>) {
    let any = |random: &mut Random, length: usize| random.below(length + 1);
    let (from, to) = (any(random, file.len()), any(random, file.len()));
    let (from, to) = (from.min(to), from.max(to));
    let small = random.below(6) as u8;
    match random.below(8) {
        0 if from < file.len() => file[from] = random.word() as u8,
        1 if from < file.len() => file[from] = small,
        2 if from < file.len() => file[from] ^= 1 << random.below(8),
        3 => file.insert(from, small),
        4 => file.truncate(to),
        5 => drop(file.drain(from..to)),
        6 => file.extend_from_within(from..to),
        _ => file.rotate_left(from),
    }
}
