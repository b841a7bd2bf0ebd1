//! Compares the search and both clause sets with two public solvers, minisat and cadical, on grids
//! with none, one and several completions, published ones and those that cost a search much among
//! them. A formula must be unsatisfiable exactly when the search finds none, its model a legal
//! completion, and with the first completion blocked it must be satisfiable exactly when the search
//! finds several. The exit status is 1 at any difference.

use reference::cases::{bad, named, published, slow, Grid, Random};
use reference::dimacs::{blocking, read_model, write};
use reference::grid::is_completion;
use reference::plain_search;
use reference::search::smallest_two;
use std::path::Path;
use std::process::{Command, ExitCode, Stdio};
use std::{env, fs, io, process};

/// A solver's name and its arguments before the formula's path and the model's path.
struct Solver {
    name: &'static str,
    arguments: fn(&str, &str) -> Vec<String>,
}

const SOLVERS: [Solver; 2] = [
    Solver {
        name: "minisat",
        arguments: |formula, model| ["-verb=0", formula, model].map(String::from).to_vec(),
    },
    Solver {
        name: "cadical",
        arguments: |formula, model| ["-q", "-w", model, formula].map(String::from).to_vec(),
    },
];

const GENERATED_OF_EACH_KIND: usize = 36;

fn main() -> ExitCode {
    let folder = env::temp_dir().join(format!("reference-solvers-{}", process::id()));
    let answer = fs::create_dir_all(&folder)
        .map_err(|error| format!("temporary folder: {error}"))
        .and_then(|()| compare_all(&folder));
    let removed = fs::remove_dir_all(&folder);
    match (answer, removed) {
        (Ok(line), Ok(())) => {
            println!("{line}");
            ExitCode::SUCCESS
        }
        (Err(message), _) => {
            println!("{message}");
            ExitCode::FAILURE
        }
        (_, Err(error)) => {
            println!("temporary folder: {error}");
            ExitCode::FAILURE
        }
    }
}

/// Grids with the smallest two of their completions, by the reference's search, or by the plain one
/// where the reference's takes long.
fn searched() -> Vec<(Grid, Vec<Grid>)> {
    let mut random = Random(1);
    let mut grids = [named(), published(), bad()].concat();
    for blanks in (0..GENERATED_OF_EACH_KIND).map(|round| 24 + round) {
        grids.push(random.with_none(blanks));
        grids.push(random.with_one(blanks));
        grids.push(random.with_several(blanks));
    }
    let by_reference = grids.into_iter().map(|grid| (grid, smallest_two(&grid)));
    let by_plain = slow()
        .into_iter()
        .map(|grid| (grid, plain_search::smallest_two(&grid)));
    by_reference.chain(by_plain).collect()
}

/// The closing line with the numbers of cases, or the first difference.
fn compare_all(folder: &Path) -> Result<String, String> {
    let mut kinds = [0; 3];
    let mut runs = 0;
    for (grid, found) in searched() {
        kinds[found.len()] += 1;
        for set in [1, 2] {
            for solver in &SOLVERS {
                runs += compare_one(&grid, &found, set, solver, folder).map_err(|difference| {
                    let grid = String::from_utf8_lossy(&grid);
                    format!(
                        "difference: {}, set {set}, grid {grid}: {difference}",
                        solver.name
                    )
                })?;
            }
        }
    }
    let [none, one, several] = kinds;
    Ok(format!(
        "solvers: {none} grids with none, {one} with one, {several} with several completions; \
         {runs} solver runs, no difference"
    ))
}

/// The number of runs that agree.
fn compare_one(
    grid: &Grid,
    found: &[Grid],
    set: u32,
    solver: &Solver,
    folder: &Path,
) -> Result<usize, String> {
    let mut blocked = Vec::new();
    // Round r blocks the first r completions, so it has a model exactly if the search found more.
    // Two found may not be all, so there is no round with both blocked.
    for round in 0..=found.len().min(1) {
        let formula = write(set, grid, &blocked).map_err(|refusal| format!("{refusal:?}"))?;
        let model = solve(solver, &formula, folder)?;
        match (model, found.get(round)) {
            (None, None) => {}
            (Some(_), None) => {
                return Err(format!("a model with {round} blocked, search has none"))
            }
            (None, Some(_)) => {
                return Err(format!("no model with {round} blocked, search has one"))
            }
            (Some(text), Some(smallest)) => {
                let model = read_model(&text).ok_or("the model is no grid")?;
                if is_completion(grid, &model) != Ok(true) {
                    return Err("the model is no legal completion".to_string());
                }
                if model < *smallest || found[..round].contains(&model) {
                    return Err("the model should have been the search's".to_string());
                }
            }
        }
        blocked.extend(found.get(round).map(|completion| blocking(completion)));
    }
    Ok(1 + found.len().min(1))
}

/// The text of a model, or none if the solver says unsatisfiable. Exit status 10 and 20 are its
/// verdict.
fn solve(solver: &Solver, formula: &str, folder: &Path) -> Result<Option<String>, String> {
    let told = |error: io::Error| format!("running the solver: {error}");
    let (input, output) = (folder.join("formula"), folder.join("model"));
    fs::write(&input, formula).map_err(told)?;
    fs::write(&output, "").map_err(told)?;
    let status = Command::new(solver.name)
        .args((solver.arguments)(
            &input.to_string_lossy(),
            &output.to_string_lossy(),
        ))
        .stdout(Stdio::null())
        .stderr(Stdio::null())
        .status()
        .map_err(told)?;
    match status.code() {
        Some(10) => fs::read_to_string(&output).map(Some).map_err(told),
        Some(20) => Ok(None),
        _ => Err(format!("the solver ended with {status}")),
    }
}
