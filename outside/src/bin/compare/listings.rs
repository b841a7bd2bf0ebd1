//! Listings: the header and each output line as the library writes them into lent buffers, and whole
//! listings as the program `gradelist` writes them, on lists of graded and refused lines of every
//! kind. The program reads from files, so that its buffer ends at every place of a line, from
//! pipes, in pieces, and from a socket that fails within a line.

use crate::lent::{no_marks, Twice, MEANINGLESS};
use crate::{shown, Tally};
use reference::cases::{named, Grid, Random, G, VERDICT_FOUR};
use reference::grid::CELLS;
use reference::listing::{gradelist, HEADER};
use reference::proved;
use std::fs::{self, File};
use std::io::{self, Write};
use std::os::fd::OwnedFd;
use std::os::unix::net::UnixStream;
use std::path::Path;
use std::process::{Command, Output, Stdio};
use std::{env, process, thread};

/// Lists of lines of all kinds, and the lines of each.
const LISTS: usize = 40;
const LINES: usize = 60;

/// The bytes that the program reads at once.
const CHUNK: usize = 65_536;

/// Linux's number for a read that would have to wait.
const WOULD_BLOCK: i32 = 11;

/// The lists, line by line through the library and whole through the program.
pub fn listings(grids: &[Grid], program: &Path) -> io::Result<[Tally; 2]> {
    let [mut lines, mut runs] = [Tally::default(), Tally::default()];
    let mut random = Random(9);
    lines.text(HEADER, proved::header, || "header".to_string());
    lines.numbers();
    for input in inputs(&mut random, grids) {
        let text = gradelist(&input);
        let listed = text.split_inclusive('\n').skip(1);
        for ((number, line), expected) in (1..).zip(split(&input)).zip(listed) {
            lines.line(number, line, expected);
        }
        runs.run("a file", &input, &text, from_file(program, &input)?);
        let piece = 1 + random.below(300);
        let output = from_pipe(program, &input, piece)?;
        runs.run(&format!("pieces of {piece}"), &input, &text, output);
    }
    for input in straddling() {
        let text = gradelist(&input);
        runs.run("a file", &input, &text, from_file(program, &input)?);
    }
    runs.failed_read(program)?;
    Ok([lines, runs])
}

/// The lines of an input, newlines not counted.
fn split(input: &[u8]) -> impl Iterator<Item = &[u8]> {
    let lines = input.split_inclusive(|&byte| byte == b'\n');
    lines.map(|line| line.strip_suffix(b"\n").unwrap_or(line))
}

impl Tally {
    /// A text and its length, as a call writes it; the bytes past it keep what they hold.
    fn text(
        &mut self,
        expected: &str,
        write: impl FnOnce(&mut [u8; proved::LINE]) -> usize,
        input: impl FnOnce() -> String,
    ) {
        let mut out = Twice::new(proved::LINE, no_marks());
        out.ours()[..expected.len()].copy_from_slice(expected.as_bytes());
        let lent = out.theirs().try_into();
        let length = write(lent.expect("the length of a line's buffer"));
        let [our, their] = out.first_differing();
        self.case((length, their), (expected.len(), our), input);
    }

    /// Numbers of one digit to twenty, with a graded line and a refused one.
    fn numbers(&mut self) {
        let powers = (0..20).map(|digits| 10_u64.pow(digits));
        let around = powers.flat_map(|power| [power - 1, power, power + 1]);
        for number in around.chain([u64::MAX - 1, u64::MAX]) {
            for line in [&G[..], b""] {
                let first = gradelist(&[line, b"\n"].concat());
                let rest = first
                    .strip_prefix(HEADER)
                    .and_then(|line| line.strip_prefix('1'));
                let rest = rest.expect("the first line is line 1");
                self.line(number, line, &format!("{number}{rest}"));
            }
        }
    }

    /// One output line.
    fn line(&mut self, number: u64, line: &[u8], expected: &str) {
        self.text(
            expected,
            |out| proved::list_line(number, line, out),
            || format!("line {number}, {}", shown(line)),
        );
        self.answered(answer(expected));
    }

    /// One run of the program: all that it writes, nothing on standard error, and status 0.
    fn run(&mut self, from: &str, input: &[u8], text: &str, output: Output) {
        let written = String::from_utf8_lossy(&output.stdout);
        let (ours, theirs) = (text.split_inclusive('\n'), written.split_inclusive('\n'));
        let same = ours
            .clone()
            .zip(theirs.clone())
            .take_while(|(our, their)| our == their);
        let same = same.count();
        let said = String::from_utf8_lossy(&output.stderr);
        self.case(
            (
                output.status.success(),
                said.as_ref(),
                theirs.clone().nth(same),
            ),
            (true, "", ours.clone().nth(same)),
            || {
                format!(
                    "gradelist, from {from}, after {same} equal lines, {}",
                    shown(input)
                )
            },
        );
        for line in ours.skip(1) {
            self.answered(answer(line));
        }
    }

    /// A read that fails within a line: that is told as it fails, then the line is answered as far
    /// as it came, and the status is 1. Both streams go to one file, which keeps their order.
    fn failed_read(&mut self, program: &Path) -> io::Result<()> {
        let (input, mut host) = UnixStream::pair()?;
        input.set_nonblocking(true)?;
        host.write_all(b"12")?;
        let path = env::temp_dir().join(format!("gradelist-output-{}", process::id()));
        fs::write(&path, "")?;
        let output = File::options().append(true).open(&path)?;
        let status = Command::new(program)
            .stdin(OwnedFd::from(input))
            .stdout(output.try_clone()?)
            .stderr(output)
            .status();
        let written = fs::read_to_string(&path);
        fs::remove_file(&path)?;
        let failure = io::Error::from_raw_os_error(WOULD_BLOCK);
        let expected = format!("{HEADER}gradelist: standard input: {failure}\n1 R 11\n");
        self.case((status?.code(), written?), (Some(1), expected), || {
            "gradelist, where a read fails after `12`".to_string()
        });
        self.answered(11);
        Ok(())
    }
}

/// The verdict or the refusal in an output line.
fn answer(line: &str) -> u8 {
    let mut words = line.split_whitespace().skip(1).filter(|&word| word != "R");
    let word = words.next().expect("a number and an answer");
    word.parse().expect("the answer is a number")
}

/// Lists of lines of all kinds, with a last newline or without; then inputs at the edges.
fn inputs(random: &mut Random, grids: &[Grid]) -> Vec<Vec<u8>> {
    let all = [grids, &named()[..], &[*VERDICT_FOUR]].concat();
    let mut inputs: Vec<Vec<u8>> = Vec::new();
    for list in 0..LISTS {
        let lines: Vec<Vec<u8>> = (0..LINES).map(|_| any_line(random, &all)).collect();
        let last: &[u8] = if list % 2 == 0 { b"\n" } else { b"" };
        inputs.push([&lines.join(&b'\n'), last].concat());
    }
    let edges: [&[u8]; 8] = [b"", b"\n", b"\n\n", b"\r\n", b"\r", b"\0", b"1", b"1\n"];
    inputs.extend(edges.map(<[u8]>::to_vec));
    for last in [&b""[..], b"\n", b"\r", b"\r\n", b"\n\n", b"1", b"\0\n"] {
        inputs.push([&G[..], last].concat());
        inputs.push([&G[..], b"\n", &G[1..], last].concat());
    }
    for length in [10_000, CHUNK - 1, CHUNK, CHUNK + 1, 1_000_000] {
        inputs.push(vec![b'1'; length]);
        inputs.push([&vec![b'.'; length][..], b"\n", G, b"\n"].concat());
    }
    inputs.push(b"\n".repeat(70_000));
    inputs.push([&b"12\n".repeat(20_000)[..], G].concat());
    inputs
}

/// A line of any kind: a grid, a grid with a byte of no meaning, a cut or longer one, one with a
/// carriage return, an empty or a long line, any bytes.
fn any_line(random: &mut Random, grids: &[Grid]) -> Vec<u8> {
    let grid = grids[random.below(grids.len())];
    let mut line = random.turned(&grid).to_vec();
    let any_byte = |random: &mut Random| match random.word() as u8 {
        b'\n' => b'\r',
        byte => byte,
    };
    match random.below(16) {
        0..=7 => {}
        8 | 9 => {
            let byte = MEANINGLESS[random.below(MEANINGLESS.len())];
            let byte = if byte == b'\n' { b'\r' } else { byte };
            line[random.below(CELLS)] = byte;
        }
        10 => line.resize(random.below(2 * CELLS), b'0'),
        11 => line.insert(random.below(CELLS + 1), b'\r'),
        12 => line.clear(),
        13 => line.resize(10_000 + random.below(200), b'.'),
        14 => line.fill_with(|| any_byte(random)),
        _ => line = (0..random.below(200)).map(|_| any_byte(random)).collect(),
    }
    line
}

/// Inputs in which the program's buffer ends at every place of a graded line, twice; the last line
/// has no newline.
fn straddling() -> Vec<Vec<u8>> {
    let mut one_blank = *G;
    one_blank[40] = b'.';
    let graded = [&one_blank[..], b"\n"].concat();
    let before = |place| (0..=graded.len()).map(move |shift| place - shift);
    before(CHUNK)
        .map(|start| {
            let mut input = vec![b'5'; start - 1];
            input.push(b'\n');
            input.extend(&graded);
            input.resize(start + CHUNK - 1, b'6');
            input.push(b'\n');
            input.extend(&one_blank);
            input
        })
        .collect()
}

fn gradelist_from(program: &Path, input: Stdio) -> Command {
    let mut command = Command::new(program);
    command
        .stdin(input)
        .stdout(Stdio::piped())
        .stderr(Stdio::piped());
    command
}

/// The program with a file as its standard input: each read fills the buffer.
fn from_file(program: &Path, input: &[u8]) -> io::Result<Output> {
    let path = env::temp_dir().join(format!("gradelist-input-{}", process::id()));
    fs::write(&path, input)?;
    let output = gradelist_from(program, File::open(&path)?.into()).output();
    fs::remove_file(&path)?;
    output
}

/// The program with a pipe as its standard input, written in pieces.
fn from_pipe(program: &Path, input: &[u8], piece: usize) -> io::Result<Output> {
    let mut child = gradelist_from(program, Stdio::piped()).spawn()?;
    let mut pipe = child.stdin.take().expect("a pipe was asked for");
    thread::scope(|scope| {
        let writer = scope.spawn(move || {
            input
                .chunks(piece)
                .try_for_each(|part| pipe.write_all(part))
        });
        let output = child.wait_with_output();
        writer.join().expect("the writer ends").and(output)
    })
}
