//! Job files: the answer and both buffers of whole files and of damaged ones. Files are cut at every
//! byte; every header byte takes every value; kinds come in every sequence; every body is damaged at
//! its boundaries; then damages of all kinds come together, which shows the order of the tests.

use crate::lent::{lengths_around, no_marks, order_faults, Fault, Twice, MEANINGLESS};
use crate::{shown, Tally};
use reference::cases::{named, Random};
use reference::grid::CELLS;
use reference::jobfile::read;
use reference::order::{default_order, ENTRIES};
use reference::proved;

/// Files with damages of any kinds.
const DAMAGED: usize = 36_000;

/// Kinds of pieces, and numbers that are none.
const KINDS: [u16; 8] = [1, 2, 3, 4, 0, 5, 0x0100, u16::MAX];

/// The lengths of the two buffers.
const LENT: [usize; 2] = [CELLS, ENTRIES];

pub fn job_files() -> Tally {
    let mut tally = Tally::default();
    let mut random = Random(10);
    for file in systematic(&mut random) {
        tally.job_file(&file, LENT);
    }
    let lengths = |right: usize| lengths_around(right).into_iter().chain([right]);
    for grid in lengths(CELLS) {
        for order in lengths(ENTRIES) {
            for damages in 0..4 {
                tally.job_file(&damaged(&mut random, damages), [grid, order]);
            }
        }
    }
    for round in 0..DAMAGED {
        let mut lent = LENT;
        if round % 32 == 0 {
            let number = random.below(2);
            lent[number] = lengths_around(lent[number])[random.below(5)];
        }
        tally.job_file(&damaged(&mut random, round % 4), lent);
    }
    tally
}

impl Tally {
    /// One reading. Answers: the technique, or the refusal.
    fn job_file(&mut self, file: &[u8], [grid, order]: [usize; 2]) {
        let mut cells = Twice::new(grid, no_marks());
        let mut entries = Twice::new(order, (1_000..2_000).cycle());
        let reference =
            read(file, cells.ours(), entries.ours()).map(|job| (job.technique as u8, job.ceiling));
        let proved = proved::read_job_file(file, cells.theirs(), entries.theirs());
        if reference.is_err() {
            cells.refused();
            entries.refused();
        }
        let [our_cell, their_cell] = cells.first_differing();
        let [our_entry, their_entry] = entries.first_differing();
        self.case(
            (proved, their_cell, their_entry),
            (reference, our_cell, our_entry),
            || format!("job file {}, buffers of {grid} and {order}", shown(file)),
        );
        self.answered(reference.map_or_else(|refusal| refusal.number, |(value, _)| value));
    }
}

/// A piece, with the body length that it states.
#[derive(Clone)]
struct Piece {
    length: u16,
    kind: u16,
    body: Vec<u8>,
}

impl Piece {
    fn new(kind: u16, body: &[u8]) -> Piece {
        Piece {
            length: body.len() as u16,
            kind,
            body: body.to_vec(),
        }
    }
}

fn bytes(pieces: &[Piece]) -> Vec<u8> {
    let bytes = |piece: &Piece| {
        let header = [piece.length.to_le_bytes(), piece.kind.to_le_bytes()];
        [header.concat(), piece.body.clone()].concat()
    };
    pieces.iter().flat_map(bytes).collect()
}

fn order_body(order: &[i16]) -> Vec<u8> {
    order.iter().flat_map(|entry| entry.to_le_bytes()).collect()
}

/// A whole file, with a piece of kind 3 or 4 where it is asked for.
fn whole(random: &mut Random, ceiling: bool, order: bool) -> Vec<Piece> {
    let grids = named();
    let any = random.below(grids.len());
    let grid = random.turned(&grids[any]);
    let mut pieces = vec![
        Piece::new(1, &grid),
        Piece::new(2, &[1 + random.below(4) as u8]),
    ];
    if ceiling {
        pieces.push(Piece::new(3, &random.word().to_le_bytes()[..4]));
    }
    if order {
        pieces.push(Piece::new(4, &order_body(&random.order())));
    }
    pieces
}

/// Whole files cut at every byte; each header byte with every value; every sequence of up to four
/// kinds; and bodies at their boundaries.
fn systematic(random: &mut Random) -> Vec<Vec<u8>> {
    let mut files = Vec::new();
    for (ceiling, order) in [(false, false), (true, false), (false, true), (true, true)] {
        let file = bytes(&whole(random, ceiling, order));
        files.extend((0..=file.len()).map(|end| file[..end].to_vec()));
    }

    let pieces = whole(random, true, true);
    let file = bytes(&pieces);
    let mut start = 0;
    for piece in &pieces {
        for place in start..start + 4 {
            files.extend((0..=255).map(|byte| with_byte(&file, place, byte)));
        }
        start += 4 + piece.body.len();
    }
    for (place, byte) in (0..CELLS).flat_map(|cell| MEANINGLESS.map(|byte| (4 + cell, byte))) {
        files.push(with_byte(&file, place, byte));
    }
    files.extend((0..=255).map(|byte| with_byte(&file, 4 + CELLS + 4, byte)));
    for ceiling in [0, 1, 255, 256, 65_535, 65_536, 1 << 24, 1 << 31, u32::MAX] {
        let mut pieces = pieces.clone();
        pieces[2].body = ceiling.to_le_bytes().to_vec();
        files.push(bytes(&pieces));
    }
    let [repeats, no_literals, _] = order_faults();
    let alone = [repeats.clone(), no_literals.clone()].concat();
    let both = repeats
        .iter()
        .flat_map(|&repeat| no_literals.iter().map(move |&entry| vec![repeat, entry]));
    for faults in alone.into_iter().map(|fault| vec![fault]).chain(both) {
        let mut order = random.order();
        for fault in faults {
            match fault {
                Fault::Entry(place, entry) => order[place] = entry,
                Fault::Repeat(earlier, later) => order[later] = order[earlier],
                _ => unreachable!("a fault of an entry"),
            }
        }
        let mut pieces = pieces.clone();
        pieces[3].body = order_body(&order);
        files.push(bytes(&pieces));
    }

    let mut sequences: Vec<Vec<u16>> = vec![Vec::new()];
    for length in 0..4 {
        let longest = sequences.clone().into_iter();
        for sequence in longest.filter(|sequence| sequence.len() == length) {
            sequences.extend(KINDS.map(|kind| [&sequence[..], &[kind]].concat()));
        }
    }
    files.extend(sequences.iter().map(|kinds| {
        let pieces: Vec<Piece> = kinds.iter().map(|&kind| of_kind(random, kind)).collect();
        bytes(&pieces)
    }));
    files
}

fn with_byte(file: &[u8], place: usize, byte: u8) -> Vec<u8> {
    let mut file = file.to_vec();
    file[place] = byte;
    file
}

/// A piece with a body that is right for its kind; of no kind, with any body.
fn of_kind(random: &mut Random, kind: u16) -> Piece {
    let whole = whole(random, true, true);
    let piece = whole.into_iter().find(|piece| piece.kind == kind);
    piece.unwrap_or_else(|| Piece::new(kind, &[b'1'; CELLS][..[0, 1, 4, CELLS][random.below(4)]]))
}

/// A whole file with some damages.
fn damaged(random: &mut Random, damages: usize) -> Vec<u8> {
    let [ceiling, order] = [0; 2].map(|_| random.below(2) == 1);
    let mut pieces = whole(random, ceiling, order);
    let in_bytes = random.below(damages + 1);
    for _ in in_bytes..damages {
        damage_piece(random, &mut pieces);
    }
    let mut file = bytes(&pieces);
    for _ in 0..in_bytes {
        damage_bytes(random, &mut file);
    }
    file
}

/// A piece is dropped, repeated, moved, renumbered, of another length or of another body.
fn damage_piece(random: &mut Random, pieces: &mut Vec<Piece>) {
    if pieces.is_empty() {
        return;
    }
    let at = random.below(pieces.len());
    let piece = &mut pieces[at];
    match random.below(12) {
        0 => {
            pieces.remove(at);
        }
        1 => {
            let again = piece.clone();
            pieces.insert(random.below(pieces.len() + 1), again);
        }
        2 => {
            let other = random.below(pieces.len());
            pieces.swap(at, other);
        }
        3 => piece.kind = KINDS[random.below(KINDS.len())],
        4 => piece.length = piece.length.wrapping_add([1, u16::MAX][random.below(2)]),
        5 => piece.length = [0, piece.length.swap_bytes(), u16::MAX][random.below(3)],
        6 => piece.body.push(random.word() as u8),
        7 => {
            piece.body.pop();
        }
        8 => *piece = Piece::new(piece.kind, &[&piece.body[..], b"1"].concat()),
        9 => {
            *piece = Piece::new(
                piece.kind,
                &piece.body[..piece.body.len().saturating_sub(1)],
            )
        }
        _ => damage_body(random, piece),
    }
}

/// A grid byte of no meaning, a technique that there is not, any ceiling, or an entry of the order
/// that is no literal or an earlier one.
fn damage_body(random: &mut Random, piece: &mut Piece) {
    let length = piece.body.len();
    match piece.kind {
        _ if length == 0 => {}
        1 => piece.body[random.below(length)] = MEANINGLESS[random.below(MEANINGLESS.len())],
        2 => piece.body[0] = [0, 5, 6, 128, 255][random.below(5)],
        4 if length == 2 * ENTRIES => {
            let (place, earlier) = (2 * random.below(ENTRIES), 2 * random.below(ENTRIES));
            let no_literals = [0, 730, -730, i16::MIN, i16::MAX].map(i16::to_le_bytes);
            match random.below(4) {
                0 => piece.body.chunks_mut(2).for_each(<[u8]>::reverse),
                1 => piece.body = order_body(&default_order()),
                2 => piece.body.copy_within(earlier..earlier + 2, place),
                _ => piece.body[place..place + 2].copy_from_slice(&no_literals[random.below(5)]),
            }
        }
        _ => piece.body[random.below(length)] = random.word() as u8,
    }
}

/// The file is cut, goes on, or has another byte.
fn damage_bytes(random: &mut Random, file: &mut Vec<u8>) {
    let length = file.len();
    match random.below(4) {
        0 => file.truncate(random.below(length + 1)),
        1 => file.truncate(length.saturating_sub(1 + random.below(5))),
        2 => file.extend((0..1 + random.below(6)).map(|_| random.word() as u8)),
        _ if length == 0 => {}
        _ => file[random.below(length.min(120))] = random.word() as u8,
    }
}
