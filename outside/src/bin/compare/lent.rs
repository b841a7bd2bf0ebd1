//! What a call is lent, the faults that it can have, and the comparison of one call: the answer and
//! every byte of the buffers that it writes, with guards around them.

use crate::{shown, Tally};
use reference::cases::Random;
use reference::grid::CELLS;
use reference::order::ENTRIES;
use reference::refusal::Refusal;
use std::fmt::{self, Display, Formatter};

/// Elements around the lent part that no call may touch.
const GUARD: usize = 16;

/// Rounds over all sets of faults.
const FAULT_ROUNDS: usize = 20;

/// The outcome, the verdict or the number of completions, with the count of trials.
pub type Answer = Result<(u8, u32), Refusal>;

/// What a call with N buffers is lent, of the buffers only their lengths. A call reads of it what it
/// takes.
pub struct Lent<const N: usize> {
    pub grid: Vec<u8>,
    pub technique: u32,
    pub order: Vec<i16>,
    pub ceiling: u32,
    pub buffers: [usize; N],
}

/// A call of the reference and of the proved library.
pub struct Call<const N: usize> {
    pub name: &'static str,
    pub reference: fn(&Lent<N>, [&mut [u8]; N]) -> Answer,
    pub proved: fn(&Lent<N>, [&mut [u8]; N]) -> Answer,
}

/// A buffer that the reference and the proved library are lent, each with guards around its own.
pub struct Twice<T> {
    pattern: Vec<T>,
    ours: Vec<T>,
    theirs: Vec<T>,
}

impl<T: Copy + PartialEq> Twice<T> {
    /// Both with a pattern in the buffer and in the guards.
    pub fn new(length: usize, pattern: impl Iterator<Item = T>) -> Twice<T> {
        let pattern: Vec<T> = pattern.take(length + 2 * GUARD).collect();
        Twice {
            ours: pattern.clone(),
            theirs: pattern.clone(),
            pattern,
        }
    }

    /// The reference's buffer.
    pub fn ours(&mut self) -> &mut [T] {
        lent_part(&mut self.ours)
    }

    /// The proved library's buffer.
    pub fn theirs(&mut self) -> &mut [T] {
        lent_part(&mut self.theirs)
    }

    /// What a refused call must leave.
    pub fn refused(&mut self) {
        self.ours.copy_from_slice(&self.pattern);
    }

    /// The elements at which the two first differ, the guards too, each with its place from the start
    /// of the lent part; none if they are equal.
    pub fn first_differing(&self) -> [Option<(isize, T)>; 2] {
        let mut pairs = self.ours.iter().zip(&self.theirs);
        let place = pairs.position(|(our, their)| our != their);
        [&self.ours, &self.theirs]
            .map(|buffer| place.map(|place| (place as isize - GUARD as isize, buffer[place])))
    }
}

fn lent_part<T>(buffer: &mut [T]) -> &mut [T] {
    let end = buffer.len() - GUARD;
    &mut buffer[GUARD..end]
}

/// Bytes that no call writes.
pub fn no_marks() -> impl Iterator<Item = u8> {
    (100..200).cycle()
}

impl Tally {
    /// One call, with the reference's answer. The buffers are lent with a pattern of bytes that no
    /// call writes, and keep it if the call is refused.
    pub fn call<const N: usize>(&mut self, call: &Call<N>, lent: &Lent<N>) -> Answer {
        let mut buffers = lent.buffers.map(|length| Twice::new(length, no_marks()));
        let reference = (call.reference)(lent, buffers.each_mut().map(Twice::ours));
        let proved = (call.proved)(lent, buffers.each_mut().map(Twice::theirs));
        if reference.is_err() {
            buffers.iter_mut().for_each(Twice::refused);
        }
        let differing = buffers.each_ref().map(Twice::first_differing);
        self.case(
            (proved, differing.map(|[_, their]| their)),
            (reference, differing.map(|[our, _]| our)),
            || format!("{}, {lent}", call.name),
        );
        self.answered(reference.map_or_else(|refusal| refusal.number, |(value, _)| value));
        reference
    }

    /// Every fault alone; then faults of every set of kinds together, which shows the order of the
    /// tests. The kinds are made one after the other, so lengths stand after what they cut. The call
    /// with no fault runs.
    pub fn refused<const N: usize>(
        &mut self,
        random: &mut Random,
        kinds: &[Vec<Fault>],
        lent: impl Fn(&mut Random) -> Lent<N>,
        call: impl Fn(&mut Tally, &Lent<N>),
    ) {
        let mut with = |random: &mut Random, faults: &[Fault]| {
            let mut lent = lent(random);
            for &fault in faults {
                lent.with(fault);
            }
            call(self, &lent);
        };
        for fault in kinds.concat() {
            with(random, &[fault]);
        }
        for set in (0..FAULT_ROUNDS).flat_map(|_| 0..1 << kinds.len()) {
            let chosen = (0..kinds.len()).filter(|kind| set >> kind & 1 == 1);
            let faults: Vec<Fault> = chosen
                .map(|kind| kinds[kind][random.below(kinds[kind].len())])
                .collect();
            with(random, &faults);
        }
    }
}

impl<const N: usize> Display for Lent<N> {
    fn fmt(&self, out: &mut Formatter) -> fmt::Result {
        write!(
            out,
            "grid {}, technique {}, ceiling {}, buffers of {:?}, order of {} from {:?}",
            shown(&self.grid),
            self.technique,
            self.ceiling,
            self.buffers,
            self.order.len(),
            &self.order[..self.order.len().min(9)]
        )
    }
}

pub fn any_order(random: &mut Random) -> Vec<i16> {
    let kind = random.below(4);
    random.orders()[kind].clone()
}

/// A fault of a call.
#[derive(Clone, Copy)]
pub enum Fault {
    /// A buffer, by its number, of a wrong length.
    Buffer(usize, usize),
    Cells(usize),
    Byte(usize, u8),
    Technique(u32),
    Entries(usize),
    Entry(usize, i16),
    /// The later place gets the entry of the earlier one.
    Repeat(usize, usize),
}

impl<const N: usize> Lent<N> {
    fn with(&mut self, fault: Fault) {
        match fault {
            Fault::Buffer(number, length) => self.buffers[number] = length,
            Fault::Cells(length) => self.grid.resize(length, b'1'),
            Fault::Byte(place, byte) => self.grid[place] = byte,
            Fault::Technique(number) => self.technique = number,
            Fault::Entries(length) => self.order.resize(length, 1),
            Fault::Entry(place, entry) => self.order[place] = entry,
            Fault::Repeat(earlier, later) => self.order[later] = self.order[earlier],
        }
    }
}

/// The faults behind 24, 23 and 22.
pub fn order_faults() -> [Vec<Fault>; 3] {
    let entries = [0, 1, 2, 728, 729, 730, ENTRIES - 2, ENTRIES - 1];
    let no_literals = [0, 730, -730, 1_458, -1_458, i16::MIN, i16::MAX];
    let pairs = entries
        .into_iter()
        .flat_map(|later| entries.map(|earlier| (earlier, later)))
        .filter(|(earlier, later)| earlier < later);
    [
        pairs
            .map(|(earlier, later)| Fault::Repeat(earlier, later))
            .collect(),
        entries
            .into_iter()
            .flat_map(|place| no_literals.map(|entry| Fault::Entry(place, entry)))
            .collect(),
        lengths_around(ENTRIES).map(Fault::Entries).to_vec(),
    ]
}

/// The faults behind 21.
pub fn technique_faults() -> Vec<Fault> {
    [0, 5, 6, 255, 256, 257, 260, 65_537, 1 << 31, u32::MAX]
        .map(Fault::Technique)
        .to_vec()
}

/// Bytes of no meaning in a grid.
pub const MEANINGLESS: [u8; 10] = *b"/:-x \n\0\x80\xb1\xff";

/// The faults behind 12 and 11.
pub fn grid_faults() -> [Vec<Fault>; 2] {
    [
        (0..CELLS)
            .flat_map(|place| MEANINGLESS.map(|byte| Fault::Byte(place, byte)))
            .collect(),
        lengths_around(CELLS).map(Fault::Cells).to_vec(),
    ]
}

/// The faults of a buffer that should have this length.
pub fn buffer_faults(number: usize, length: usize) -> Vec<Fault> {
    lengths_around(length)
        .map(|wrong| Fault::Buffer(number, wrong))
        .to_vec()
}

pub fn lengths_around(length: usize) -> [usize; 5] {
    [0, 1, length - 1, length + 1, 2 * length]
}
