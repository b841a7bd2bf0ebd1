//! Reading a job file: pieces of body length, kind and body, little-endian, with strictly rising
//! kinds. The layout software's refusals come piece by piece (31, 32, 33) and at the end (34),
//! then those of the grid, the technique and the order.

use crate::grid::{self, CELLS};
use crate::job::{self, HIGHEST_COUNT};
use crate::order::{self, default_order, ENTRIES};
use crate::refusal::{demand, Refusal};

/// What reading returns beside the two filled buffers.
#[derive(Clone, Copy, Debug, PartialEq, Eq)]
pub struct JobFile {
    pub technique: u32,
    pub ceiling: u32,
}

/// The call. Refusals 42, 46, then 31, 32, 33 piece by piece, 34, 12, 21, 23, 24.
pub fn read(file: &[u8], grid: &mut [u8], order: &mut [i16]) -> Result<JobFile, Refusal> {
    demand(grid.len() == CELLS, 42)?;
    demand(order.len() == ENTRIES, 46)?;
    let bodies = pieces(file)?;
    let [Some(grid_body), Some(technique_body), ceiling_body, order_body] = bodies else {
        return Err(Refusal::new(34));
    };

    let technique = u32::from(technique_body[0]);
    let ceiling = match ceiling_body {
        Some(body) => u32::from_le_bytes(body.try_into().expect("the body has 4 bytes")),
        None => HIGHEST_COUNT,
    };
    let entries: Vec<i16> = match order_body {
        Some(body) => {
            let pairs = body.chunks(2);
            pairs
                .map(|pair| i16::from_le_bytes([pair[0], pair[1]]))
                .collect()
        }
        None => default_order(),
    };
    grid::check_bytes(grid_body)?;
    job::technique(technique)?;
    order::check_entries(&entries)?;

    grid.copy_from_slice(grid_body);
    order.copy_from_slice(&entries);
    Ok(JobFile { technique, ceiling })
}

/// The bodies of kinds 1 to 4, where they are there.
fn pieces(file: &[u8]) -> Result<[Option<&[u8]>; 4], Refusal> {
    let body_length = |kind| match kind {
        1 => CELLS,
        2 => 1,
        3 => 4,
        _ => 2 * ENTRIES,
    };
    let mut bodies = [None; 4];
    let mut last_kind = 0;
    let mut place = 0;
    while place < file.len() {
        let refuse = |number| Err(Refusal::at(number, place));
        let left = &file[place..];
        if left.len() < 4 {
            return refuse(31);
        }
        let length = usize::from(u16::from_le_bytes([left[0], left[1]]));
        let kind = usize::from(u16::from_le_bytes([left[2], left[3]]));
        if left.len() < 4 + length {
            return refuse(31);
        }
        if !(1..=4).contains(&kind) || kind <= last_kind {
            return refuse(32);
        }
        if length != body_length(kind) {
            return refuse(33);
        }
        bodies[kind - 1] = Some(&left[4..4 + length]);
        last_kind = kind;
        place += 4 + length;
    }
    Ok(bodies)
}
