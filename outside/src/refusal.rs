//! A refusal: its number and a zero-based place, 0 where none is named.
//! A refused call has changed no buffer.

#[derive(Clone, Copy, Debug, PartialEq, Eq)]
pub struct Refusal {
    pub number: u8,
    pub place: usize,
}

impl Refusal {
    /// A refusal for which no place is named.
    pub fn new(number: u8) -> Refusal {
        Refusal { number, place: 0 }
    }

    pub fn at(number: u8, place: usize) -> Refusal {
        Refusal { number, place }
    }
}

/// Refuses with `number` unless `holds`.
pub fn demand(holds: bool, number: u8) -> Result<(), Refusal> {
    if holds {
        Ok(())
    } else {
        Err(Refusal::new(number))
    }
}

/// Refuses with `number` at the first place, if there is one.
pub fn demand_none(first: Option<usize>, number: u8) -> Result<(), Refusal> {
    match first {
        None => Ok(()),
        Some(place) => Err(Refusal::at(number, place)),
    }
}
