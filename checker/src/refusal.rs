//! Refusals: "a number (0 for accepted) and a place".

/// The number by which something is refused, and the place that goes with it.
#[derive(Clone, Copy, Debug, PartialEq, Eq)]
pub struct Refusal {
    pub number: u8,
    pub place: usize,
}

impl Refusal {
    pub fn new(number: u8, place: usize) -> Refusal {
        Refusal { number, place }
    }

    /// With place 0: "every other answer to a step has place 0", and of a lookup table, whose refusals are
    /// "19 more than 48 rows; 20 keys not strictly rising, or a key or result outside ±1,000,000; 21 buffer
    /// too short; in that order", no other place is named.
    pub fn at_zero(number: u8) -> Refusal {
        Refusal { number, place: 0 }
    }
}

/// `Ok` when `condition` holds, else the refusal.
pub fn demand(condition: bool, refusal: Refusal) -> Result<(), Refusal> {
    if condition {
        Ok(())
    } else {
        Err(refusal)
    }
}
