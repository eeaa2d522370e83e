//! Refusals (docs/FAULTS.md).

#[derive(Clone, Copy, Debug, PartialEq, Eq)]
pub struct Fault {
    pub number: u32,
    pub spot: u32,
}

impl Fault {
    pub fn new(number: u32, spot: usize) -> Self {
        Fault {
            number,
            spot: spot as u32,
        }
    }

    pub fn layer(self) -> u32 {
        match self.number {
            1..=9 => 1,
            10..=14 | 20..=24 | 28..=30 => 2,
            16..=19 | 25..=27 => 3,
            15 | 34 => 5,
            _ => 4,
        }
    }
}

/// Refuses where there is a spot at which something is wrong.
pub fn refuse_at(spot: Option<usize>, number: u32) -> Result<(), Fault> {
    spot.map_or(Ok(()), |spot| Err(Fault::new(number, spot)))
}

/// Refuses where something that must hold doesn't.
pub fn ensure(holds: bool, number: u32, spot: usize) -> Result<(), Fault> {
    if holds { Ok(()) } else { Err(Fault::new(number, spot)) }
}
