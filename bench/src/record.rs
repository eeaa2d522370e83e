//! The bytes of a record (docs/FORMATS.md).

use crate::fault::{Fault, ensure};
use crate::mesh::{is_framed, word};
use crate::place::Place;
use std::marker::PhantomData;

pub struct Record<'a, P> {
    bytes: &'a [u8],
    edges: usize,
    codes: usize,
    kind: PhantomData<P>,
}

impl<'a, P: Place> Record<'a, P> {
    const HEAD: usize = 10;

    /// A record for a mesh of so many edges, behind the checks 20 to 24.
    pub fn open(bytes: &'a [u8], edges: usize) -> Result<Self, Fault> {
        ensure(bytes.len() >= Self::HEAD && is_framed(bytes), 20, 0)?;
        ensure(bytes[4] == 1, 21, 4)?;
        ensure(bytes[5] == P::KIND, 22, 5)?;
        let codes_at = Self::HEAD + edges.div_ceil(8);
        ensure(bytes.len() >= codes_at, 23, 0)?;
        ensure(spare_is_zero(bytes[codes_at - 1], edges % 8), 24, codes_at - 1)?;
        Ok(Record {
            bytes,
            edges,
            codes: word(bytes, 6).map_or(0, |n| n as usize),
            kind: PhantomData,
        })
    }

    /// How many codes it says that it has.
    pub fn code_count(&self) -> usize {
        self.codes
    }

    fn codes_at(&self) -> usize {
        Self::HEAD + self.edges.div_ceil(8)
    }

    fn displacements_at(&self) -> usize {
        self.codes_at() + self.codes.div_ceil(4)
    }

    /// Whether each edge is marked, in the order of the edges.
    pub fn marks(&self) -> impl Iterator<Item = bool> {
        let stretch = &self.bytes[Self::HEAD..self.codes_at()];
        let bits = |byte: &u8| {
            (0..8).map({
                let byte = *byte;
                move |bit| byte << bit & 0x80 != 0
            })
        };
        stretch.iter().flat_map(bits).take(self.edges)
    }

    /// Check 29.
    pub fn check_size(&self, marked: usize) -> Result<(), Fault> {
        let size = self.displacements_at() + 2 * marked * P::DISPLACEMENT_WIDTH;
        ensure(self.bytes.len() == size, 29, 0)
    }

    /// Check 30. The size has been checked.
    pub fn check_spare_codes(&self) -> Result<(), Fault> {
        let last = self.displacements_at() - 1;
        ensure(spare_is_zero(self.bytes[last], 2 * (self.codes % 4)), 30, last)
    }

    /// The codes. The size has been checked.
    pub fn codes(&self) -> Vec<u8> {
        let stretch = &self.bytes[self.codes_at()..self.displacements_at()];
        let mut codes: Vec<u8> = stretch
            .iter()
            .flat_map(|&byte| [byte >> 6, byte >> 4 & 3, byte >> 2 & 3, byte & 3])
            .collect();
        codes.truncate(self.codes);
        codes
    }

    /// The displacements' bytes. The size has been checked.
    pub fn displacements(&self) -> impl Iterator<Item = &[u8]> {
        self.bytes[self.displacements_at()..].chunks_exact(P::DISPLACEMENT_WIDTH)
    }
}

/// Whether the bits below the highest `used` are 0; with none used there are no spare ones.
fn spare_is_zero(byte: u8, used: usize) -> bool {
    used == 0 || byte << used == 0
}
