//! Meshes, and the sheets they are read from and written to (docs/FORMATS.md).

use crate::fault::{Fault, ensure};
use crate::place::Place;

pub const MAX_VERTICES: usize = 16_384;
pub const MAX_TRIANGLES: usize = 32_768;

/// How many vertices and triangles a mesh may grow to.
#[derive(Clone, Copy)]
pub struct Room {
    pub vertices: usize,
    pub triangles: usize,
}

pub struct Mesh<P> {
    pub places: Vec<P>,
    pub parents: Vec<u32>,
    pub triangles: Vec<[u32; 3]>,
}

/// The number in the four bytes from `at` on.
pub fn word(bytes: &[u8], at: usize) -> Option<u32> {
    bytes.get(at..)?.first_chunk().map(|four| u32::from_be_bytes(*four))
}

/// Whether the length field says how many bytes follow it.
pub fn is_framed(bytes: &[u8]) -> bool {
    word(bytes, 0).is_some_and(|length| length as usize + 4 == bytes.len())
}

impl<P: Place> Mesh<P> {
    const HEAD: usize = 14;

    /// The mesh of a sheet's bytes; whether it is closed is for `Sides` to say.
    pub fn read(bytes: &[u8], room: Room) -> Result<Self, Fault> {
        ensure(bytes.len() >= Self::HEAD && is_framed(bytes), 10, 0)?;
        ensure(bytes[4] == 1, 11, 4)?;
        ensure(bytes[5] == P::KIND, 12, 5)?;
        let count = |at| word(bytes, at).map_or(0, |n| n as usize);
        let (vertices, triangles) = (count(6), count(10));
        ensure((3..=MAX_VERTICES).contains(&vertices), 13, 6)?;
        ensure((2..=MAX_TRIANGLES).contains(&triangles), 13, 10)?;
        let body = &bytes[Self::HEAD..];
        ensure(body.len() == P::WIDTH * vertices + 12 * triangles, 14, 0)?;
        ensure(vertices <= room.vertices, 5, 0)?;
        ensure(triangles <= room.triangles, 6, 0)?;
        let (places, corners) = body.split_at(P::WIDTH * vertices);
        Ok(Mesh {
            places: read_places(places)?,
            parents: (0..vertices as u32).collect(),
            triangles: read_triangles(corners),
        })
    }

    /// The sheet of the mesh.
    pub fn write(&self) -> Vec<u8> {
        let mut sheet = vec![0; 4];
        sheet.extend([1, P::KIND]);
        for count in [self.places.len(), self.triangles.len()] {
            sheet.extend((count as u32).to_be_bytes());
        }
        self.places.iter().for_each(|place| place.write(&mut sheet));
        sheet.extend(self.triangles.as_flattened().iter().flat_map(|v| v.to_be_bytes()));
        let length = sheet.len() as u32 - 4;
        sheet[..4].copy_from_slice(&length.to_be_bytes());
        sheet
    }
}

fn read_places<P: Place>(bytes: &[u8]) -> Result<Vec<P>, Fault> {
    bytes
        .chunks_exact(P::WIDTH)
        .enumerate()
        .map(|(v, bytes)| P::read(bytes).ok_or(Fault::new(15, v)))
        .collect()
}

fn read_triangles(bytes: &[u8]) -> Vec<[u32; 3]> {
    let (words, _) = bytes.as_chunks::<4>();
    let (triangles, _) = words.as_chunks::<3>();
    triangles
        .iter()
        .map(|corners| corners.map(u32::from_be_bytes))
        .collect()
}
