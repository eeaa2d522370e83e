//! A table of cases (its form is told in tools/check_plain.py): each outcome, and checksums of the mesh after it.

use crate::base;
use crate::fault::Fault;
use crate::mesh::{Mesh, Room, word};
use crate::place::{Float, Grid, Place};
use crate::split::{Told, split};
use std::fmt::Write;

/// The items of an input; what is cut short ends it.
struct Items<'a>(&'a [u8]);

impl<'a> Iterator for Items<'a> {
    type Item = &'a [u8];

    fn next(&mut self) -> Option<&'a [u8]> {
        let size = word(self.0, 0)? as usize + 4;
        let (item, rest) = self.0.split_at_checked(size)?;
        self.0 = rest;
        Some(item)
    }
}

pub fn play(input: &[u8]) -> String {
    let mut said = String::new();
    let mut items = Items(input);
    let mut cases = 0;
    while let Some(head) = items.next() {
        let [kind, count, vertices, triangles] = [4, 8, 12, 16].map(|at| word(head, at).unwrap_or(0) as usize);
        let room = Room { vertices, triangles };
        let own = items.by_ref().take(count);
        said += &format!("CASE {cases}\n");
        said += &if kind == usize::from(Float::KIND) {
            play_case::<Float>(own, room)
        } else {
            play_case::<Grid>(own, room)
        };
        cases += 1;
    }
    said + &format!("{cases} cases\n")
}

/// The lines of a case. The items are all read, also those behind a base that is refused.
fn play_case<'a, P: Place>(items: impl Iterator<Item = &'a [u8]>, room: Room) -> String {
    let items: Vec<_> = items.collect();
    let mut total = [0; 3];
    let mut said = String::new();
    match base::<P>(items.first().unwrap_or(&&[][..]), room) {
        Err(fault) => said += &refused(0, fault),
        Ok(mut mesh) => {
            let (v, t) = (mesh.places.len(), mesh.triangles.len());
            said += &format!("BASE {v} {} {t}\n", 3 * t / 2);
            for (item, record) in items.iter().enumerate().skip(1) {
                said += &offer(&mut mesh, room, item, record, &mut total);
            }
        }
    }
    said + &format!("TOTAL {} {} {}\n", total[0], total[1], total[2])
}

fn refused(item: usize, fault: Fault) -> String {
    format!("REFUSED {item} {} {} {}\n", fault.number, fault.layer(), fault.spot)
}

/// Carries out a record, and tells what comes out.
fn offer<P: Place>(mesh: &mut Mesh<P>, room: Room, item: usize, record: &[u8], total: &mut [usize; 3]) -> String {
    let expected = (mesh.places.len(), mesh.triangles.len());
    match split(mesh, room, expected, record) {
        Err(fault) => refused(item, fault),
        Ok(told) => {
            for (sum, count) in total.iter_mut().zip([1, told.forest_edges, told.trees]) {
                *sum += count;
            }
            accepted(item, &told, mesh)
        }
    }
}

fn accepted<P: Place>(item: usize, told: &Told, mesh: &Mesh<P>) -> String {
    let Told {
        vertices,
        triangles,
        forest_edges,
        trees,
    } = told;
    let mut said = format!(
        "SPLIT {item} {vertices} {} {triangles} {forest_edges} {trees}\n",
        3 * triangles / 2
    );
    let parents: Vec<u8> = mesh.parents.iter().flat_map(|v| v.to_be_bytes()).collect();
    // A string takes whatever is written to it.
    let _ = writeln!(said, "CRC {item} {} {}", checksum(&mesh.write()), checksum(&parents));
    said
}

/// CRC-32, as zlib has it.
fn checksum(bytes: &[u8]) -> u32 {
    const POLYNOMIAL: u32 = 0xEDB8_8320;
    let step = |sum: u32, _| (sum >> 1) ^ (POLYNOMIAL * (sum & 1));
    !bytes
        .iter()
        .fold(u32::MAX, |sum, byte| (0..8).fold(sum ^ u32::from(*byte), step))
}
