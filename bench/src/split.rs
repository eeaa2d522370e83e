//! A split carried out on a mesh: all checks in their order, and then the writing (docs/SPLIT.md, docs/FAULTS.md).

use crate::fault::{Fault, ensure, refuse_at};
use crate::loops::{Loops, Position, numbers};
use crate::mesh::{Mesh, Room};
use crate::place::Place;
use crate::polygons::{check_codes, fill};
use crate::record::Record;
use crate::sides::{Groups, Sides, next};
use crate::trees::Forest;

/// The counts of the mesh after a split, and those of its marked edges and trees.
pub struct Told {
    pub vertices: usize,
    pub triangles: usize,
    pub forest_edges: usize,
    pub trees: usize,
}

/// Carries out a record, or refuses it and leaves the mesh as it is. The mesh must have the expected numbers of vertices and
/// triangles.
pub fn split<P: Place>(mesh: &mut Mesh<P>, room: Room, expected: (usize, usize), bytes: &[u8]) -> Result<Told, Fault> {
    let before = (mesh.places.len(), mesh.triangles.len());
    let sides = Sides::of_closed(before.0, &mesh.triangles).or(Err(Fault::new(3, 0)))?;
    ensure(before == expected, 4, 0)?;
    let record = Record::<P>::open(bytes, 3 * before.1 / 2)?;
    let forest = Forest::new(&sides, record.marks())?;
    check_counts(&record, &forest, before, room)?;
    let codes = record.codes();
    check_codes(&forest.trees, &codes)?;
    let loops = Loops::new(&sides, &forest)?;
    let (numbers, copied) = numbers(before.0, &loops.positions);
    let old = renumbered(&mesh.triangles, &loops, &numbers);
    let new = fill(&forest.trees, &codes, &numbers);
    refuse_at(first_clash(before.0 + copied.len(), &old, &new, &loops, &numbers), 33)?;
    let places = displaced(&mesh.places, &loops.positions, &numbers, &record)?;
    write(mesh, &copied, old, new, &numbers, &places);
    Ok(Told {
        vertices: mesh.places.len(),
        triangles: mesh.triangles.len(),
        forest_edges: forest.edges,
        trees: forest.trees.len(),
    })
}

/// Checks 28, 29, 5, 6 and 30.
fn check_counts<P: Place>(
    record: &Record<P>,
    forest: &Forest,
    before: (usize, usize),
    room: Room,
) -> Result<(), Fault> {
    let grown = forest.edges - forest.trees.len();
    ensure(record.code_count() == 2 * grown, 28, 6)?;
    record.check_size(forest.edges)?;
    ensure(before.0 + grown <= room.vertices, 5, 0)?;
    ensure(before.1 + 2 * grown <= room.triangles, 6, 0)?;
    record.check_spare_codes()
}

/// The old triangles, with each corner of a run replaced by the number of the run's position.
fn renumbered(triangles: &[[u32; 3]], loops: &Loops, numbers: &[u32]) -> Vec<[u32; 3]> {
    let mut triangles = triangles.to_vec();
    let corners = triangles.as_flattened_mut();
    for (position, &number) in loops.positions.iter().zip(numbers) {
        for &corner in loops.run(position) {
            corners[corner as usize] = number;
        }
    }
    triangles
}

/// The first triangle of the result that has a side of a lower one. Such a side starts at a position, and it is a side of a
/// polygon; only at positions are there sides of both.
fn first_clash(vertices: usize, old: &[[u32; 3]], new: &[[u32; 3]], loops: &Loops, numbers: &[u32]) -> Option<usize> {
    let (old_ends, new_ends) = (old.as_flattened(), new.as_flattened());
    let leaving = Groups::new(vertices, new_ends);
    // Of each vertex the last position's number from which a side was found to lead there.
    let mut from = vec![u32::MAX; vertices];
    let mut first = None;
    for (position, &number) in loops.positions.iter().zip(numbers) {
        for &corner in loops.run(position) {
            from[old_ends[next(corner) as usize] as usize] = number;
        }
        for &side in leaving.of(number) {
            let end = new_ends[next(side) as usize] as usize;
            if std::mem::replace(&mut from[end], number) == number {
                let triangle = old.len() + side as usize / 3;
                first = Some(first.map_or(triangle, |first: usize| first.min(triangle)));
            }
        }
    }
    first
}

/// The place of each position after the split. Refuses by 34.
fn displaced<P: Place>(
    places: &[P],
    positions: &[Position],
    numbers: &[u32],
    record: &Record<P>,
) -> Result<Vec<P>, Fault> {
    positions
        .iter()
        .zip(numbers)
        .zip(record.displacements())
        .map(|((position, &number), by)| {
            let place = places[position.vertex as usize];
            place.displaced(by).ok_or(Fault::new(34, number as usize))
        })
        .collect()
}

fn write<P: Place>(
    mesh: &mut Mesh<P>,
    copied: &[u32],
    old: Vec<[u32; 3]>,
    new: Vec<[u32; 3]>,
    numbers: &[u32],
    places: &[P],
) {
    mesh.triangles = old;
    mesh.triangles.extend(new);
    mesh.parents.extend(copied);
    // Each of these is replaced by a displaced place below.
    mesh.places.extend_from_within(..copied.len());
    for (&number, &place) in numbers.iter().zip(places) {
        mesh.places[number as usize] = place;
    }
}
