//! The directed sides of a mesh, found while it is checked that the mesh is closed (docs/SURFACE.md).
//!
//! Side 3t + k leads from corner k of triangle t to the next corner; the number stands for the corner too.

use crate::fault::{Fault, ensure, refuse_at};

const NONE: u32 = u32::MAX;

/// The side behind this one in its triangle.
pub fn next(side: u32) -> u32 {
    if side % 3 == 2 { side - 2 } else { side + 1 }
}

/// The side before this one in its triangle.
pub fn previous(side: u32) -> u32 {
    if side.is_multiple_of(3) { side + 2 } else { side - 1 }
}

/// Sides by the vertices at which they start, each vertex's in rising order.
pub struct Groups {
    first: Vec<u32>,
    sides: Vec<u32>,
}

impl Groups {
    pub fn new(vertices: usize, starts: &[u32]) -> Self {
        let mut first = offsets(vertices, starts.iter().copied());
        let mut sides = vec![0; starts.len()];
        for (side, &v) in (0..).zip(starts) {
            sides[first[v as usize] as usize] = side;
            first[v as usize] += 1;
        }
        // Each entry now stands where its group ends, which is where the next one begins.
        first.insert(0, 0);
        Groups { first, sides }
    }

    pub fn of(&self, v: u32) -> &[u32] {
        let v = v as usize;
        &self.sides[self.first[v] as usize..self.first[v + 1] as usize]
    }
}

/// Where the group of each vertex begins, if the groups stand behind each other.
fn offsets(vertices: usize, members: impl Iterator<Item = u32>) -> Vec<u32> {
    let mut counts = vec![0; vertices];
    members.for_each(|v| counts[v as usize] += 1);
    let mut sum = 0;
    for count in &mut counts {
        sum += std::mem::replace(count, sum);
    }
    counts
}

/// The sides of a closed mesh.
pub struct Sides<'a> {
    starts: &'a [u32],
    leaving: Groups,
    twins: Vec<u32>,
    vertices: usize,
}

impl<'a> Sides<'a> {
    /// Refuses a mesh that isn't closed, by 16 to 19.
    pub fn of_closed(vertices: usize, triangles: &'a [[u32; 3]]) -> Result<Self, Fault> {
        check_corners(vertices, triangles)?;
        let starts = triangles.as_flattened();
        let leaving = Groups::new(vertices, starts);
        let twins = find_twins(vertices, starts, &leaving)?;
        let sides = Sides {
            starts,
            leaving,
            twins,
            vertices,
        };
        refuse_at((0..vertices).find(|&v| !sides.has_one_ring(v as u32)), 19)?;
        Ok(sides)
    }

    pub fn vertices(&self) -> usize {
        self.vertices
    }

    pub fn count(&self) -> usize {
        self.starts.len()
    }

    pub fn start(&self, side: u32) -> u32 {
        self.starts[side as usize]
    }

    pub fn end(&self, side: u32) -> u32 {
        self.start(next(side))
    }

    /// The reverse side.
    pub fn twin(&self, side: u32) -> u32 {
        self.twins[side as usize]
    }

    fn has_one_ring(&self, v: u32) -> bool {
        let leaving = self.leaving.of(v);
        let Some(&first) = leaving.first() else {
            return false;
        };
        let step = |&side: &u32| Some(self.twin(previous(side))).filter(|&next| next != first);
        std::iter::successors(Some(first), step).count() == leaving.len()
    }

    /// The upward side of each edge, in the order of the edges.
    pub fn edges(&self) -> Vec<u32> {
        let upward = |&side: &u32| self.start(side) < self.end(side);
        let lower_ends = (0..self.count() as u32).filter(upward).map(|side| self.start(side));
        let mut at = offsets(self.vertices, lower_ends);
        let mut edges = vec![0; self.count() / 2];
        // The upper ends come in rising order, so that the edges of each lower end do.
        for &down in self.leaving.sides.iter().filter(|side| !upward(side)) {
            let at = &mut at[self.end(down) as usize];
            edges[*at as usize] = self.twin(down);
            *at += 1;
        }
        edges
    }
}

fn check_corners(vertices: usize, triangles: &[[u32; 3]]) -> Result<(), Fault> {
    let is_bad = |&[a, b, c]: &[u32; 3]| a.max(b).max(c) as usize >= vertices || a == b || b == c || c == a;
    refuse_at(triangles.iter().position(is_bad), 16)
}

/// The reverse of each side. Refuses by 17 and 18.
fn find_twins(vertices: usize, starts: &[u32], leaving: &Groups) -> Result<Vec<u32>, Fault> {
    let mut twins = vec![NONE; starts.len()];
    let mut repeated = NONE;
    // Of each vertex the last side found that ends there.
    let mut to = vec![NONE; vertices];
    for v in 0..vertices as u32 {
        let leads_from_v = |side: u32| side != NONE && starts[side as usize] == v;
        for &side in leaving.of(v) {
            let entry = &mut to[starts[next(side) as usize] as usize];
            if leads_from_v(*entry) {
                repeated = repeated.min(side / 3);
            }
            *entry = side;
        }
        for arriving in leaving.of(v).iter().map(|&side| previous(side)) {
            let back = to[starts[arriving as usize] as usize];
            if leads_from_v(back) {
                twins[arriving as usize] = back;
            }
        }
    }
    ensure(repeated == NONE, 17, repeated as usize)?;
    let open = twins.iter().position(|&twin| twin == NONE);
    refuse_at(open.map(|side| side / 3), 18)?;
    Ok(twins)
}
