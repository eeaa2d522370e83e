//! The trees of marked edges, their roots and directions (steps 1 and 2 of docs/SPLIT.md).

use crate::fault::{Fault, ensure};
use crate::sides::Sides;

pub struct Tree {
    pub edges: usize,
    /// The side from the root to its neighbour as the tree's triangles are read: the mesh's own side, or its reverse in
    /// a mirrored tree.
    pub root: u32,
    pub is_mirrored: bool,
}

pub struct Forest {
    pub edges: usize,
    pub trees: Vec<Tree>,
    /// Whether each side is marked.
    pub marked: Vec<bool>,
}

impl Forest {
    /// Refuses by 25, 26 and 27.
    pub fn new(sides: &Sides, marks: impl Iterator<Item = bool>) -> Result<Self, Fault> {
        let edges = marked_edges(sides, marks);
        ensure(!edges.is_empty(), 25, 0)?;
        let lowest = join(sides, &edges)?;
        let mut marked = vec![false; sides.count()];
        for &(_, side) in &edges {
            marked[side as usize] = true;
            marked[sides.twin(side) as usize] = true;
        }
        Ok(Forest {
            edges: edges.len(),
            trees: list_trees(sides, &edges, lowest)?,
            marked,
        })
    }
}

/// The marked edges, each with its number and its upward side.
fn marked_edges(sides: &Sides, marks: impl Iterator<Item = bool>) -> Vec<(usize, u32)> {
    let edges = sides.edges();
    edges
        .into_iter()
        .enumerate()
        .zip(marks)
        .filter_map(|(edge, is_marked)| is_marked.then_some(edge))
        .collect()
}

/// The lowest vertex of a tree, with the ways up halved.
fn find(up: &mut [u32], mut v: u32) -> u32 {
    while up[v as usize] != v {
        up[v as usize] = up[up[v as usize] as usize];
        v = up[v as usize];
    }
    v
}

/// For each vertex a way up to the lowest of its tree. Refuses by 26.
fn join(sides: &Sides, edges: &[(usize, u32)]) -> Result<Vec<u32>, Fault> {
    let mut up: Vec<u32> = (0..sides.vertices() as u32).collect();
    for &(e, side) in edges {
        let a = find(&mut up, sides.start(side));
        let b = find(&mut up, sides.end(side));
        ensure(a != b, 26, e)?;
        up[a.max(b) as usize] = a.min(b);
    }
    Ok(up)
}

/// What is known of a vertex on a tree: how many marked edges it has, and one marked side that leaves it.
#[derive(Clone, Copy, Default)]
struct Knot {
    degree: usize,
    side: u32,
}

fn knots(sides: &Sides, edges: &[(usize, u32)]) -> Vec<Knot> {
    let mut knots = vec![Knot::default(); sides.vertices()];
    for side in edges.iter().flat_map(|&(_, side)| [side, sides.twin(side)]) {
        let knot = &mut knots[sides.start(side) as usize];
        knot.degree += 1;
        knot.side = side;
    }
    knots
}

/// The trees by their lowest vertices. Refuses by 27.
fn list_trees(sides: &Sides, edges: &[(usize, u32)], mut up: Vec<u32>) -> Result<Vec<Tree>, Fault> {
    // Of each tree its lowest vertex, twice its edges, and the side from its lowest leaf.
    let mut found: Vec<(u32, usize, Option<u32>)> = Vec::new();
    let mut numbers = vec![0; sides.vertices()];
    for (v, knot) in (0..).zip(knots(sides, edges)).filter(|(_, knot)| knot.degree > 0) {
        let lowest = find(&mut up, v);
        if lowest == v {
            numbers[v as usize] = found.len();
            found.push((v, 0, None));
        }
        let (_, ends, root) = &mut found[numbers[lowest as usize]];
        *ends += knot.degree;
        if knot.degree == 1 {
            root.get_or_insert(knot.side);
        }
    }
    found
        .into_iter()
        .map(|(lowest, ends, root)| {
            ensure(ends > 2, 27, lowest as usize)?;
            Ok(directed(sides, ends / 2, root.expect("a tree has a leaf")))
        })
        .collect()
}

/// The tree whose root is the start of this side. The lower of the two triangles there gives its direction.
fn directed(sides: &Sides, edges: usize, side: u32) -> Tree {
    let twin = sides.twin(side);
    let is_mirrored = twin / 3 < side / 3;
    Tree {
        edges,
        root: if is_mirrored { twin } else { side },
        is_mirrored,
    }
}
