//! The loops round the trees, and the numbers of their positions (steps 3 and 4 of docs/SPLIT.md).

use crate::fault::{Fault, ensure};
use crate::sides::{Sides, next, previous};
use crate::trees::{Forest, Tree};
use std::ops::Range;

/// A position of a loop: the vertex before the split, and where its run stands among the corners.
pub struct Position {
    pub vertex: u32,
    run: Range<usize>,
}

/// The positions of all trees, tree after tree, and the corners of their runs.
#[derive(Default)]
pub struct Loops {
    pub positions: Vec<Position>,
    corners: Vec<u32>,
}

impl Loops {
    /// Refuses by 32.
    pub fn new(sides: &Sides, forest: &Forest) -> Result<Self, Fault> {
        let mut loops = Loops::default();
        for (number, tree) in forest.trees.iter().enumerate() {
            let before = loops.positions.len();
            if tree.is_mirrored {
                loops.walk::<true>(sides, &forest.marked, tree);
            } else {
                loops.walk::<false>(sides, &forest.marked, tree);
            }
            ensure(loops.positions.len() - before == 2 * tree.edges, 32, number)?;
        }
        Ok(loops)
    }

    /// The corners that get the position's number.
    pub fn run(&self, position: &Position) -> &[u32] {
        &self.corners[position.run.clone()]
    }

    /// Appends the positions of a tree. As a mirrored tree reads triangles, a side u→v is the mesh's side v→u.
    fn walk<const MIRRORED: bool>(&mut self, sides: &Sides, marked: &[bool], tree: &Tree) {
        let start = |side| if MIRRORED { sides.end(side) } else { sides.start(side) };
        let first = self.positions.len();
        self.positions.push(Position {
            vertex: start(tree.root),
            run: 0..0,
        });
        let mut side = tree.root;
        loop {
            let begin = self.corners.len();
            side = self.turn::<MIRRORED>(sides, marked, side);
            let run = begin..self.corners.len();
            if side == tree.root {
                self.positions[first].run = run;
                return;
            }
            let vertex = start(side);
            self.positions.push(Position { vertex, run });
        }
    }

    /// The marked side that comes behind this one; the corners that are passed between them are appended.
    fn turn<const MIRRORED: bool>(&mut self, sides: &Sides, marked: &[bool], mut side: u32) -> u32 {
        loop {
            let leaving = if MIRRORED { previous(side) } else { next(side) };
            self.corners.push(if MIRRORED { side } else { leaving });
            if marked[leaving as usize] {
                return leaving;
            }
            side = sides.twin(leaving);
        }
    }
}

/// The positions' numbers, and the old vertices that the new ones are copies of.
pub fn numbers(vertices: usize, positions: &[Position]) -> (Vec<u32>, Vec<u32>) {
    let mut met = vec![false; vertices];
    let mut copied = Vec::new();
    let number = |position: &Position| {
        let v = position.vertex;
        if !std::mem::replace(&mut met[v as usize], true) {
            return v;
        }
        copied.push(v);
        (vertices + copied.len() - 1) as u32
    };
    let numbers = positions.iter().map(number).collect();
    (numbers, copied)
}
