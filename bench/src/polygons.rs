//! The polygons that fill the loops (step 5 of docs/SPLIT.md).

use crate::fault::{Fault, refuse_at};
use crate::trees::Tree;

/// Whether the count of a polygon's codes reaches 0 at the last of them, and not before.
fn closes(codes: &[u8]) -> bool {
    let mut count = 1;
    let end = codes.iter().position(|code| {
        count += i32::from(*code == 3) - i32::from(*code == 0);
        count == 0
    });
    end.is_some_and(|end| end + 1 == codes.len())
}

/// The codes of each tree.
fn dealt<'a>(trees: &[Tree], mut codes: &'a [u8]) -> impl Iterator<Item = &'a [u8]> {
    trees
        .iter()
        .map_while(move |tree| codes.split_off(..2 * tree.edges - 2))
}

/// Check 31.
pub fn check_codes(trees: &[Tree], codes: &[u8]) -> Result<(), Fault> {
    refuse_at(dealt(trees, codes).position(|codes| !closes(codes)), 31)
}

/// The triangles of all polygons. The codes have been checked.
pub fn fill(trees: &[Tree], codes: &[u8], mut numbers: &[u32]) -> Vec<[u32; 3]> {
    let mut added = Vec::with_capacity(codes.len());
    for (tree, codes) in trees.iter().zip(dealt(trees, codes)) {
        let (around, others) = numbers.split_at(2 * tree.edges);
        numbers = others;
        fill_polygon(codes, around, tree.is_mirrored, &mut added);
    }
    added
}

/// For each code the number of codes in the part that it begins: a left part begins behind its code, and the right part
/// behind a 3 where the left one ends.
fn part_lengths(codes: &[u8]) -> Vec<u32> {
    let mut lengths = vec![1; codes.len()];
    for (i, code) in codes.iter().enumerate().rev() {
        if *code != 0 {
            lengths[i] += lengths[i + 1];
        }
        if *code == 3 {
            lengths[i] += lengths[i + lengths[i] as usize];
        }
    }
    lengths
}

fn fill_polygon(codes: &[u8], numbers: &[u32], is_mirrored: bool, added: &mut Vec<[u32; 3]>) {
    let lengths = part_lengths(codes);
    let around = numbers.len();
    // The edges of the parts that are still to be filled, the next one last.
    let mut open = vec![(0, 1)];
    for (i, code) in codes.iter().enumerate() {
        let (left, right) = open.pop().expect("the codes close");
        let third = match code {
            0 | 1 => right + 1,
            2 => left + around - 1,
            _ => left + around - 1 - lengths[i + 1] as usize,
        };
        let third = if third < around { third } else { third - around };
        if *code >= 2 {
            open.push((third, right));
        }
        if code % 2 == 1 {
            open.push((left, third));
        }
        let [l, r, o] = [left, right, third].map(|position| numbers[position]);
        added.push(if is_mirrored { [l, r, o] } else { [l, o, r] });
    }
}
