//! The same work as `crates/split_bench`, as a plain Rust program, to be measured beside it: it reads a sheet of grid places
//! and a record from standard input, carries the record out, and prints what comes out. Where there is no record it makes the
//! base call alone. A number as argument says how many times it does so, each time from the sheet on. With `--table` it carries
//! out a table of cases instead.

mod fault;
mod loops;
mod mesh;
mod place;
mod polygons;
mod record;
mod sides;
mod split;
mod table;
mod trees;

use crate::fault::Fault;
use crate::mesh::{MAX_TRIANGLES, MAX_VERTICES, Mesh, Room, word};
use crate::place::{Grid, Place};
use crate::sides::Sides;
use crate::split::split;
use std::io::{Read, Write};
use std::{env, io};

/// The base call: the mesh of a sheet, if it is closed.
fn base<P: Place>(sheet: &[u8], room: Room) -> Result<Mesh<P>, Fault> {
    let mesh = Mesh::read(sheet, room)?;
    Sides::of_closed(mesh.places.len(), &mesh.triangles)?;
    Ok(mesh)
}

/// What is printed for a sheet and the record behind it, if there is one.
fn play(input: &[u8], times: usize) -> String {
    let room = Room {
        vertices: MAX_VERTICES,
        triangles: MAX_TRIANGLES,
    };
    let size = word(input, 0).map_or(0, |n| n as usize + 4).min(input.len());
    let (sheet, record) = input.split_at(size);
    let mut answer = None;
    for _ in 0..times {
        let Ok(mut mesh) = base::<Grid>(sheet, room) else {
            return "no base\n".to_string();
        };
        let expected = (mesh.places.len(), mesh.triangles.len());
        if !record.is_empty() {
            answer = Some(split(&mut mesh, room, expected, record));
        }
    }
    match answer {
        Some(Ok(told)) => format!(
            "SPLIT {} {} {}\n",
            told.vertices,
            3 * told.triangles / 2,
            told.triangles
        ),
        Some(Err(fault)) => format!("REFUSED {} {}\n", fault.number, fault.spot),
        None => "no record\n".to_string(),
    }
}

fn main() -> io::Result<()> {
    let mut input = Vec::new();
    io::stdin().read_to_end(&mut input)?;
    let argument = env::args().nth(1);
    let said = if argument.as_deref() == Some("--table") {
        table::play(&input)
    } else {
        play(&input, argument.and_then(|word| word.parse().ok()).unwrap_or(1))
    };
    io::stdout().write_all(said.as_bytes())
}
