//! Kinds of place (docs/PLACES.md).

pub trait Place: Copy {
    const KIND: u8;
    const WIDTH: usize;
    const DISPLACEMENT_WIDTH: usize;

    fn read(bytes: &[u8]) -> Option<Self>;
    fn write(self, out: &mut Vec<u8>);
    /// The place displaced by the displacement in these bytes.
    fn displaced(self, by: &[u8]) -> Option<Self>;
}

#[derive(Clone, Copy)]
pub struct Grid([u16; 3]);

#[derive(Clone, Copy)]
pub struct Float([f32; 3]);

impl Place for Grid {
    const KIND: u8 = 1;
    const WIDTH: usize = 6;
    const DISPLACEMENT_WIDTH: usize = 6;

    fn read(bytes: &[u8]) -> Option<Self> {
        let &[a, b, c, d, e, f] = bytes else {
            return None;
        };
        Some(Grid([[a, b], [c, d], [e, f]].map(u16::from_be_bytes)))
    }

    fn write(self, out: &mut Vec<u8>) {
        out.extend(self.0.into_iter().flat_map(u16::to_be_bytes));
    }

    fn displaced(self, by: &[u8]) -> Option<Self> {
        let Grid([x, y, z]) = self;
        let Grid([u, v, w]) = Grid::read(by)?;
        Some(Grid([
            x.checked_add_signed(u as i16)?,
            y.checked_add_signed(v as i16)?,
            z.checked_add_signed(w as i16)?,
        ]))
    }
}

impl Float {
    fn any(bytes: &[u8]) -> Option<Self> {
        let (words, []) = bytes.as_chunks::<4>() else {
            return None;
        };
        let words: [[u8; 4]; 3] = words.try_into().ok()?;
        Some(Float(words.map(f32::from_be_bytes)))
    }

    fn finite(self) -> Option<Self> {
        self.0.iter().all(|x| x.is_finite()).then_some(self)
    }
}

impl Place for Float {
    const KIND: u8 = 2;
    const WIDTH: usize = 12;
    const DISPLACEMENT_WIDTH: usize = 12;

    fn read(bytes: &[u8]) -> Option<Self> {
        Float::any(bytes)?.finite()
    }

    fn write(self, out: &mut Vec<u8>) {
        out.extend(self.0.into_iter().flat_map(f32::to_be_bytes));
    }

    fn displaced(self, by: &[u8]) -> Option<Self> {
        let Float([x, y, z]) = self;
        let Float([u, v, w]) = Float::any(by)?;
        Float([x + u, y + v, z + w]).finite()
    }
}
