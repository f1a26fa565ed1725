//! Little-endian numbers in and out. A `usize` is eight bytes, a truth value one.

use crate::terms::{Grid, Tile, Vector};

#[derive(Default)]
pub struct Writer(pub Vec<u8>);

impl Writer {
    pub fn u8(&mut self, n: u8) {
        self.0.push(n);
    }

    pub fn bool(&mut self, b: bool) {
        self.0.push(u8::from(b));
    }

    pub fn u16(&mut self, n: u16) {
        self.0.extend(n.to_le_bytes());
    }

    pub fn i16(&mut self, n: i16) {
        self.0.extend(n.to_le_bytes());
    }

    pub fn u32(&mut self, n: u32) {
        self.0.extend(n.to_le_bytes());
    }

    pub fn i32(&mut self, n: i32) {
        self.0.extend(n.to_le_bytes());
    }

    pub fn size(&mut self, n: usize) {
        self.0.extend((n as u64).to_le_bytes());
    }

    /// A length that the format holds in four bytes.
    pub fn len(&mut self, n: usize) {
        self.u32(u32::try_from(n).expect("no lent buffer is that long"));
    }

    pub fn vector(&mut self, v: &Vector) {
        self.i32(v[0]);
        self.i32(v[1]);
    }

    /// Where the block stands; its size goes with the other single bytes.
    pub fn position(&mut self, g: &Grid) {
        for n in [g.mi_row, g.mi_col, g.mi_rows, g.mi_cols] {
            self.i32(n);
        }
    }

    pub fn tile(&mut self, t: &Tile) {
        self.i32(t.start);
        self.i32(t.end);
    }

    pub fn zeros(&mut self, n: usize) {
        self.0.resize(self.0.len() + n, 0);
    }

    /// Zeros up to the next multiple of `to`.
    pub fn align(&mut self, to: usize) {
        self.0.resize(self.0.len().next_multiple_of(to), 0);
    }
}

pub struct Reader<'a> {
    bytes: &'a [u8],
    at: usize,
}

pub type Read<T> = Result<T, String>;

impl<'a> Reader<'a> {
    pub fn new(bytes: &'a [u8]) -> Reader<'a> {
        Reader { bytes, at: 0 }
    }

    pub fn at(&self) -> usize {
        self.at
    }

    pub fn at_end(&self) -> bool {
        self.at == self.bytes.len()
    }

    /// What was read since `start`.
    pub fn since(&self, start: usize) -> &'a [u8] {
        &self.bytes[start..self.at]
    }

    pub fn take(&mut self, n: usize) -> Read<&'a [u8]> {
        let part = self.bytes.get(self.at..self.at + n);
        self.at += n;
        part.ok_or_else(|| format!("the file ends before byte {}", self.at))
    }

    fn array<const N: usize>(&mut self) -> Read<[u8; N]> {
        Ok(self.take(N)?.try_into().expect("take gives N bytes"))
    }

    pub fn u8(&mut self) -> Read<u8> {
        Ok(self.array::<1>()?[0])
    }

    pub fn bool(&mut self) -> Read<bool> {
        match self.u8()? {
            0 => Ok(false),
            1 => Ok(true),
            n => Err(format!("{n} before byte {} is no truth value", self.at)),
        }
    }

    pub fn u16(&mut self) -> Read<u16> {
        Ok(u16::from_le_bytes(self.array()?))
    }

    pub fn i16(&mut self) -> Read<i16> {
        Ok(i16::from_le_bytes(self.array()?))
    }

    pub fn u32(&mut self) -> Read<u32> {
        Ok(u32::from_le_bytes(self.array()?))
    }

    pub fn i32(&mut self) -> Read<i32> {
        Ok(i32::from_le_bytes(self.array()?))
    }

    pub fn size(&mut self) -> Read<usize> {
        let n = u64::from_le_bytes(self.array()?);
        usize::try_from(n).map_err(|_| "this machine's usize is too narrow".to_string())
    }

    pub fn len(&mut self) -> Read<usize> {
        Ok(self.u32()? as usize)
    }

    pub fn vector(&mut self) -> Read<Vector> {
        Ok([self.i32()?, self.i32()?])
    }

    /// The block's size is read later, with the other single bytes.
    pub fn position(&mut self) -> Read<Grid> {
        Ok(Grid {
            mi_row: self.i32()?,
            mi_col: self.i32()?,
            mi_rows: self.i32()?,
            mi_cols: self.i32()?,
            mi_size: 0,
        })
    }

    pub fn tile(&mut self) -> Read<Tile> {
        Ok(Tile {
            start: self.i32()?,
            end: self.i32()?,
        })
    }

    pub fn align(&mut self, to: usize) -> Read<()> {
        let aligned = self.at.next_multiple_of(to);
        self.take(aligned - self.at).map(|_| ())
    }
}
