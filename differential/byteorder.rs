//! Stand-in for the crate `byteorder` where Debian's is not installed, as far as the Rust's files use it: little-endian
//! numbers, each read by one `read_exact` and written by one `write_all`, as in the crate.
use std::io::{Read, Result, Write};

pub trait ByteOrder {}

/// The only order here.
pub enum LE {}

impl ByteOrder for LE {}

pub trait ReadBytesExt: Read {
    #[inline]
    fn read_u8(&mut self) -> Result<u8> {
        take(self).map(u8::from_le_bytes)
    }

    #[inline]
    fn read_u16<T: ByteOrder>(&mut self) -> Result<u16> {
        take(self).map(u16::from_le_bytes)
    }

    #[inline]
    fn read_u32<T: ByteOrder>(&mut self) -> Result<u32> {
        take(self).map(u32::from_le_bytes)
    }

    #[inline]
    fn read_f32<T: ByteOrder>(&mut self) -> Result<f32> {
        take(self).map(f32::from_le_bytes)
    }
}

impl<R: Read + ?Sized> ReadBytesExt for R {}

#[inline]
fn take<const N: usize>(reader: &mut (impl Read + ?Sized)) -> Result<[u8; N]> {
    let mut bytes = [0; N];
    reader.read_exact(&mut bytes)?;
    Ok(bytes)
}

pub trait WriteBytesExt: Write {
    #[inline]
    fn write_u8(&mut self, n: u8) -> Result<()> {
        self.write_all(&n.to_le_bytes())
    }

    #[inline]
    fn write_u16<T: ByteOrder>(&mut self, n: u16) -> Result<()> {
        self.write_all(&n.to_le_bytes())
    }

    #[inline]
    fn write_u32<T: ByteOrder>(&mut self, n: u32) -> Result<()> {
        self.write_all(&n.to_le_bytes())
    }

    #[inline]
    fn write_f32<T: ByteOrder>(&mut self, n: f32) -> Result<()> {
        self.write_all(&n.to_le_bytes())
    }
}

impl<W: Write + ?Sized> WriteBytesExt for W {}
