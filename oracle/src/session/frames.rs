//! Many files in one stream: each with its length before it, in four bytes, high byte first.

use crate::list::Fault;
use std::io::{self, Read, Write};

const LENGTH_LEN: u64 = 4;

/// Reads the files of a stream; `at` is the offset behind the last one.
pub struct Frames<R: Read> {
    input: R,
    at: u64,
}

impl<R: Read> Frames<R> {
    pub fn new(input: R) -> Self {
        Frames { input, at: 0 }
    }

    pub fn next_file(&mut self) -> Result<Option<Vec<u8>>, Fault> {
        let length = match self.up_to(LENGTH_LEN)?.as_slice() {
            [] => return Ok(None),
            [a, b, c, d] => u32::from_be_bytes([*a, *b, *c, *d]).into(),
            _ => return Err(self.cut_short("a length")),
        };
        let file = self.up_to(length)?;
        if (file.len() as u64) < length {
            return Err(self.cut_short("a file"));
        }
        Ok(Some(file))
    }

    /// So many bytes, or fewer where the stream ends.
    fn up_to(&mut self, length: u64) -> io::Result<Vec<u8>> {
        let mut bytes = Vec::new();
        self.at += self.input.by_ref().take(length).read_to_end(&mut bytes)? as u64;
        Ok(bytes)
    }

    fn cut_short(&self, what: &str) -> Fault {
        Fault::Stream(self.at, format!("it ends inside {what}"))
    }
}

pub fn write_frame(out: &mut impl Write, file: &[u8]) -> io::Result<()> {
    out.write_all(&(file.len() as u32).to_be_bytes())?;
    out.write_all(file)
}
