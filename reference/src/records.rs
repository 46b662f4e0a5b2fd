//! Records read from bytes one after another, whatever set of kinds their reader knows.

use std::io::{self, ErrorKind, Read};

/// What comes next.
#[derive(Clone, Debug, PartialEq, Eq)]
pub enum Next<C> {
    Call(C),
    /// The input stopped before a kind byte.
    End,
    /// An unknown kind or a cut body; the offset of its kind byte.
    Broken(u64),
}

/// Reads records from `input`, and counts its bytes.
pub struct RecordReader<R> {
    input: R,
    offset: u64,
}

impl<R: Read> RecordReader<R> {
    /// A reader at offset 0 of `input`.
    pub fn new(input: R) -> Self {
        RecordReader { input, offset: 0 }
    }

    /// The next call, the end, or where the input is broken. `body` reads what follows a kind, and
    /// gives none where it does not know the kind or the body is cut.
    pub fn next_call<C>(
        &mut self,
        body: impl FnOnce(&mut Self, u8) -> io::Result<Option<C>>,
    ) -> io::Result<Next<C>> {
        let start = self.offset;
        let Some(kind) = self.take(1)? else {
            return Ok(Next::End);
        };
        let call = body(self, kind[0])?;
        Ok(call.map_or(Next::Broken(start), Next::Call))
    }

    /// The number in the next two bytes, or none if the input stops before.
    pub fn two_bytes(&mut self) -> io::Result<Option<u16>> {
        let bytes = self.take(2)?;
        Ok(bytes.map(|bytes| u16::from_be_bytes([bytes[0], bytes[1]])))
    }

    /// The next `length` bytes, or none if the input stops before.
    pub fn take(&mut self, length: usize) -> io::Result<Option<Vec<u8>>> {
        let mut bytes = vec![0; length];
        match self.input.read_exact(&mut bytes) {
            Ok(()) => {
                self.offset += length as u64;
                Ok(Some(bytes))
            }
            Err(error) if error.kind() == ErrorKind::UnexpectedEof => Ok(None),
            Err(error) => Err(error),
        }
    }
}
