use std::error::Error;
use std::fmt;
use std::ops::Deref;

/// A decoded section as [`Connection::give`](crate::Connection::give) takes it: its field lines in order,
/// none at first.
#[derive(Clone, Debug, Default, PartialEq, Eq)]
pub struct Block(Vec<u8>);

/// A field line of more than 65,531 bytes, which a block cannot hold. Its section is above the 16,384 bytes
/// that are accepted: reset the stream with [`MessageError`](crate::Refused::MessageError).
#[derive(Clone, Copy, Debug, PartialEq, Eq)]
pub struct TooLong;

impl Block {
    /// A section without a line.
    pub fn new() -> Block {
        Block::default()
    }

    /// Adds a line, or nothing if it is too long.
    pub fn line(&mut self, name: impl AsRef<[u8]>, value: impl AsRef<[u8]>) -> Result<&mut Block, TooLong> {
        let (name, value) = (name.as_ref(), value.as_ref());
        let counted = u16::try_from(4 + name.len() + value.len()).map_err(|_| TooLong)?;
        self.0.extend(counted.to_le_bytes());
        self.0.extend([1, 0]);
        self.0.extend((name.len() as u16).to_le_bytes());
        self.0.extend(name);
        self.0.extend(value);
        Ok(self)
    }
}

impl Deref for Block {
    type Target = [u8];

    fn deref(&self) -> &[u8] {
        &self.0
    }
}

impl fmt::Display for TooLong {
    fn fmt(&self, f: &mut fmt::Formatter<'_>) -> fmt::Result {
        f.write_str("a field line above 65,531 bytes")
    }
}

impl Error for TooLong {}
