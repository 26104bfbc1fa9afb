//! One case: everything that goes into a call.

use super::{read, write, Refused};

#[derive(Clone, Debug, PartialEq, Eq)]
pub struct ReadCase {
    pub name: String,
    pub text: Vec<u8>,
    /// Words of the lent list.
    pub room: usize,
}

#[derive(Clone, Debug, PartialEq, Eq)]
pub struct WriteCase {
    pub name: String,
    pub deck: Vec<u16>,
    /// Bytes of the lent list.
    pub room: usize,
}

impl ReadCase {
    pub fn read(&self) -> Result<Vec<u16>, Refused> {
        read(&self.text, self.room)
    }
}

impl WriteCase {
    pub fn write(&self) -> Result<Vec<u8>, u32> {
        write(&self.deck, self.room)
    }
}
