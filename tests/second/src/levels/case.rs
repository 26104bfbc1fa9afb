//! One case: everything that goes into the call.

use super::{levels, Levels};

#[derive(Clone, Debug, PartialEq, Eq)]
pub struct LevelCase {
    pub name: String,
    pub deck: Vec<u16>,
    /// Words of the lent list.
    pub room: usize,
}

impl LevelCase {
    pub fn levels(&self) -> Result<Levels, u32> {
        levels(&self.deck)
    }
}
