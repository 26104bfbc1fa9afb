//! A buffer filled with a pattern, with guard words on both sides.

use std::fmt::Debug;

/// What a lent list is made of.
pub trait Unit: Copy + PartialEq + Debug {
    fn cut(word: u16) -> Self;
}

impl Unit for u16 {
    fn cut(word: u16) -> u16 {
        word
    }
}

impl Unit for u8 {
    fn cut(word: u16) -> u8 {
        (word >> 7) as u8
    }
}

pub struct Guarded<T> {
    units: Vec<T>,
    salt: u16,
}

const GUARD: usize = 32;
/// As many as a message shows.
const SHOWN: usize = 24;

impl<T: Unit> Guarded<T> {
    pub fn new(length: usize, salt: u16) -> Guarded<T> {
        let units = (0..length + 2 * GUARD).map(|at| pattern(at, salt));
        Guarded {
            units: units.collect(),
            salt,
        }
    }

    /// Holds these in place of the pattern.
    pub fn with(units: &[T], salt: u16) -> Guarded<T> {
        let mut guarded = Guarded::new(units.len(), salt);
        guarded.lent().copy_from_slice(units);
        guarded
    }

    pub fn lent(&mut self) -> &mut [T] {
        let end = self.units.len() - GUARD;
        &mut self.units[GUARD..end]
    }

    /// Starts with these, and is as it was from `untouched` on.
    pub fn holds(&self, name: &str, start: &[T], untouched: usize) -> Result<(), String> {
        let found = &self.units[GUARD..self.units.len() - GUARD];
        if found.get(..start.len()) != Some(start) {
            return Err(differs(name, found, start));
        }
        let length = found.len();
        for at in (0..GUARD).chain(GUARD + untouched..length + 2 * GUARD) {
            if self.units[at] != pattern(at, self.salt) {
                let place = at as isize - GUARD as isize;
                return Err(format!("{name}: place {place} of {length} was changed"));
            }
        }
        Ok(())
    }
}

fn differs<T: Unit>(name: &str, found: &[T], expected: &[T]) -> String {
    let pairs = found.iter().zip(expected);
    let at = pairs
        .take_while(|(found, expected)| found == expected)
        .count();
    let from = |list: &[T]| format!("{:?}", &list[at..list.len().min(at + SHOWN)]);
    let (found, expected) = (from(found), from(expected));
    format!("{name}: from place {at} on {found}, expected {expected}")
}

fn pattern<T: Unit>(at: usize, salt: u16) -> T {
    T::cut((at as u16).wrapping_mul(40_503) ^ salt)
}
