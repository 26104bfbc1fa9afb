//! Makes a failing case smaller while it still fails, and tells it.

use super::judge::{judge_read, judge_write, Engine};
use super::{ReadCase, WriteCase};
use crate::world::World;

const MOST_TRIES: usize = 300;

/// Leaves out pieces of the text, of half its length down to single bytes.
pub fn small_read(engine: &dyn Engine, case: &ReadCase, what: &str) -> String {
    let mut small = case.clone();
    let mut tries = 0;
    let mut piece = small.text.len();
    while piece > 0 {
        let mut at = 0;
        while at < small.text.len() && tries < MOST_TRIES {
            let end = (at + piece).min(small.text.len());
            let mut smaller = small.clone();
            smaller.text.drain(at..end);
            match judge_read(engine, &smaller) {
                Err(_) => small = smaller,
                Ok(_) => at = end,
            }
            tries += 1;
        }
        piece /= 2;
    }
    let still = judge_read(engine, &small).expect_err("the small case differs");
    let (name, room, text) = (&case.name, small.room, String::from_utf8_lossy(&small.text));
    format!("{name}: {what}\nmade small: {still}\nroom {room}, text {text:?}")
}

/// Leaves out clauses.
pub fn small_write(engine: &dyn Engine, case: &WriteCase, what: &str) -> String {
    let mut small = case.clone();
    let mut at = 0;
    for _ in 0..MOST_TRIES {
        let world = World::take_apart(&small.deck, &[]);
        let Some(mut world) = world.filter(|world| at < world.clauses.len()) else {
            break;
        };
        world.clauses.remove(at);
        let mut smaller = small.clone();
        smaller.deck = world.deck();
        match judge_write(engine, &smaller) {
            Err(_) => small = smaller,
            Ok(_) => at += 1,
        }
    }
    let still = judge_write(engine, &small).expect_err("the small case differs");
    let (name, room, deck) = (&case.name, small.room, &small.deck);
    format!("{name}: {what}\nmade small: {still}\nroom {room}, deck {deck:?}")
}
