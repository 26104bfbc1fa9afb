//! Makes a failing case smaller while it still fails, and tells it.

use super::judge::{judge, Engine};
use super::LevelCase;
use crate::world::World;

const MOST_TRIES: usize = 300;

/// Leaves out clauses.
pub fn small(engine: &dyn Engine, case: &LevelCase, what: &str) -> String {
    let mut small = case.clone();
    let mut at = 0;
    for _ in 0..MOST_TRIES {
        let world = World::take_apart(&small.deck, &[]);
        let Some(mut world) = world.filter(|world| at < world.clauses.len()) else {
            break;
        };
        world.clauses.remove(at);
        let smaller = LevelCase { deck: world.deck(), ..small.clone() };
        match judge(engine, &smaller) {
            Err(_) => small = smaller,
            Ok(_) => at += 1,
        }
    }
    let still = judge(engine, &small).expect_err("the small case differs");
    let (name, room, deck) = (&case.name, small.room, &small.deck);
    format!("{name}: {what}\nmade small: {still}\nroom {room}, deck {deck:?}")
}
