//! Random cases, fixed by their seeds.

pub mod carries;
mod damage;
pub(crate) mod dice;
mod families;
pub(crate) mod formats;
pub mod levels;
mod limits;
pub mod means;
pub(crate) mod members;
pub mod previews;
mod programs;
mod rows;
mod signature;
pub(crate) mod sizes;
mod stress;
pub mod texts;
mod tight;

use crate::case::Case;
use crate::world::World;
pub use dice::Dice;
use tight::Ways;

/// A way to make worlds.
struct Family {
    name: &'static str,
    /// How often it is drawn.
    weight: usize,
    most_cost: u32,
    make: fn(&mut Dice) -> World,
    /// How loose variables are dealt with.
    ways: Ways,
    tune: fn(&mut Dice, &mut Case),
}

const fn family(name: &'static str, weight: usize, make: fn(&mut Dice) -> World) -> Family {
    Family {
        name,
        weight,
        most_cost: 12_000,
        make,
        ways: Ways::Any,
        tune: |_, _| (),
    }
}

/// Of the terms and goals that it is made for nothing is taken away.
const fn exact(name: &'static str, weight: usize, make: fn(&mut Dice) -> World) -> Family {
    Family {
        ways: Ways::Literals,
        ..family(name, weight, make)
    }
}

const FAMILIES: [Family; 20] = [
    family("mixed", 24, families::mixed),
    family("graph", 14, families::graph),
    family("lists", 10, programs::lists),
    family("numbers", 4, programs::numbers),
    family("flounder", 8, families::flounder),
    family("chain", 8, families::chain),
    exact("parity", 4, families::parity),
    exact("flood", 8, stress::flood),
    exact("brink", 4, stress::brink),
    exact("crowd", 3, stress::crowd),
    exact("nested", 4, stress::nested),
    exact("doubling", 5, stress::doubling),
    exact("twins", 2, stress::twins),
    exact("vast", 2, stress::vast),
    exact("many", 2, limits::many_variables),
    exact("rows", 6, rows::rows),
    exact("full", 1, rows::full),
    family("wide", 3, limits::wide),
    Family {
        most_cost: 60_000,
        tune: limits::large_sizes,
        ..family("large", 1, limits::large)
    },
    Family {
        tune: limits::rich_sizes,
        ..family("rich", 1, limits::rich)
    },
];

/// Most worlds are made tight; of some of those, variables are made loose again.
fn settle(dice: &mut Dice, world: &mut World, ways: Ways) -> &'static str {
    match dice.weighted(&[2, 9, 49]) {
        0 => "-asmade",
        1 => {
            tight::make_tight(dice, world, ways);
            tight::loosen(dice, world);
            "-loose"
        }
        _ => {
            tight::make_tight(dice, world, ways);
            ""
        }
    }
}

/// The case of a seed; the same for ever.
pub fn case(seed: u64) -> Case {
    let mut dice = Dice::new(seed);
    let weights: Vec<usize> = FAMILIES.iter().map(|family| family.weight).collect();
    let family = &FAMILIES[dice.weighted(&weights)];
    made(seed, dice, family)
}

/// A case of one family of worlds.
pub fn case_of(name: &str, seed: u64) -> Case {
    let named = FAMILIES.iter().find(|family| family.name == name);
    made(seed, Dice::new(seed), named.expect("a family of this name"))
}

fn made(seed: u64, mut dice: Dice, family: &Family) -> Case {
    let mut world = (family.make)(&mut dice);
    let settled = settle(&mut dice, &mut world, family.ways);
    formats::some(seed, &mut world);
    let mut case = sizes::sized(&mut dice, &world, family.most_cost);
    (family.tune)(&mut dice, &mut case);
    case.name = format!("{}-{seed}{settled}", family.name);
    if dice.chance(1, 5) {
        damage::damage(&mut dice, world, &mut case);
        case.name.push_str("-damaged");
    }
    case.bars = members::for_query(&mut Dice::new(seed ^ 0xba55), &case);
    case
}

/// Bytes for the program: the deck's file, if any, and standard input.
pub fn program_case(seed: u64) -> (Option<Vec<u8>>, Vec<u8>) {
    let case = case(seed);
    let mut dice = Dice::new(!seed);
    let mut deck = bytes(&case.deck);
    let mut query = bytes(&case.query);
    match dice.below(20) {
        0 => return (None, query),
        1 => deck.push(dice.word() as u8),
        2 => query.push(dice.word() as u8),
        3 => deck.resize(32_766 + dice.below(6), 0),
        4 => query.resize(998 + dice.below(6), 0),
        _ => {}
    }
    (Some(deck), query)
}

fn bytes(words: &[u16]) -> Vec<u8> {
    words.iter().flat_map(|word| word.to_le_bytes()).collect()
}
