//! This evaluator with a slip put in, to see that the comparison finds it.

use super::judge::{hand, number, Engine};
use super::{components, solve, steps, Levels, Step, NUMBERS};
use crate::deck::{open, Deck};

pub struct Slip {
    pub name: &'static str,
    levels: fn(&[u16], &mut [u16], &mut u32) -> u32,
}

impl Engine for Slip {
    fn levels(&self, deck: &[u16], levels: &mut [u16], circular: &mut u32) -> u32 {
        (self.levels)(deck, levels, circular)
    }
}

/// The call, with other levels of an opened deck.
fn told(words: &[u16], list: &mut [u16], circular: &mut u32, levels: fn(&Deck) -> Levels) -> u32 {
    match open(words) {
        Ok(deck) => {
            let found = levels(&deck);
            hand(&found, list);
            *circular = number(&found);
            0
        }
        Err(number) => number,
    }
}

/// With other steps.
fn taken(deck: &Deck, steps: impl IntoIterator<Item = Step>) -> Levels {
    solve(deck.symbols.len(), &steps.into_iter().collect::<Vec<_>>())
}

/// With another predicate named, where one is.
fn named(deck: &Deck, name: fn(&Deck, u16) -> u16) -> Levels {
    let found = solve(deck.symbols.len(), &steps(deck));
    let circular = found.circular.map(|lowest| name(deck, lowest));
    Levels { circular, ..found }
}

/// Those in a circle with a "not", by symbol.
fn circles(deck: &Deck) -> Vec<bool> {
    let steps = steps(deck);
    let component = components(deck.symbols.len(), &steps);
    let within = |step: &&Step| step.negated && component[step.from] == component[step.to];
    let circles: Vec<usize> = steps.iter().filter(within).map(|step| component[step.from]).collect();
    component.iter().map(|number| circles.contains(number)).collect()
}

pub const SLIPS: [Slip; 20] = [
    Slip {
        name: "a not adds nothing",
        levels: |deck, list, circular| {
            told(deck, list, circular, |deck| {
                let found = taken(deck, steps(deck).into_iter().map(|step| Step { negated: false, ..step }));
                Levels { circular: taken(deck, steps(deck)).circular, ..found }
            })
        },
    },
    Slip {
        name: "every literal adds one",
        levels: |deck, list, circular| {
            told(deck, list, circular, |deck| taken(deck, steps(deck).into_iter().map(|step| Step { negated: true, ..step })))
        },
    },
    Slip {
        name: "the last literal of a body is not looked at",
        levels: |deck, list, circular| {
            told(deck, list, circular, |deck| {
                let cut = deck.clauses.iter().flat_map(|clause| {
                    let from = clause.head.symbol as usize;
                    let body = &clause.body[..clause.body.len().saturating_sub(1)];
                    body.iter().map(move |literal| Step { from, to: literal.atom.symbol as usize, negated: literal.negated })
                });
                taken(deck, cut)
            })
        },
    },
    Slip {
        name: "the last clause is not looked at",
        levels: |deck, list, circular| {
            told(deck, list, circular, |deck| {
                let last = deck.clauses.last().map_or(0, |clause| clause.body.len());
                let all = steps(deck);
                taken(deck, all[..all.len() - last].to_vec())
            })
        },
    },
    Slip {
        name: "the first clause is not looked at",
        levels: |deck, list, circular| {
            told(deck, list, circular, |deck| {
                let first = deck.clauses.first().map_or(0, |clause| clause.body.len());
                taken(deck, steps(deck).split_off(first))
            })
        },
    },
    Slip {
        name: "a circle of positive literals is named",
        levels: |deck, list, circular| {
            told(deck, list, circular, |deck| {
                let found = taken(deck, steps(deck));
                let any = taken(deck, steps(deck).into_iter().map(|step| Step { negated: true, ..step }));
                if any.circular.is_some() { any } else { found }
            })
        },
    },
    Slip {
        name: "the highest-numbered predicate is named",
        levels: |deck, list, circular| {
            told(deck, list, circular, |deck| {
                named(deck, |deck, lowest| circles(deck).iter().rposition(|on| *on).map_or(lowest, |at| at as u16))
            })
        },
    },
    Slip {
        name: "a chain may not pass a predicate twice",
        levels: |deck, list, circular| {
            told(deck, list, circular, |deck| {
                named(deck, |deck, lowest| {
                    let (steps, on) = (steps(deck), circles(deck));
                    let heads = steps.iter().filter(|step| step.negated && on[step.from] && on[step.to]);
                    heads.map(|step| step.from as u16).min().unwrap_or(lowest)
                })
            })
        },
    },
    Slip {
        name: "what leads to a circle is named",
        levels: |deck, list, circular| {
            told(deck, list, circular, |deck| {
                named(deck, |deck, lowest| {
                    let (steps, mut on) = (steps(deck), circles(deck));
                    for _ in 0..deck.symbols.len().min(40) {
                        steps.iter().for_each(|step| on[step.from] |= on[step.to]);
                    }
                    on.iter().position(|on| *on).map_or(lowest, |at| at as u16)
                })
            })
        },
    },
    Slip {
        name: "numbers are left where a predicate is named",
        levels: |deck, list, circular| {
            told(deck, list, circular, |deck| {
                let found = taken(deck, steps(deck));
                let without = taken(deck, steps(deck).into_iter().filter(|step| !step.negated || step.from != step.to));
                if found.circular.is_some() { Levels { numbers: without.numbers, ..found } } else { found }
            })
        },
    },
    Slip {
        name: "the name is the number, and not one more",
        levels: |deck, list, circular| {
            let refused = told(deck, list, circular, |deck| taken(deck, steps(deck)));
            *circular -= (refused == 0 && *circular > 1) as u32;
            refused
        },
    },
    Slip {
        name: "levels start from 1",
        levels: |deck, list, circular| {
            told(deck, list, circular, |deck| {
                let mut found = taken(deck, steps(deck));
                (0..deck.symbols.len()).for_each(|at| found.numbers[at] += found.circular.is_none() as u16);
                found
            })
        },
    },
    Slip {
        name: "functors have the level above",
        levels: |deck, list, circular| {
            told(deck, list, circular, |deck| {
                let mut found = taken(deck, steps(deck));
                for (at, symbol) in deck.symbols.iter().enumerate() {
                    found.numbers[at] += (!symbol.predicate && found.circular.is_none()) as u16;
                }
                found
            })
        },
    },
    Slip {
        name: "no level is above 255",
        levels: |deck, list, circular| {
            told(deck, list, circular, |deck| {
                let found = taken(deck, steps(deck));
                let numbers = found.numbers.iter().map(|number| (*number).min(255)).collect();
                Levels { numbers, ..found }
            })
        },
    },
    Slip {
        name: "a word behind the numbers is cleared",
        levels: |deck, list, circular| {
            let refused = told(deck, list, circular, |deck| taken(deck, steps(deck)));
            if let (0, Some(word)) = (refused, list.get_mut(NUMBERS)) {
                *word = 0;
            }
            refused
        },
    },
    Slip {
        name: "a short list is left as it was",
        levels: |deck, list, circular| {
            let room = if list.len() < NUMBERS { 0 } else { list.len() };
            told(deck, &mut list[..room], circular, |deck| taken(deck, steps(deck)))
        },
    },
    Slip {
        name: "the list is cleared on a refusal",
        levels: |deck, list, circular| {
            let refused = told(deck, list, circular, |deck| taken(deck, steps(deck)));
            if refused > 0 {
                list.fill(0);
            }
            refused
        },
    },
    Slip {
        name: "the name is cleared on a refusal",
        levels: |deck, list, circular| {
            let refused = told(deck, list, circular, |deck| taken(deck, steps(deck)));
            *circular *= (refused == 0) as u32;
            refused
        },
    },
    Slip {
        name: "a loose variable is refused",
        levels: |deck, list, circular| match open(deck) {
            Ok(opened) if crate::loose::deck(&opened).is_err() => 13,
            _ => told(deck, list, circular, |deck| taken(deck, steps(deck))),
        },
    },
    Slip {
        name: "only the first hundred predicates are tried for the name",
        levels: |deck, list, circular| {
            told(deck, list, circular, |deck| named(deck, |_, lowest| if lowest < 100 { lowest } else { 0 }))
        },
    },
];
