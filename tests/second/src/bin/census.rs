//! How often each thing happens over a stretch of seeds.
//!
//! `census [cases] [first seed]`

use second::random::case;
use second::{Case, Outcome, Stop};
use std::collections::BTreeMap;
use std::time::{Duration, Instant};

#[derive(Default)]
struct Census {
    counts: BTreeMap<String, usize>,
    steps: u64,
    cost: u64,
    slowest: Option<(Duration, String)>,
}

fn main() {
    let mut arguments = std::env::args().skip(1);
    let mut number = |otherwise| {
        let argument = arguments.next();
        argument.map_or(otherwise, |text| text.parse().expect("a number"))
    };
    let (cases, first): (u64, u64) = (number(20_000), number(0));
    let mut census = Census::default();
    let start = Instant::now();
    for seed in first..first + cases {
        census.add(&case(seed));
    }
    let spent = start.elapsed();
    for (what, count) in &census.counts {
        println!("{count:8}  {what}");
    }
    println!(
        "{cases} cases, {} steps of cost {}, {spent:.1?}",
        census.steps, census.cost
    );
    if let Some((time, name)) = &census.slowest {
        println!("slowest: {name}, {time:.1?}");
    }
}

impl Census {
    fn add(&mut self, case: &Case) {
        let start = Instant::now();
        let result = case.run();
        let spent = start.elapsed();
        if self.slowest.as_ref().is_none_or(|(time, _)| *time < spent) {
            self.slowest = Some((spent, case.name.clone()));
        }
        let family = case.name.split('-').next().unwrap_or_default();
        self.count(format!("family {family}"));
        match result {
            Err(number) => {
                self.count(format!("refused {number}"));
                if family == "rows" {
                    self.count(format!("rows: refused {number}"));
                }
            }
            Ok(outcome) => self.add_run(case, &outcome),
        }
    }

    fn count(&mut self, what: String) {
        *self.counts.entry(what).or_default() += 1;
    }

    fn add_run(&mut self, case: &Case, outcome: &Outcome) {
        self.steps += outcome.steps as u64;
        self.cost += outcome.cost as u64;
        self.count(format!("stop {:?}", outcome.stop));
        if outcome.stop == Stop::Store {
            let sizes = ["1024", "1025-4096", "4097-16384", "16385-65535"];
            let size = case.store_words;
            let place =
                (size > 1_024) as usize + (size > 4_096) as usize + (size > 16_384) as usize;
            self.count(format!("stop Store of {}", sizes[place]));
        }
        if outcome.answer_list().len() > 65_535 {
            self.count("answers over 65,535 words".into());
        }
        if outcome.watch.rows.get() > 0 {
            self.count(format!("rows: stop {:?}", outcome.stop));
        }
        if outcome.watch.empty_rows.get() > 0 {
            self.count("rows: no clause to try".into());
        }
        if case.name.ends_with("damaged") {
            self.count("ran though damaged".into());
        }
        let answers = ["none", "one", "more"][outcome.answers.len().min(2)];
        self.count(format!("answers {answers}"));
        let steps = ["0", "1-9", "10-99", "100-999", "1000-"];
        let digits = match outcome.steps {
            0 => 0,
            steps => steps.ilog10() as usize + 1,
        };
        self.count(format!("steps {}", steps[digits.min(4)]));
        self.add_watch(case, outcome);
    }

    fn add_watch(&mut self, case: &Case, outcome: &Outcome) {
        let watch = &outcome.watch;
        for mark in 1..5 {
            if watch.parked[mark] > 0 {
                self.count(format!("mark {mark} at level 0"));
            }
            if watch.parked_deeper[mark] > 0 {
                self.count(format!("mark {mark} deeper"));
            }
        }
        for (how, count) in ["succeeded", "clean", "undecided"].iter().zip(watch.closed) {
            if count > 0 {
                self.count(format!("inner level {how}"));
            }
        }
        let depth = ["0", "1", "2", "3-7", "8-31", "32"];
        let place = match watch.deepest {
            32 => 5,
            8.. => 4,
            3.. => 3,
            few => few,
        };
        self.count(format!("deepest level {}", depth[place]));
        self.add_brinks(case, outcome);
    }

    /// Runs that just fit, or just didn't.
    fn add_brinks(&mut self, case: &Case, outcome: &Outcome) {
        let watch = &outcome.watch;
        if watch.longest == 1_024 {
            self.count("brink: a goal of 1,024 words".into());
        }
        if watch.most_held == case.store_words {
            self.count("brink: store just full".into());
        }
        if watch.refused_held == case.store_words + 1 {
            self.count("brink: store one word short".into());
        }
        if case.answer_words > 0 && outcome.answer_list().len() == case.answer_words {
            self.count("brink: answer list just full".into());
        }
        if outcome.stop == Stop::Finished && outcome.cost == case.budget {
            self.count("brink: budget just enough".into());
        }
        let more = |budget: u32| {
            let case = Case {
                budget,
                ..case.clone()
            };
            case.run().expect("accepted as before").steps > outcome.steps
        };
        if outcome.stop == Stop::Budget && watch.left > 0 {
            self.count("brink: budget left".into());
            if more(case.budget + 1) {
                self.count("brink: budget one short".into());
            }
        }
        if watch.unpaid.get() {
            self.count("brink: an oversized goal not paid".into());
        }
        if case.budget == u32::MAX {
            self.count("brink: the greatest budget".into());
        }
    }
}
