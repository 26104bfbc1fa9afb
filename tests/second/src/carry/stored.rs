//! The goals at the start of a store: refusal 12.

use super::{Fault, Given};
use crate::evaluation::Start;
use crate::goals::{Goal, Mark, GOAL_HEADER, MARK_WEIGHT, MOST_GOAL_WORDS};
use crate::reader::{Reader, Symbol};
use crate::world::renumber;

/// The pending goals, then the parked ones. Each takes words of the store, so counts of every size come to an end.
pub fn read(symbols: &[Symbol], store: &[u16], given: Given) -> Result<Start, Fault> {
    let mut rest = store;
    let mut start = Start::default();
    for _ in 0..given.pending {
        let (words, mark) = take(&mut rest)?;
        if mark != 0 {
            return Err(Fault::PendingMark);
        }
        start.pending.push(goal(symbols, words, given.terms)?);
    }
    for _ in 0..given.parked {
        let (words, mark) = take(&mut rest)?;
        let mark = parked_mark(mark)?;
        start
            .parked
            .push((goal(symbols, words, given.terms)?, mark));
    }
    Ok(start)
}

/// The words of the next goal, and its mark.
fn take<'a>(rest: &mut &'a [u16]) -> Result<(&'a [u16], u16), Fault> {
    let first = *rest.first().ok_or(Fault::End)?;
    let length = (first % MARK_WEIGHT) as usize;
    if length < GOAL_HEADER {
        return Err(Fault::Short);
    }
    if length > MOST_GOAL_WORDS {
        return Err(Fault::Long);
    }
    let (words, after) = rest.split_at_checked(length).ok_or(Fault::End)?;
    *rest = after;
    Ok((words, first / MARK_WEIGHT))
}

fn parked_mark(number: u16) -> Result<Mark, Fault> {
    match number {
        0 => Err(Fault::Unparked),
        1 => Ok(Mark::Floundered),
        2 => Ok(Mark::Undecided),
        3 => Ok(Mark::Oversized),
        4 => Ok(Mark::Deep),
        _ => Err(Fault::MarkOver),
    }
}

fn goal(symbols: &[Symbol], words: &[u16], terms: u64) -> Result<Goal, Fault> {
    let (header, cells) = words.split_at(GOAL_HEADER);
    let answer_cells = header[1] as usize;
    read_cells(symbols, cells, answer_cells, terms).map_err(|fault| {
        let mut numbered = cells.to_vec();
        renumber(&mut numbered);
        match read_cells(symbols, &numbered, answer_cells, terms) {
            Ok(_) => Fault::Numbering,
            Err(_) => fault,
        }
    })
}

/// Just the answer terms in the first cells, then literals to the last cell.
fn read_cells(
    symbols: &[Symbol],
    cells: &[u16],
    answer_cells: usize,
    terms: u64,
) -> Result<Goal, Fault> {
    let mut reader = Reader::new(symbols, cells);
    let answer = reader.terms(terms, answer_cells).ok_or(Fault::Terms)?;
    let literals = reader.literals().ok_or(Fault::Literals)?;
    Ok(Goal::new(answer, literals, reader.variables()))
}
