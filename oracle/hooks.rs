//! What the patched copies of region.rs report to the line program, and where they are stopped.
//!
//! The words are paper 01's: a step takes one candidate from the queue; 7 when the queue would hold 1,025 candidates,
//! 8 when a 1,025th raw cell would be kept, 9 when the queue isn't empty and the allowance is used up, looked at before
//! each step. Once a run is refused, nothing more is added and no step is taken. Set aside are, in an outer run, a start
//! cell that fails, and the failed cells of the expansion of a candidate that is handed on to its children or has none:
//! each under the place of its start cell, paper 02's request h, or, in the build `total`, all under one.

use crate::s2::cellid::{CellID, MAX_LEVEL};
use std::cell::{Cell, RefCell};

/// The most places that the line program's output has.
pub const ROOM: u128 = 65_536;
const LIMIT: usize = 1_024;
/// Start cells, at most.
pub const PLACES: usize = 6;

/// One run: the allowance that it was given, whether its steps are to be told, and what it has reported so far.
#[derive(Default)]
pub struct Run {
    pub allowance: u64,
    pub watched: bool,
    pub steps: u64,
    /// Leaves set aside by the place of the start cell.
    pub aside: [u64; PLACES],
    /// Leaves set aside, where no candidate has a place.
    pub total: u64,
    /// 7, 8 or 9 once the run is refused, else 0.
    pub refused: u8,
    pub starts: Vec<CellID>,
    pub raw: Vec<CellID>,
    /// Published cost, id and place, where it has one, of each candidate taken.
    pub taken: Vec<String>,
    /// Id, cost in the request's edition and place of the last.
    pub last: String,
    /// What stands after each step, from that of the start cells on, in the words of the program `steps`.
    pub stood: Vec<String>,
    /// How often a cell was queued while the same cell was, from another start cell.
    pub twins: u64,
    /// A list would have become longer than ROOM and was left as it was.
    pub long: bool,
}

thread_local! {
    static RUN: RefCell<Run> = RefCell::new(Run::default());
    static EDITION: Cell<u64> = const { Cell::new(1) };
}

fn with<T>(f: impl FnOnce(&mut Run) -> T) -> T {
    RUN.with(|run| f(&mut run.borrow_mut()))
}

pub fn begin(allowance: u64, edition: u64, watched: bool) {
    EDITION.set(edition);
    with(|run| *run = Run { allowance, watched, ..Run::default() })
}

/// The edition of the queue's order that the request names.
pub fn edition() -> u64 {
    EDITION.get()
}

/// What the edition's order comes to as one number, before id and place, of a candidate with this published cost: in edition 2 a level and a child
/// weigh one more than 4^level_mod, so that no count carries.
pub fn cost(published: isize, level_mod: u8, (level, children, terminals): (u8, usize, usize)) -> isize {
    let weight = (1 << (2 * level_mod)) + 1;
    let by_level = (level as isize * weight + children as isize) * weight + terminals as isize;
    if edition() == 2 { by_level } else { published }
}

pub fn end() -> Run {
    with(std::mem::take)
}

pub fn leaves(id: &CellID) -> u64 {
    1 << (2 * (MAX_LEVEL - id.level()))
}

pub fn refused() -> bool {
    with(|run| run.refused != 0)
}

/// Before each step, with the queue's length.
pub fn may_step(queue: usize) -> bool {
    with(|run| {
        if run.refused == 0 && queue > 0 {
            if run.steps == run.allowance {
                run.refused = 9;
            } else {
                run.steps += 1;
            }
        }
        run.refused == 0
    })
}

pub fn taken(priority: isize, id: &CellID) {
    with(|run| run.taken.push(format!("{}:{:016x}", -priority, id.0)))
}

pub fn taken_from(priority: isize, cost: isize, id: &CellID, place: usize) {
    with(|run| {
        run.taken.push(format!("{}:{:016x}:{place}", -priority, id.0));
        run.last = format!("{:016x} {cost} {place}", id.0);
    })
}

/// With the cells kept and the queue's candidates, cost, id and place of each, in any order: before each step, and at the end, where the queue is empty.
pub fn stands(kept: &[CellID], queue: impl Iterator<Item = (isize, CellID, usize)>) {
    with(|run| {
        if !run.watched || run.refused != 0 {
            return;
        }
        let mut queued: Vec<_> = queue.map(|(cost, id, place)| (cost, id.0, place)).collect();
        queued.sort();
        let taken = if run.steps == 0 { "0000000000000000 0 0" } else { &run.last };
        let mut words = vec![format!("step {} {taken} {} {}", run.steps, kept.len(), queued.len())];
        words.extend(run.aside.iter().map(u64::to_string));
        words.extend(kept.iter().map(|id| format!("{:016x}", id.0)));
        words.extend(queued.iter().map(|(cost, id, place)| format!("{id:016x} {cost} {place}")));
        run.stood.truncate(run.steps as usize);
        run.stood.push(words.join(" "));
    })
}

/// Before a candidate is queued, with the queue's length.
pub fn may_queue(queue: usize) -> bool {
    with(|run| {
        if queue == LIMIT {
            run.refused = 7;
        }
        run.refused == 0
    })
}

/// Before a candidate is queued, with whether the same cell waits there from another start cell.
pub fn queued(twin: bool) {
    with(|run| run.twins += u64::from(twin))
}

/// Before a cell is kept, with the number of cells kept so far.
pub fn may_keep(kept: usize) -> bool {
    with(|run| {
        if kept == LIMIT {
            run.refused = 8;
        }
        run.refused == 0
    })
}

pub fn set_aside(inner: bool, leaves: u64) {
    if !inner {
        with(|run| run.total += leaves)
    }
}

pub fn set_aside_at(inner: bool, place: usize, leaves: u64) {
    if !inner {
        with(|run| run.aside[place] += leaves)
    }
}

pub fn starts(cells: &[CellID]) {
    with(|run| run.starts = cells.to_vec())
}

pub fn raw(cells: &[CellID]) {
    with(|run| run.raw = cells.to_vec())
}

/// How many cells a list has once denormalised, by paper 01's rule.
pub fn denormalized(cells: &[CellID], min: u64, step: u64) -> u128 {
    let count = |id: &CellID| {
        let m = id.level().max(min);
        let level = (m + (30 - (m - min)) % step).min(30);
        1u128 << (2 * (level - id.level()))
    };
    cells.iter().map(count).sum()
}

/// Before fast covering denormalises: a list that would not fit is reported and left as it is.
pub fn room(cells: &[CellID], min: u64, step: u64) -> bool {
    let fits = denormalized(cells, min, step) <= ROOM;
    with(|run| run.long |= !fits);
    fits
}
