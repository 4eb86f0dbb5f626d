//! What a grouping leaves unsaid: mark and rounds of the kept trial, its codelength, and how many nodes isolation passes moved.
use std::cell::Cell;

/// The rules' marks.
pub const REST: u32 = 0;
pub const SPENT: u32 = 1;
pub const NONE_KEPT: u32 = 2;

#[derive(Clone, Copy)]
pub struct Record {
    pub mark: u32,
    pub rounds: usize,
    pub codelength: f64,
    pub isolated: usize,
}

const NO_NODES: Record = Record {
    mark: REST,
    rounds: 0,
    codelength: f64::INFINITY,
    isolated: 0,
};

thread_local! {
    static KEPT: Cell<Record> = const { Cell::new(NO_NODES) };
    static LAST: Cell<(usize, bool)> = const { Cell::new((0, false)) };
}

/// Before a fit or a grouping: nothing recorded.
pub fn clear() {
    KEPT.set(NO_NODES);
}

/// A grouping begins: no trial is kept yet.
pub fn begin() {
    KEPT.set(Record {
        mark: NONE_KEPT,
        ..NO_NODES
    });
}

/// A trial ended after so many rounds, the last of which moved something or not.
pub fn trial(rounds: usize, moved: bool) {
    LAST.set((rounds, moved));
}

/// The last trial is the best so far.
pub fn keep(codelength: f64) {
    let (rounds, moved) = LAST.get();
    let old = KEPT.get();
    KEPT.set(Record {
        mark: if moved { SPENT } else { REST },
        rounds,
        codelength,
        isolated: old.isolated,
    });
}

/// An isolation pass moved a node.
pub fn isolated() {
    let mut r = KEPT.get();
    r.isolated += 1;
    KEPT.set(r);
}

pub fn kept() -> Record {
    KEPT.get()
}
