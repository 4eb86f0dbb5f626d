//! Empty traces. The Rust refuses them; it is given the list without them, and the trace of its refusal is counted back. Also the fits with empty
//! traces that are made and listed.
use crate::fit::{timed_pair, twice, Fit, Fix};
use crate::grid;
use crate::random::Random;

/// A list of traces without its empty ones, and the number of each in the whole list.
pub struct Walked<T> {
    pub traces: Vec<Vec<T>>,
    numbers: Vec<usize>,
    all: usize,
}

impl<T> Walked<T> {
    pub fn of(traces: Vec<Vec<T>>) -> Self {
        let all = traces.len();
        let (numbers, traces) = traces
            .into_iter()
            .enumerate()
            .filter(|(_, t)| !t.is_empty())
            .unzip();
        Self {
            traces,
            numbers,
            all,
        }
    }

    /// There are traces, and nobody walked: 18.
    pub fn only_empty(&self) -> bool {
        self.all > 0 && self.traces.is_empty()
    }

    /// The trace of a refusal in the whole list; 12 to 15 are about one.
    pub fn counted_back(&self, number: u32, trace: usize) -> usize {
        if (12..=15).contains(&number) {
            self.numbers[trace]
        } else {
            0
        }
    }
}

/// `count` empty traces before the trace `at`, or behind the last.
fn put(fit: &Fit, at: usize, count: usize) -> Fit {
    let mut out = fit.clone();
    out.traces.splice(at..at, vec![Vec::new(); count]);
    out
}

/// Empty traces before each trace and behind the last.
fn around_all(fit: &Fit) -> Fit {
    let mut out = fit.clone();
    out.traces = vec![Vec::new()];
    for t in &fit.traces {
        out.traces.push(t.clone());
        out.traces.push(Vec::new());
    }
    out
}

/// At the front, in the middle where there is one, at the end, several in a row at each, and around all.
fn everywhere(fit: &Fit) -> Vec<Fit> {
    let last = fit.traces.len();
    let mut places = vec![0, last / 2, last];
    places.dedup();
    let mut fits = Vec::new();
    for count in [1, 3] {
        for &at in &places {
            fits.push(put(fit, at, count));
        }
    }
    fits.push(around_all(fit));
    fits
}

/// One to four runs of empty traces, of one to three each, up to 256 traces in all.
pub fn scatter(r: &mut Random, fit: &mut Fit) {
    for _ in 0..r.between(1, 4) {
        let at = r.between(0, fit.traces.len());
        let count = r.between(1, 3);
        if fit.traces.len() + count <= 256 {
            *fit = put(fit, at, count);
        }
    }
}

/// Lists of only empty traces, also behind settings that are refused.
fn only_empty() -> Vec<Fit> {
    let of = |n: usize| Fit::with(vec![Vec::new(); n]);
    let mut fits: Vec<Fit> = [0, 1, 2, 3, 255, 256].map(of).into();
    fits.push(Fit { single: 0, ..of(2) });
    fits.push(Fit { r1: 0.0, ..of(2) });
    fits.push(Fit { size: 1, ..of(2) });
    fits.push(Fit {
        resolution: -1.0,
        ..of(2)
    });
    fits.push(Fit {
        resolution: 1e-9,
        ..of(2)
    });
    fits
}

/// Traces that the Rust refuses, with 12 to 15.
fn faults() -> [Vec<Fix>; 4] {
    [
        vec![(0.0, 0.0, None), (f64::NAN, 0.0, None)],
        vec![(0.0, 0.0, Some(1.0)), (0.0, 0.0, Some(f64::INFINITY))],
        vec![(0.0, 0.0, Some(1.0)), (0.0, 0.0, None)],
        timed_pair(2.0, 1.0),
    ]
}

/// Refusals of a trace with empty ones before it, behind it and around it; the Rust's message names no trace where one alone has a fix.
fn refused() -> Vec<Fit> {
    let mut fits = Vec::new();
    for fault in faults() {
        let alone = Fit::with(vec![fault.clone()]);
        let second = Fit::with(vec![twice(0.0, 0.0), fault, twice(1.0, 0.0)]);
        fits.push(put(&alone, 0, 1));
        fits.push(put(&alone, 0, 3));
        fits.push(around_all(&alone));
        fits.push(put(&second, 0, 1));
        fits.push(put(&second, 1, 2));
        fits.push(put(&second, 2, 1));
        fits.push(around_all(&second));
    }
    fits
}

/// Two traces with a fault each and empty ones around both: the first is named.
fn two_refused() -> Vec<Fit> {
    let faults = faults();
    let pair = |i: usize| vec![faults[i].clone(), faults[(i + 1) % 4].clone()];
    (0..4).map(|i| around_all(&Fit::with(pair(i)))).collect()
}

/// An empty trace between two whose times fall from the one to the other, and between one with times and one without: no fault.
fn unlike() -> Vec<Fit> {
    let late = timed_pair(1000.0, 1300.0);
    [timed_pair(0.0, 300.0), twice(5.0, 0.0)]
        .map(|t| put(&Fit::with(vec![late.clone(), t]), 1, 1))
        .into()
}

/// The list of fits with empty traces: `tracks` and others with empty traces in every place, and `count` made ones.
pub fn fixed(r: &mut Random, tracks: &[Fit], count: usize) -> Vec<Fit> {
    let mut fits = only_empty();
    for track in tracks {
        fits.extend(everywhere(track));
    }
    fits.push(Fit {
        single: 0,
        ..put(&Fit::with(vec![twice(0.0, 0.0)]), 0, 1)
    });
    let many = Fit::with(vec![twice(0.0, 0.0), twice(10.0, 0.0)]);
    for at in [0, 1, 2] {
        fits.push(put(&many, at, 254));
    }
    fits.extend(refused());
    fits.extend(two_refused());
    fits.extend(unlike());
    for _ in 0..count {
        let mut fit = grid::made(r, 1);
        scatter(r, &mut fit);
        fits.push(fit);
    }
    fits
}
