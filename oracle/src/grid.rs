//! Fits with a resolution: the fixed ones of the list, and made ones for the comparison at scale.
use crate::fit::{timed_pair, twice, untimed, Fit, Fix};
use crate::random::Random;

/// The smallest resolution above zero that the rules accept.
pub const LEAST: f64 = 1.0 / 1024.0;
/// The largest.
pub const MOST: f64 = 1e6;
const COORDINATE: f64 = 1e9;

/// Steps of the fixed fits.
const STEPS: [f64; 11] =
    [LEAST, 0.1, 0.25, 0.3, 1.0, 3.3, 7.0, 1000.0, 12_345.678, 1e5, MOST];

/// The value whose quotient by the step is exactly k + 1/2, or the nearest there is.
fn half(k: f64, step: f64) -> f64 {
    let c = (k + 0.5) * step;
    [c, c.next_up(), c.next_down()]
        .into_iter()
        .find(|c| c / step == k + 0.5)
        .unwrap_or(c)
}

/// Places at half a step on both sides of zero, and beside them.
fn halves(step: f64) -> Vec<Fit> {
    let mut fits = Vec::new();
    let far = (COORDINATE / step / 2.0).floor();
    for ks in [vec![-3.0, -2.0, -1.0, 0.0, 1.0, 2.0], vec![far, -far - 1.0]] {
        for moved in [|c: f64| c, f64::next_up, f64::next_down] {
            let traces = ks
                .iter()
                .map(|&k| {
                    let c = moved(half(k, step));
                    twice(c, -c)
                })
                .collect();
            fits.push(Fit {
                r2: step,
                resolution: step,
                ..Fit::with(traces)
            });
        }
    }
    // The half is a median of two fixes, in a trace with two stays.
    let (a, b) = (half(2.0, step), half(-3.0, step));
    let quarter = step / 4.0;
    fits.push(Fit {
        r1: step,
        r2: 6.0 * step,
        resolution: step,
        ..Fit::with(vec![untimed(&[
            (a - quarter, 0.0),
            (a + quarter, 0.0),
            (b + quarter, b),
            (b - quarter, b),
        ])])
    });
    fits
}

/// Medians that become a zero of either sign: two places by bits, at distance 0.
fn zeros() -> Vec<Fit> {
    let below = 0.5f64.next_down();
    let mut fits = Vec::new();
    for (step, xs) in [
        (1.0, vec![-0.3, 0.2, 0.0, -0.0]),
        (1.0, vec![-below, below, -0.5, 0.5]),
        (7.0, vec![-3.4, 3.4, -f64::from_bits(1), f64::from_bits(1)]),
        (LEAST, vec![-1e-4, 1e-4, -0.0]),
        (MOST, vec![-3e5, 4e5, -4.9e5]),
    ] {
        for (single, r2) in [(1, 10.0), (0, 10.0), (1, 1e-300), (0, 1e-300)] {
            let mut traces: Vec<Vec<Fix>> =
                xs.iter().map(|&x| twice(x, 0.0)).collect();
            traces.extend(xs.iter().map(|&x| twice(x, -x)));
            fits.push(Fit {
                r2,
                single,
                resolution: step,
                ..Fit::with(traces)
            });
        }
    }
    for x in [-0.3, 0.3, -0.0] {
        fits.push(Fit {
            resolution: 1.0,
            ..Fit::with(vec![twice(x, x)])
        });
    }
    fits
}

/// Huts in a row, ten apart, stood at so many times each, near the hut: with a resolution one place each.
fn together(visits: &[usize], resolution: f64, single: u32) -> Fit {
    let drift = [0.4, -0.2, 0.1, -0.45, 0.3, 0.0];
    let mut traces = Vec::new();
    for (hut, &n) in visits.iter().enumerate() {
        for v in 0..n {
            let x = 10.0 * hut as f64 + drift[v % 6];
            traces.push(twice(x, drift[(v + hut) % 6]));
        }
    }
    Fit {
        single,
        resolution,
        ..Fit::with(traces)
    }
}

/// Places that fall together, with and without the grid: a larger count, other links and labels.
fn falling_together() -> Vec<Fit> {
    let mut fits = Vec::new();
    for visits in [
        &[2][..],
        &[1, 3],
        &[3, 1, 3],
        &[1, 4, 1, 1, 4, 1],
        &[5, 1, 1, 5, 2, 2, 6],
    ] {
        for resolution in [0.0, -0.0, 1.0, 2.5, 10.0, 25.0, 1000.0] {
            for single in [0, 1] {
                fits.push(together(visits, resolution, single));
            }
        }
    }
    fits
}

/// Places near the limit of coordinates, some beyond it on the grid.
fn far() -> Vec<Fit> {
    let mut fits = Vec::new();
    for step in [LEAST, 0.3, 3.0, 7.0, 999_500.0, 999_983.0, MOST] {
        for r2 in [10.0, 1e9, 2_000_000_002.0, 2.9e9] {
            let c = COORDINATE;
            let traces = [
                (c, c),
                (-c, -c),
                (c, -c),
                (c - 400_000.0, c - 3.0),
                (-c + 600_000.0, 0.0),
                (0.0, -c),
            ]
            .iter()
            .map(|p| twice(p.0, p.1))
            .collect();
            fits.push(Fit {
                r2,
                resolution: step,
                ..Fit::with(traces)
            });
        }
    }
    fits
}

/// Medians that are exactly r2 apart on the grid, and were nearer or farther; and multiples of 0.1 whose difference is not the step.
fn ties() -> Vec<Fit> {
    let mut fits = Vec::new();
    for (a, b) in [
        (0.4, 10.4),
        (-0.4, 10.4),
        (0.4, 9.6),
        (-0.5, 9.5),
        (0.5, 10.5),
        (-0.4, 10.5),
    ] {
        let traces = vec![twice(a, 0.0), twice(b, 0.3)];
        fits.push(Fit {
            resolution: 1.0,
            ..Fit::with(traces.clone())
        });
        fits.push(Fit {
            resolution: 1.0,
            single: 0,
            ..Fit::with(traces)
        });
    }
    for r2 in [0.1, 0.2, 0.3, 0.30000000000000004, 0.7] {
        let traces = (0..8).map(|k| twice(0.1 * f64::from(k), 0.0)).collect();
        fits.push(Fit {
            r2,
            resolution: 0.1,
            ..Fit::with(traces)
        });
    }
    for r2 in [5.0, 35.0, 34.99999999999999] {
        let traces = vec![twice(1.0, 2.0), twice(20.0, 27.0), twice(3.0, 30.0)];
        fits.push(Fit {
            r2,
            resolution: 7.0,
            ..Fit::with(traces)
        });
    }
    fits
}

/// Stays that the rounded median would end: a fix joins by the median as it is.
fn joins() -> Vec<Fit> {
    let trace = untimed(&[
        (3.4, 0.0),
        (3.0, 0.5),
        (3.2, 0.0),
        (100.0, 3.0),
        (100.5, 3.4),
        (7.4, 7.4),
        (6.9, 7.9),
        (10.0, 7.0),
    ]);
    let mut fits = Vec::new();
    for resolution in [0.0, 1.0, 7.0, 50.0, 1000.0] {
        for r1 in [0.6, 1.0, 3.1] {
            fits.push(Fit {
                r1,
                resolution,
                ..Fit::with(vec![trace.clone()])
            });
        }
    }
    fits
}

/// 23 and 24 at their edges, and what is accepted there.
fn edges(good: &Fit) -> Vec<Fit> {
    let least = f64::from_bits(1);
    [
        f64::NAN,
        f64::INFINITY,
        f64::NEG_INFINITY,
        -1.0,
        -least,
        -LEAST,
        -f64::MIN_POSITIVE,
        f64::MIN,
        -0.0,
        0.0,
        least,
        f64::MIN_POSITIVE,
        1e-4,
        LEAST.next_down(),
        LEAST,
        LEAST.next_up(),
        1.0,
        MOST.next_down(),
        MOST,
        MOST.next_up(),
        1e9,
        f64::MAX,
    ]
    .into_iter()
    .map(|resolution| Fit {
        resolution,
        ..good.clone()
    })
    .collect()
}

/// A fit with a refused resolution: each of 1 to 6 before it, then refusals of tracks behind it.
fn order(bad: &Fit) -> Vec<Fit> {
    let mut fits = vec![
        Fit { r1: 0.0, ..bad.clone() },
        Fit { r2: -1.0, ..bad.clone() },
        Fit { stay: f64::NAN, ..bad.clone() },
        Fit { gap: f64::INFINITY, ..bad.clone() },
        Fit { gap: bad.stay, ..bad.clone() },
        Fit { size: 1, ..bad.clone() },
    ];
    for traces in [
        vec![],
        vec![Vec::new()],
        vec![twice(f64::NAN, 0.0)],
        vec![timed_pair(0.0, f64::INFINITY)],
        vec![vec![(0.0, 0.0, Some(1.0)), (0.0, 0.0, None)]],
        vec![timed_pair(2.0, 1.0)],
        vec![twice(2e9, 0.0)],
        vec![untimed(&[(0.0, 0.0)])],
    ] {
        fits.push(Fit {
            traces,
            ..bad.clone()
        });
    }
    fits
}

fn refused() -> Vec<Fit> {
    let good = Fit::with(vec![twice(0.3, -0.3), twice(7.0, 2.5)]);
    let mut fits = edges(&good);
    for resolution in [f64::NAN, -1.0, f64::from_bits(1), MOST.next_up()] {
        fits.extend(order(&Fit {
            resolution,
            ..good.clone()
        }));
    }
    fits
}

/// The fixed fits with a resolution, and `count` made ones of few fixes.
pub fn fixed(r: &mut Random, count: usize) -> Vec<Fit> {
    let mut fits: Vec<Fit> = STEPS.iter().flat_map(|&s| halves(s)).collect();
    fits.extend(zeros());
    fits.extend(falling_together());
    fits.extend(far());
    fits.extend(ties());
    fits.extend(joins());
    fits.extend(refused());
    for _ in 0..count {
        fits.push(made(r, 3));
    }
    fits
}

/// Resolutions of made fits: those that the counts name, others that are accepted, and seldom a refused one.
fn resolution(r: &mut Random) -> f64 {
    if r.chance(60) {
        return r.pick(&[
            f64::NAN,
            f64::INFINITY,
            -1.0,
            -f64::from_bits(1),
            f64::from_bits(1),
            LEAST.next_down(),
            MOST.next_up(),
            1e9,
        ]);
    }
    if r.chance(4) {
        let exponent = r.between(0, 28) as i32 - 9;
        return (f64::powi(2.0, exponent) * (0.5 + r.unit())).min(MOST);
    }
    r.pick(&[0.0, -0.0, LEAST, 0.1, 0.25, 1.0, 7.0, 1000.0, MOST])
}

/// A coordinate of a hut: on the grid, at half a step, near either, anywhere, tiny, or near the limit.
fn hut(r: &mut Random, kind: usize, step: f64) -> f64 {
    let k = r.below(13) as f64 - 6.0;
    let c = match kind {
        0 => k * step,
        1 => half(k, step),
        2 => (k + r.unit()) * step,
        3 => (r.unit() - 0.5) * 30.0 * step,
        4 => r.below(41) as f64 - 20.0,
        5 => {
            let tiny = f64::from_bits(r.below(9) as u64);
            tiny * r.pick(&[1.0, -1.0])
        }
        6 => r.pick(&[COORDINATE, -COORDINATE]) - k * step,
        _ => f64::from_bits(r.next()),
    };
    if c.is_finite() {
        c.clamp(-COORDINATE, COORDINATE)
    } else {
        0.0
    }
}

/// How far a fix is from its hut.
fn drift(r: &mut Random, step: f64) -> f64 {
    match r.below(5) {
        0 | 1 => 0.0,
        2 => (r.unit() - 0.5) * step,
        3 => (r.below(5) as f64 - 2.0) * step * 0.25,
        _ => (r.unit() - 0.5) * 0.01,
    }
}

/// A walk between huts, of up to `stops` of them.
fn walk(
    r: &mut Random,
    huts: &[(f64, f64)],
    stops: usize,
    step: f64,
) -> Vec<Fix> {
    let timed = r.chance(2);
    let mut time = r.pick(&[0.0, -1000.0, 5e8]);
    let mut trace = Vec::new();
    for _ in 0..r.between(1, stops) {
        let (x, y) = r.pick(huts);
        for _ in 0..r.between(1, 4) {
            time += r.pick(&[0.0, 100.0, 200.0, 300.0, 0.5, 90_000.0]);
            let x = (x + drift(r, step)).clamp(-COORDINATE, COORDINATE);
            let y = (y + drift(r, step)).clamp(-COORDINATE, COORDINATE);
            trace.push((x, y, timed.then_some(time)));
        }
    }
    trace
}

/// One fault of a kind that the Rust refuses, or a trace emptied.
fn spoil(r: &mut Random, fit: &mut Fit) {
    let bad = r.pick(&[f64::NAN, f64::INFINITY, 0.0, -1.0]);
    let t = r.below(fit.traces.len());
    let trace = &mut fit.traces[t];
    let i = r.below(trace.len());
    match r.below(11) {
        0 => fit.r1 = bad,
        1 => fit.r2 = bad,
        2 => fit.stay = bad,
        3 => fit.gap = bad,
        4 => fit.gap = fit.stay,
        5 => fit.size = r.below(2) as u64,
        6 => fit.traces.clear(),
        7 => trace.clear(),
        8 => trace[i].1 = f64::NAN,
        9 => trace[i].2 = Some(f64::INFINITY),
        _ => trace[i].2 = r.pick(&[None, Some(-1e9), Some(1e9)]),
    }
}

/// A made fit: carriers that walk between huts, with settings of the size of the step.
pub fn made(r: &mut Random, stops: usize) -> Fit {
    let resolution = resolution(r);
    let step = if (LEAST..=MOST).contains(&resolution) && !r.chance(4) {
        resolution
    } else {
        r.pick(&[1.0, 0.01, 100.0])
    };
    let (a, b) = (r.below(8), r.below(8));
    let huts: Vec<(f64, f64)> = (0..r.between(1, 12))
        .map(|_| (hut(r, a, step), hut(r, b, step)))
        .collect();
    let traces = (0..r.between(1, 6))
        .map(|_| walk(r, &huts, stops, step))
        .collect();
    let mut fit = Fit {
        r1: r.pick(&[0.25, 1.0, 2.0, 10.0]) * step,
        r2: r.pick(&[0.5, 1.0, 2.0, 5.0, 7.5]) * step,
        single: r.below(2) as u32,
        stay: r.pick(&[300.0, 100.0, 0.5]),
        gap: r.pick(&[86_400.0, 400.0]),
        size: r.between(2, 3) as u64,
        resolution,
        seed: if r.chance(2) { 42 } else { r.next() },
        traces,
    };
    if r.chance(25) {
        spoil(r, &mut fit);
    }
    fit
}
