//! generate LAYER: writes the list of cases of a layer, always the same. The layers and their forms are in README.md.
//! generate fits FOLDER COUNT SEED: writes COUNT made fits into FOLDER, in lists that `replay_fit` has room for, always the same ones for a seed.
use edited::empty;
use edited::fit::{timed_pair, twice, untimed, Fit};
use edited::grid;
use edited::infomap::{run_infomap, Network};
use edited::random::Random;
use edited::record;
use edited::text::{fail, Line};
use std::path::Path;

type Cases = Vec<Line>;

// ---- float

/// The value and its two neighbours.
fn around(x: f64, out: &mut Vec<f64>) {
    out.push(x);
    if x > 0.0 && x.is_finite() {
        out.push(f64::from_bits(x.to_bits() - 1));
        out.push(f64::from_bits(x.to_bits() + 1));
    }
}

fn specials() -> Vec<f64> {
    let mut v = vec![
        0.0,
        -0.0,
        f64::INFINITY,
        f64::NEG_INFINITY,
        f64::NAN,
        -1.0,
        -f64::MIN_POSITIVE,
        -f64::from_bits(1),
        f64::MIN,
    ];
    for x in [
        f64::from_bits(1),
        f64::from_bits(2),
        f64::from_bits(3),
        f64::MIN_POSITIVE,
        f64::MAX,
        0.5,
        0.75,
        1.0,
        1.5,
        2.0,
        3.0,
        25.0,
        1e-15,
        1e9,
        2e18,
    ] {
        around(x, &mut v);
    }
    v
}

/// Roots: squares and their neighbours, squares of middles between two values, and any positive pattern.
fn roots(r: &mut Random) -> Vec<f64> {
    let mut v = specials();
    for _ in 0..200 {
        let n = r.between(2, 94_906_265) as f64;
        around(n * n, &mut v);
    }
    for _ in 0..200 {
        let q = 1.0 + r.unit();
        let middle = q * q + q * f64::EPSILON;
        around(middle * r.pick(&[1.0, 4.0, 0.25, 1e-300, 1e300]), &mut v);
    }
    for _ in 0..300 {
        let (dx, dy) = (r.below(2_000_001) as f64, r.below(2_000_001) as f64);
        v.push(dx * dx + dy * dy);
    }
    for _ in 0..200 {
        v.push(f64::from_bits(r.next() >> r.between(12, 63)));
    }
    for _ in 0..400 {
        v.push(f64::from_bits(r.next() >> 1));
    }
    v
}

/// Logarithms: around the ends of the interval of m, from 0 to 1, subnormals and any positive pattern.
fn logarithms(r: &mut Random) -> Vec<f64> {
    let mut v = specials();
    for k in -60..60 {
        let p = f64::powi(2.0, k);
        around(0.75 * p, &mut v);
        around(p, &mut v);
    }
    for _ in 0..500 {
        v.push(r.unit());
    }
    for _ in 0..300 {
        let d = r.between(1, 4000);
        v.push(r.between(1, d) as f64 / d as f64);
    }
    for _ in 0..200 {
        v.push(f64::from_bits(r.next() >> r.between(12, 63)));
    }
    for _ in 0..300 {
        v.push(f64::from_bits(r.next() >> 1));
    }
    v
}

/// Roundings: halves with their neighbours up to where there are none, whole numbers, what is below a half, subnormals, and any pattern.
fn roundings(r: &mut Random) -> Vec<f64> {
    let mut v = Vec::new();
    for x in specials() {
        v.push(x);
        v.push(-x);
    }
    let mut sizes = vec![0.5, 0.3, 0.25, 2.5, 1e6, 1e9, 1e15, 1e300];
    sizes.extend((1..40).map(|k| f64::from(k) + 0.5));
    for k in 1..=52 {
        let p = f64::powi(2.0, k);
        sizes.extend([p - 0.5, p + 0.5]);
    }
    for k in [50, 51, 52, 53, 54, 62, 63, 64, 100, 1023] {
        sizes.extend([f64::powi(2.0, k), f64::powi(2.0, k) - 1.0]);
    }
    for _ in 0..60 {
        let k = r.next() >> r.between(13, 50);
        sizes.push(k as f64 + 0.5);
    }
    for x in sizes {
        for y in [x, x.next_down(), x.next_up()] {
            v.extend([y, -y]);
        }
    }
    for _ in 0..100 {
        v.push((r.unit() - 0.5) * r.pick(&[2.0, 10.0, 1e4, 1e10]));
    }
    for _ in 0..60 {
        v.push(f64::from_bits(r.next() >> r.between(12, 63)));
    }
    for _ in 0..200 {
        v.push(f64::from_bits(r.next()));
    }
    v
}

/// Values on which ln by a series that starts at 1/25 has another last bit: the smallest whole number, and of the fractions a/b below 2 the two
/// with the smallest b.
const LONGER_SERIES: [f64; 3] = [389_721.0, 301.0 / 204.0, 493.0 / 335.0];

fn float(r: &mut Random) -> Cases {
    let mut cases = Cases::new();
    let mut all = |op: u32, values: Vec<f64>| {
        for x in values {
            let mut line = Line::default();
            line.put(op).float(x);
            cases.push(line);
        }
    };
    all(0, roots(r));
    all(1, logarithms(r));
    all(2, logarithms(r));
    all(1, LONGER_SERIES.to_vec());
    all(2, LONGER_SERIES.to_vec());
    all(3, roundings(r));
    cases
}

// ---- rng

fn rng(r: &mut Random) -> Cases {
    let seeds = [0, 1, 2, 3, 42, 43, u64::MAX, u64::MAX - 1, 1 << 63];
    (0..2000)
        .map(|i| {
            let mut line = Line::default();
            let seed = if i < seeds.len() {
                seeds[i]
            } else if r.chance(2) {
                r.next()
            } else {
                r.below(10_000) as u64
            };
            line.put(seed);
            line.put(if i % 100 == 0 { 512 } else { r.below(24) });
            line.put(r.between(1, 4));
            line
        })
        .collect()
}

// ---- stay

/// The kinds of coordinates: whole numbers in a small square, of either sign of zero, any, tiny, huge.
fn coordinate(r: &mut Random, kind: usize) -> f64 {
    match kind {
        0 => r.below(13) as f64,
        1 => r.pick(&[0.0, -0.0, 3.0, -4.0, 5.0, -5.0]),
        2 => (r.unit() - 0.5) * 30.0,
        3 => f64::from_bits(r.below(9) as u64) * r.pick(&[1.0, -1.0]),
        4 => 1e9 - r.below(20) as f64,
        _ => r.pick(&[1.7e308, -1.7e308, 1e155, 1.0, 0.0]),
    }
}

fn time_step(r: &mut Random, kind: usize) -> f64 {
    match kind {
        0 => r.below(3) as f64 * 50.0,
        1 => r.pick(&[0.0, 300.0, 86_400.0, 86_401.0, 299.0]),
        2 => r.unit() * 400.0,
        _ => r.pick(&[0.0, 1.0, 100.0]),
    }
}

fn put_fixes(r: &mut Random, line: &mut Line, n: usize, kind: usize) {
    let timed = r.chance(2);
    let mixed = r.chance(20);
    let step = r.below(4);
    let mut time = r.pick(&[0.0, -1000.0, 5e8]);
    let stand = r.between(1, 6);
    let (mut x, mut y) = (coordinate(r, kind), coordinate(r, kind));
    for i in 0..n {
        if r.chance(stand) {
            x = coordinate(r, kind);
            y = coordinate(r, kind);
        }
        if i > 0 {
            time += time_step(r, step);
        }
        let mark = timed != (mixed && r.chance(3));
        line.float(x).float(y).put(u32::from(mark)).float(time);
    }
}

fn put_huge_times(r: &mut Random, line: &mut Line, n: usize) {
    let mut times: Vec<f64> = (0..n)
        .map(|_| r.pick(&[-1.7e308, -1e308, 0.0, -0.0, 1e308, 1.7e308]))
        .collect();
    times.sort_by(f64::total_cmp);
    for t in times {
        line.float(r.below(4) as f64).float(0.0).put(1).float(t);
    }
}

// The radius for a kind of coordinates: subnormal for 3, huge at times for 5, otherwise one of the usual ones.
fn radius(r: &mut Random, kind: usize, usual: &[f64]) -> f64 {
    match kind {
        3 => f64::from_bits(r.between(1, 6) as u64),
        5 => r.pick(&[1e155, 1.7e308, 5.0]),
        _ => r.pick(usual),
    }
}

/// A trace whose stays are found without a grid.
fn stay_off(r: &mut Random, i: usize) -> Line {
    let mut line = Line::default();
    let kind = r.below(6);
    line.float(radius(r, kind, &[5.0, 10.0, 2.5, 1.0, 7.3]));
    line.put(if r.chance(12) { r.below(2) } else { r.between(2, 5) });
    line.float(r.pick(&[300.0, 100.0, 50.0, 1e-3, 1.7e308]));
    line.float(r.pick(&[86_400.0, 400.0, 100.0, 1.7e308]));
    line.float(0.0);
    let n = match i {
        0..=3 => i,
        _ if i % 90 == 0 => r.between(200, 400),
        _ => r.between(1, 30),
    };
    line.put(n);
    if i % 15 == 7 {
        put_huge_times(r, &mut line, n);
    } else {
        put_fixes(r, &mut line, n, kind);
    }
    line
}

/// Resolutions of the list of stays.
const RESOLUTIONS: [f64; 11] =
    [grid::LEAST, 0.1, 0.25, 0.3, 1.0, 2.0, 4.0, 7.0, 1000.0, grid::MOST, -0.0];

/// Some that a fit refuses; the search for stays checks no settings.
const REFUSED: [f64; 7] =
    [f64::NAN, f64::INFINITY, -1.0, 1e-310, 1e-300, 1e200, f64::MAX];

/// A trace with stays whose medians are put on a grid.
fn stay_on(r: &mut Random, i: usize) -> Line {
    let mut line = Line::default();
    let kind = r.pick(&[0, 0, 1, 2, 2, 3, 4, 5]);
    line.float(radius(r, kind, &[5.0, 2.5, 1.0]));
    line.put(2).float(1e-3).float(86_400.0);
    line.float(if i % 10 == 9 {
        r.pick(&REFUSED)
    } else {
        r.pick(&RESOLUTIONS)
    });
    let n = r.between(4, 18);
    line.put(n);
    put_fixes(r, &mut line, n, kind);
    line
}

fn stay(r: &mut Random) -> Cases {
    let mut cases: Cases = (0..800).map(|i| stay_off(r, i)).collect();
    cases.extend((0..100).map(|i| stay_on(r, i)));
    cases
}

// ---- neighbors

fn neighbors(r: &mut Random) -> Cases {
    (0..600)
        .map(|i| {
            let mut line = Line::default();
            let kind = r.below(6);
            line.float(radius(r, kind, &[5.0, 1.0, 2.5, 3.7, 10.0]));
            let n = match i {
                0..=2 => i,
                _ if i % 60 == 0 => r.between(60, 80),
                _ => r.between(1, 24),
            };
            line.put(n);
            for _ in 0..n {
                line.float(coordinate(r, kind)).float(coordinate(r, kind));
            }
            line
        })
        .collect()
}

// ---- infomap

struct Graph {
    seed: u64,
    nodes: usize,
    links: Vec<(usize, usize, f64)>,
}

impl Graph {
    /// The nodes that have a link, numbered anew.
    fn linked(self) -> Self {
        let mut number = vec![usize::MAX; self.nodes];
        let mut nodes = 0;
        for i in 0..self.nodes {
            if self.links.iter().any(|l| l.0 == i || l.1 == i) {
                number[i] = nodes;
                nodes += 1;
            }
        }
        let links = self
            .links
            .iter()
            .map(|&(a, b, w)| (number[a], number[b], w))
            .collect();
        Self {
            seed: self.seed,
            nodes,
            links,
        }
    }

    /// How many nodes the isolation passes move.
    fn isolated(&self) -> usize {
        let mut network = Network::new(self.nodes);
        for &(a, b, w) in &self.links {
            network.add_edge(a, b, w);
        }
        record::clear();
        run_infomap(&network, self.seed, 3);
        record::kept().isolated
    }

    fn line(&self) -> Line {
        let mut line = Line::default();
        line.put(self.seed).put(self.nodes).put(self.links.len());
        for &(a, b, w) in &self.links {
            line.put(a).put(b).float(w);
        }
        line
    }
}

fn seed(r: &mut Random) -> u64 {
    if r.chance(2) {
        42
    } else {
        r.next()
    }
}

/// Weight of a link between places with these counts, as in a fit.
fn larger(counts: &[usize], a: usize, b: usize) -> f64 {
    counts[a].max(counts[b]) as f64
}

/// Points in a square, linked where near, with counts: what a fit gives.
fn geometric(r: &mut Random, n: usize) -> Graph {
    let side = 1.0 + r.unit() * 4.0;
    let points: Vec<(f64, f64)> =
        (0..n).map(|_| (r.unit() * side, r.unit() * side)).collect();
    let most = r.pick(&[1, 3, 20]);
    let counts: Vec<usize> = (0..n).map(|_| r.between(1, most)).collect();
    let mut links = Vec::new();
    for a in 0..n {
        for b in a + 1..n {
            let (dx, dy) = (points[a].0 - points[b].0, points[a].1 - points[b].1);
            if dx * dx + dy * dy <= 1.0 {
                links.push((a, b, larger(&counts, a, b)));
            }
        }
    }
    Graph {
        seed: seed(r),
        nodes: n,
        links,
    }
}

/// Each pair linked by chance, with weights of a kind.
fn random(r: &mut Random, n: usize, one_in: usize) -> Graph {
    let kind = r.below(6);
    let mut links = Vec::new();
    for a in 0..n {
        for b in a + 1..n {
            if r.chance(one_in) {
                let w = match kind {
                    0 | 1 => 1.0,
                    2 => r.between(1, 4) as f64,
                    3 => r.between(1, 65_536) as f64,
                    4 => r.unit() + f64::MIN_POSITIVE,
                    _ => f64::powi(2.0, r.between(0, 36) as i32),
                };
                links.push((a, b, w));
            }
        }
    }
    Graph {
        seed: seed(r),
        nodes: n,
        links,
    }
}

/// Cliques in a ring, joined by single links.
fn cliques(r: &mut Random, parts: usize, size: usize) -> Graph {
    let w = r.between(1, 3) as f64;
    let mut links = Vec::new();
    for a in 0..parts * size {
        for b in a + 1..parts * size {
            let joined = b == a + 1 || (a == 0 && b == parts * size - 1);
            if a / size == b / size {
                links.push((a, b, w));
            } else if joined {
                links.push((a, b, 1.0));
            }
        }
    }
    Graph {
        seed: seed(r),
        nodes: parts * size,
        links,
    }
}

/// Weights so large or so small that sums overflow or quotients underflow: codelengths that are not finite.
fn extreme(r: &mut Random, n: usize) -> Graph {
    let mut g = random(r, n, 2);
    let weights = r.pick(&[
        [f64::INFINITY, 1.0],
        [1.7e308, 1.7e308],
        [f64::from_bits(1), f64::from_bits(5)],
        [1e-320, 1.0],
        [1e300, 1e-300],
    ]);
    for l in &mut g.links {
        l.2 = r.pick(&weights);
    }
    g
}

/// Graphs on which an isolation pass moves a node, by search.
fn isolating(r: &mut Random, wanted: usize) -> Vec<Graph> {
    let mut found = Vec::new();
    while found.len() < wanted {
        let n = r.between(5, 24);
        let one_in = r.between(2, 5);
        let g = if r.chance(2) {
            random(r, n, one_in).linked()
        } else {
            geometric(r, n).linked()
        };
        if !g.links.is_empty() && g.isolated() > 0 {
            found.push(g);
        }
    }
    found
}

/// Small graphs, found by search, each of which a changed rule answers otherwise (README.md, 'What the lists tell apart').
fn telling() -> Vec<Graph> {
    let graph = |seed, nodes, links: &[(usize, usize, f64)]| Graph {
        seed,
        nodes,
        links: links.to_vec(),
    };
    vec![
        // Margin 1e-14: two rounds for three.
        graph(0, 3, &[(0, 1, 1.0000000000000016), (1, 2, 1.0)]),
        // Margin 1e-16 or none: three rounds for two.
        graph(0, 3, &[(0, 1, 1.0000000000000013), (1, 2, 1.0)]),
        // Margin 1e-14, and groups summed from the highest lowest member down: one group for two.
        graph(0, 4, &[(0, 1, 1.3211754821495294), (0, 3, 1.0), (1, 2, 1.0)]),
        // Margin 1e-16 or none: two groups for one.
        graph(0, 4, &[(0, 1, 1.3211754821495296), (0, 3, 1.0), (1, 2, 1.0)]),
        // Margin 1e-14 in the isolation pass alone: two groups for three.
        graph(
            4,
            6,
            &[
                (0, 4, 3.0),
                (1, 3, 4.39315247485437),
                (2, 3, 1.0),
                (2, 4, 1.0),
                (4, 5, 2.0),
            ],
        ),
        // Margin 1e-16 in the isolation pass alone: one group for two.
        graph(4, 4, &[(0, 1, 1.0), (1, 3, 1.638014017097629), (2, 3, 3.0)]),
        // No margin in the isolation pass alone: one group for two.
        graph(4, 4, &[(0, 1, 0.531547714724962), (1, 3, 1.0), (2, 3, 3.0)]),
        // The target's term added before the source's: two groups for one.
        graph(0, 4, &[(0, 2, 1.6380140170976283), (0, 3, 1.0), (1, 2, 3.0)]),
        // Q carried from move to move and not summed anew: two groups for one.
        graph(0, 4, &[(0, 2, 1.0), (0, 3, 0.7121622275722834), (1, 2, 1.0)]),
        // Groups summed by internal number: one group for two.
        graph(0, 4, &[(0, 3, 0.7121622275722835), (1, 2, 1.0), (2, 3, 1.0)]),
        // Groups summed by highest member: one group for two.
        graph(0, 4, &[(0, 2, 1.0), (0, 3, 0.7121622275722835), (1, 2, 1.0)]),
        // The series of ln from 1/25: another last bit of the codelength, with the smallest whole weights; two groups for one.
        graph(0, 3, &[(0, 1, 346.0), (1, 2, 121.0)]),
        graph(6, 4, &[(0, 1, 19.0), (0, 3, 18.0), (2, 3, 12.657742096085853)]),
        // Each exit change divided by D by itself: two groups for one.
        graph(0, 4, &[(0, 2, 1.3211754821495292), (0, 3, 1.0), (1, 2, 1.0)]),
        // Margin 1e-14, with the weights of a fit of 60,002 fixes: two groups for three.
        graph(
            0,
            6,
            &[
                (0, 1, 8805.0),
                (1, 3, 3263.0),
                (2, 4, 6092.0),
                (2, 5, 6358.0),
                (3, 4, 5482.0),
            ],
        ),
    ]
}

fn infomap(r: &mut Random) -> Cases {
    let mut graphs = Vec::new();
    for i in 0..420 {
        let n = if i % 40 == 0 {
            r.between(40, 60)
        } else {
            r.between(2, 14)
        };
        let one_in = r.between(1, 6);
        graphs.push(match i % 6 {
            0 | 1 => geometric(r, n),
            2 | 3 => random(r, n, one_in),
            4 => {
                let parts = r.between(2, 6);
                let size = r.between(2, 5);
                cliques(r, parts, size)
            }
            _ => extreme(r, n.min(8)),
        });
    }
    graphs.extend(isolating(r, 30));
    graphs.extend(telling());
    graphs
        .into_iter()
        .map(Graph::linked)
        .filter(|g| !g.links.is_empty())
        .map(|g| g.line())
        .collect()
}

// ---- fit

/// The rules' tracks to try, and a track that the original labels in two ways.
fn examples() -> Vec<Fit> {
    let mut fits = vec![
        Fit::with(vec![untimed(&[(0.0, 0.0), (6.0, 8.0)])]),
        Fit::with(vec![untimed(&[(0.0, 0.0), (6.0, 9.0)])]),
        Fit::with(vec![untimed(&[(0.0, 0.0)])]),
    ];
    for (a, b) in [
        (0.0, 300.0),
        (0.0, 299.0),
        (0.0, 86_400.0),
        (0.0, 86_401.0),
        (7.0, 7.0),
        (10.0, 9.0),
    ] {
        fits.push(Fit::with(vec![timed_pair(a, b)]));
    }
    fits.push(Fit::with(vec![vec![(0.0, 0.0, Some(1.0)), (0.0, 0.0, None)]]));
    let same = vec![twice(0.0, 0.0), twice(0.0, 0.0)];
    fits.push(Fit::with(same.clone()));
    fits.push(Fit {
        single: 0,
        ..Fit::with(same)
    });
    fits.push(Fit::with(vec![twice(0.0, 0.0), twice(10.0, 0.0)]));
    fits.push(Fit::with(vec![twice(0.0, 0.0), twice(10.5, 0.0)]));
    fits.push(Fit::with(vec![twice(0.0, 0.0), twice(-0.0, 0.0)]));
    fits.push(Fit::with(
        [0.0, 10.0, 20.0].iter().map(|x| twice(*x, 0.0)).collect(),
    ));
    let two_answers = [
        (4.0, 22.0),
        (25.0, 23.0),
        (17.0, 15.0),
        (5.0, 16.0),
        (21.0, 24.0),
        (12.0, 7.0),
        (4.0, 7.0),
    ];
    fits.push(Fit::with(
        two_answers.iter().map(|p| twice(p.0, p.1)).collect(),
    ));
    fits
}

/// Each refusal of settings and tracks that the Rust has, some with a second cause behind it.
fn refused() -> Vec<Fit> {
    let good = Fit::with(vec![twice(0.0, 0.0)]);
    let mut fits = Vec::new();
    for bad in [0.0, -0.0, -1.0, f64::NAN, f64::INFINITY, f64::NEG_INFINITY] {
        fits.push(Fit { r1: bad, ..good.clone() });
        fits.push(Fit { r2: bad, size: 1, ..good.clone() });
        fits.push(Fit { stay: bad, ..good.clone() });
        fits.push(Fit { gap: bad, ..good.clone() });
        fits.push(Fit { r1: bad, gap: bad, ..good.clone() });
    }
    for (stay, gap) in [(300.0, 300.0), (300.0, 299.0), (300.0, 301.0)] {
        fits.push(Fit { stay, gap, ..good.clone() });
    }
    for size in [0, 1, 2, 3, u64::MAX] {
        fits.push(Fit { size, ..good.clone() });
    }
    fits.push(Fit::with(vec![]));
    let empty = Vec::new();
    fits.push(Fit::with(vec![empty.clone()]));
    fits.push(Fit::with(vec![twice(0.0, 0.0), empty, timed_pair(2.0, 1.0)]));
    for bad in [f64::NAN, f64::INFINITY, f64::NEG_INFINITY] {
        for late in [
            vec![(0.0, 0.0, Some(bad)), (bad, 0.0, Some(1.0))],
            vec![(0.0, bad, Some(bad)), (0.0, 0.0, None)],
            vec![(0.0, 0.0, Some(2.0)), (0.0, 0.0, Some(bad))],
            vec![(0.0, 0.0, Some(2.0)), (bad, 0.0, Some(1.0))],
        ] {
            fits.push(Fit::with(vec![twice(0.0, 0.0), late.clone()]));
            fits.push(Fit::with(vec![late]));
        }
    }
    fits.push(Fit::with(vec![
        twice(0.0, 0.0),
        vec![(0.0, 0.0, Some(2.0)), (0.0, 0.0, Some(1.0)), (0.0, 0.0, None)],
    ]));
    fits.push(Fit::with(vec![twice(0.0, 0.0), timed_pair(2.0, 1.0)]));
    fits
}

/// Carriers that walk between huts of a grid and stand at some.
fn walks(r: &mut Random) -> Fit {
    let huts: Vec<(f64, f64)> = (0..r.between(1, 12))
        .map(|_| (r.below(40) as f64, r.below(40) as f64))
        .collect();
    let step = r.pick(&[0.0, 0.5, 1.0]);
    let mut traces = Vec::new();
    for _ in 0..r.between(1, 6) {
        let timed = r.chance(2);
        let mut time = 0.0;
        let mut trace = Vec::new();
        for _ in 0..r.between(1, 6) {
            let (hx, hy) = r.pick(&huts);
            for _ in 0..r.between(1, 4) {
                time += r.pick(&[0.0, 100.0, 200.0, 300.0]);
                let x = hx + r.below(3) as f64 * step;
                let y = hy + r.below(3) as f64 * step;
                trace.push((x, y, timed.then_some(time)));
            }
        }
        traces.push(trace);
    }
    Fit {
        r1: r.pick(&[5.0, 10.0, 2.0]),
        r2: r.pick(&[5.0, 10.0, 15.0]),
        single: r.below(2) as u32,
        size: r.between(2, 3) as u64,
        seed: seed(r),
        ..Fit::with(traces)
    }
}

/// Many places, a trace of two equal fixes each, some visited again.
fn standing(r: &mut Random, places: usize) -> Fit {
    let side = r.between(20, 60);
    let traces = (0..places)
        .map(|_| twice(r.below(side) as f64, r.below(side) as f64))
        .collect();
    Fit {
        single: r.below(2) as u32,
        seed: seed(r),
        ..Fit::with(traces)
    }
}

/// Tracks with the example's settings, found by search, each of which a changed rule labels otherwise (README.md, 'What the lists tell apart').
fn telling_fits() -> Vec<Fit> {
    let standing = |seed, points: &[(f64, f64)]| Fit {
        seed,
        ..Fit::with(points.iter().map(|p| twice(p.0, p.1)).collect())
    };
    vec![
        // Margin 1e-16 or none: one label for two.
        standing(
            42,
            &[(0.0, 0.0), (7.0, 7.0), (7.0, 0.0), (0.0, 14.0), (14.0, 14.0)],
        ),
        // No margin: one label for two.
        standing(
            42,
            &[
                (10.0, 10.0),
                (20.0, 20.0),
                (10.0, 20.0),
                (20.0, 10.0),
                (10.0, 0.0),
            ],
        ),
        // Groups summed by internal number, by highest member, from the highest lowest member down: other pairs.
        standing(
            0,
            &[
                (10.0, 10.0),
                (20.0, 20.0),
                (0.0, 10.0),
                (10.0, 20.0),
                (0.0, 0.0),
                (10.0, 0.0),
            ],
        ),
        standing(
            42,
            &[
                (10.0, 10.0),
                (20.0, 0.0),
                (0.0, 20.0),
                (10.0, 20.0),
                (20.0, 10.0),
                (0.0, 10.0),
            ],
        ),
        standing(
            2,
            &[
                (20.0, 10.0),
                (10.0, 0.0),
                (10.0, 10.0),
                (0.0, 20.0),
                (10.0, 20.0),
                (20.0, 0.0),
                (0.0, 20.0),
            ],
        ),
        // Margin 1e-16 or none in the isolation pass alone: two labels for three.
        standing(
            2,
            &[
                (6.0, 18.0),
                (0.0, 12.0),
                (0.0, 18.0),
                (18.0, 0.0),
                (18.0, 18.0),
                (18.0, 12.0),
                (6.0, 0.0),
                (12.0, 6.0),
                (12.0, 18.0),
                (6.0, 18.0),
                (18.0, 18.0),
                (18.0, 18.0),
                (18.0, 12.0),
                (18.0, 12.0),
                (12.0, 18.0),
                (12.0, 18.0),
            ],
        ),
    ]
}

fn fit(r: &mut Random) -> Cases {
    let mut fits = examples();
    fits.extend(refused());
    for _ in 0..240 {
        fits.push(walks(r));
    }
    for i in 0..160 {
        let places = if i % 20 == 0 { r.between(60, 120) } else { r.between(2, 20) };
        fits.push(standing(r, places));
    }
    fits.extend(telling_fits());
    fits.extend(grid::fixed(r, 120));
    let tracks: Vec<Fit> = [0, 3, 13, 14, 15, 16].map(|i| fits[i].clone()).into();
    fits.extend(empty::fixed(r, &tracks, 40));
    fits.iter().map(Fit::line).collect()
}

/// COUNT made fits as lists of at most 400, each below the 1,000,000 bytes that `replay_fit` has room for. About every second one is given empty
/// traces, from random numbers of their own, so that all else is drawn as it would be without them.
fn write_fits(folder: &str, count: usize, seed: u64) {
    let mut r = Random(seed);
    let mut gaps = Random(!seed);
    let mut left = count;
    let mut number = 0;
    while left > 0 {
        let n = left.min(400);
        let mut text = format!("{n}\n");
        for _ in 0..n {
            let mut fit = grid::made(&mut r, 6);
            if gaps.chance(2) {
                empty::scatter(&mut gaps, &mut fit);
            }
            text += &fit.line().text();
            text.push('\n');
        }
        let path = Path::new(folder).join(format!("{number:04}.cases"));
        if text.len() > 1_000_000 {
            fail(&format!("{}: more than 1,000,000 bytes", path.display()));
        }
        if let Err(e) = std::fs::write(&path, text) {
            fail(&format!("{} cannot be written: {e}", path.display()));
        }
        left -= n;
        number += 1;
    }
}

/// The fixed list of a layer.
fn write_list(layer: &str) {
    let make: fn(&mut Random) -> Cases = match layer {
        "float" => float,
        "rng" => rng,
        "stay" => stay,
        "neighbors" => neighbors,
        "infomap" => infomap,
        "fit" => fit,
        _ => fail(USAGE),
    };
    let cases = make(&mut Random(20_261_115));
    println!("{}", cases.len());
    for line in cases {
        println!("{}", line.text());
    }
}

const USAGE: &str = "usage: generate float|rng|stay|neighbors|infomap|fit, or generate fits FOLDER COUNT SEED";

fn main() {
    let args: Vec<String> = std::env::args().collect();
    match args[1..].iter().map(String::as_str).collect::<Vec<_>>()[..] {
        ["fits", folder, count, seed] => {
            let (Ok(count), Ok(seed)) = (count.parse(), seed.parse()) else {
                fail("COUNT and SEED are whole numbers");
            };
            write_fits(folder, count, seed);
        }
        [layer] => write_list(layer),
        _ => fail(USAGE),
    }
}
