//! answer LAYER: reads a list of cases on standard input and writes one line of answers for each. The layers and their forms are in README.md.
use edited::cluster::build_edges;
use edited::config::Config;
use edited::distance::{Euclidean, MetricKind};
use edited::empty::Walked;
use edited::error::Error;
use edited::infomap::{self, run_infomap, Network};
use edited::model::{self, Infostop};
use edited::neighbors::{query_neighbors, BruteForceNeighbors};
use edited::record;
use edited::refusal::{is_out_of_bounds, refusal};
use edited::standin;
use edited::stay::get_stationary_events;
use edited::text::{fail, Line, Numbers};
use edited::types::{Point, TimedPoint};

const MOST: u64 = 65_536;

fn float(n: &mut Numbers, out: &mut Line) {
    let op = n.up_to(3);
    let x = n.float();
    out.float(match op {
        0 => x.sqrt(),
        1 => standin::ln(x),
        2 => infomap::access::plogp(x),
        _ => model::access::round(x),
    });
}

fn rng(n: &mut Numbers, out: &mut Line) {
    let seed = n.next();
    let items = n.up_to(512);
    let k = n.up_to(MOST);
    for x in infomap::access::outputs(seed, k) {
        out.put(x);
    }
    let (list, state) = infomap::access::shuffled(seed, items);
    for i in list {
        out.put(i);
    }
    out.put(state);
}

fn point(n: &mut Numbers) -> Point {
    let x = n.float();
    Point::new(x, n.float())
}

fn fix(n: &mut Numbers) -> TimedPoint {
    let p = point(n);
    let mark = n.up_to(1);
    let time = n.float();
    TimedPoint {
        point: p,
        time: (mark == 1).then_some(time),
    }
}

fn stay(n: &mut Numbers, out: &mut Line) {
    let r1 = n.float();
    let min_size = n.up_to(u64::MAX);
    let min_staying_time = n.float();
    let max_time_between = n.float();
    let resolution = n.float();
    let len = n.up_to(MOST);
    let fixes: Vec<TimedPoint> = (0..len).map(|_| fix(n)).collect();
    let mut events = get_stationary_events(
        &fixes,
        r1,
        min_size,
        min_staying_time,
        max_time_between,
        &Euclidean,
    );
    model::access::on_grid(&mut events.medians, resolution);
    for e in events.event_map {
        out.put(e);
    }
    out.put(events.medians.len());
    for m in events.medians {
        out.float(m.x).float(m.y);
    }
}

fn neighbors(n: &mut Numbers, out: &mut Line) {
    let r2 = n.float();
    let len = n.up_to(MOST);
    let medians: Vec<Point> = (0..len).map(|_| point(n)).collect();
    let (places, inverse, counts) = model::access::unique(&medians);
    let (near, _) =
        query_neighbors(&places, r2, &Euclidean, false, &BruteForceNeighbors);
    let (edges, singles) = build_edges(&near, None, &counts, 1.0);
    out.put(places.len());
    for (p, c) in places.iter().zip(&counts) {
        out.float(p.x).float(p.y).put(c);
    }
    for i in inverse {
        out.put(i);
    }
    out.put(edges.len());
    for (a, b, w) in edges {
        out.put(a).put(b).float(w);
    }
    out.put(places.len() - singles.len());
    for i in (0..places.len()).filter(|i| !singles.contains(i)) {
        out.put(i);
    }
}

fn grouping(n: &mut Numbers, out: &mut Line) {
    let seed = n.next();
    let nodes = n.up_to(512);
    let links = n.up_to(MOST * 2);
    let mut network = Network::new(nodes);
    let mut before = None;
    for _ in 0..links {
        let a = n.up_to(nodes as u64);
        let b = n.up_to(nodes as u64);
        if a >= b || b >= nodes || before.is_some_and(|p| p >= (a, b)) {
            fail(&format!("links must rise, lower node first: {a} {b}"));
        }
        before = Some((a, b));
        network.add_edge(a, b, n.float());
    }
    record::clear();
    let modules = run_infomap(&network, seed, 3);
    let r = record::kept();
    out.put(r.mark).put(r.rounds).float(r.codelength);
    for m in modules {
        out.put(m);
    }
}

/// The labels of the fixes, the places with their labels, the kept trial's mark and rounds, and the label medians.
fn put_fit(
    labels: Vec<Vec<i32>>,
    model: &Infostop,
    out: &mut Line,
) -> Result<(), Error> {
    for l in labels.into_iter().flatten() {
        out.put(l);
    }
    let places = model.stationary_points()?;
    let place_labels = model.stationary_labels()?;
    out.put(places.len());
    for (p, l) in places.iter().zip(place_labels) {
        out.float(p.x).float(p.y).put(l);
    }
    let r = record::kept();
    out.put(r.mark).put(r.rounds);
    put_medians(model, out)
}

/// The number of labels, and the median of each label's places, in rising label.
fn put_medians(model: &Infostop, out: &mut Line) -> Result<(), Error> {
    let mut medians: Vec<_> = model.label_medians()?.into_iter().collect();
    medians.sort_by_key(|m| m.0);
    out.put(medians.len());
    for (_, m) in medians {
        out.float(m.x).float(m.y);
    }
    Ok(())
}

/// The settings and tracks of a fit.
fn fit_case(n: &mut Numbers) -> (Config, Vec<Vec<TimedPoint>>) {
    let r1 = n.float();
    let r2 = n.float();
    let label_singleton = n.up_to(1) == 1;
    let min_staying_time = n.float();
    let max_time_between = n.float();
    let min_size = n.up_to(u64::MAX);
    let min_spatial_resolution = n.float();
    let seed = n.next();
    let config = Config {
        r1,
        r2,
        label_singleton,
        min_staying_time,
        max_time_between,
        min_size,
        min_spatial_resolution,
        seed,
        distance_metric: MetricKind::Euclidean,
        ..Config::default()
    };
    let count = n.up_to(256);
    let lens: Vec<usize> = (0..count).map(|_| n.up_to(MOST)).collect();
    let traces = lens
        .iter()
        .map(|&len| (0..len).map(|_| fix(n)).collect())
        .collect();
    (config, traces)
}

/// Fits, and puts 0 0 and the answer, or the refusal. The Rust is given the traces that have a fix. 24 is added: it comes behind the Rust's check of
/// the settings, before its check of the tracks; so is 18 for a list of only empty traces.
fn fit(n: &mut Numbers, out: &mut Line) {
    let (config, traces) = fit_case(n);
    let walked = Walked::of(traces);
    let resolution = config.min_spatial_resolution;
    let run = || {
        let mut model = Infostop::from_config(config)?;
        if is_out_of_bounds(resolution) {
            out.put(24).put(0);
            return Ok(());
        }
        if walked.only_empty() {
            out.put(18).put(0);
            return Ok(());
        }
        record::clear();
        let labels = model.fit_predict_many(&walked.traces)?;
        out.put(0).put(0);
        put_fit(labels, &model, out)
    };
    if let Err(e) = run() {
        let (number, trace) = refusal(&e);
        out.put(number).put(walked.counted_back(number, trace));
    }
}

fn main() {
    let args: Vec<String> = std::env::args().collect();
    let layer: fn(&mut Numbers, &mut Line) =
        match args.get(1).map(String::as_str) {
            Some("float") if args.len() == 2 => float,
            Some("rng") if args.len() == 2 => rng,
            Some("stay") if args.len() == 2 => stay,
            Some("neighbors") if args.len() == 2 => neighbors,
            Some("infomap") if args.len() == 2 => grouping,
            Some("fit") if args.len() == 2 => fit,
            _ => fail("usage: answer float|rng|stay|neighbors|infomap|fit"),
        };
    let mut numbers = Numbers::read();
    let cases = numbers.next();
    for _ in 0..cases {
        let mut line = Line::default();
        layer(&mut numbers, &mut line);
        println!("{}", line.text());
    }
    numbers.end();
}
