//! stops: reads a text in the program's form on standard input and prints what the program must print, by the Rust with the stand-ins.
//! stops list: the same for each text of a list (texts.rs), with an empty line after each answer.
//! The form and the refusals that the Rust does not have are read from docs/RULES.md here, apart from the program's own reader.
use edited::config::Config;
use edited::distance::{Euclidean, MetricKind};
use edited::model::{self, Infostop};
use edited::refusal::refusal;
use edited::stay::get_stationary_events;
use edited::text::fail;
use edited::types::{Point, TimedPoint};
use std::io::{Read, Write};

const FIXES: usize = 768;
const TRACES: usize = 256;
const PLACES: usize = 64;

/// An optional minus and digits, of size up to 10^9.
fn whole(word: &[u8]) -> Option<i64> {
    let digits = word.strip_prefix(b"-").unwrap_or(word);
    if digits.is_empty() || !digits.iter().all(u8::is_ascii_digit) {
        return None;
    }
    let size = digits.iter().fold(0i64, |v, d| {
        (v * 10 + i64::from(d - b'0')).min(2_000_000_000)
    });
    let value = if digits.len() < word.len() {
        -size
    } else {
        size
    };
    (size <= 1_000_000_000).then_some(value)
}

fn natural(word: &[u8]) -> Option<u64> {
    whole(word).and_then(|v| u64::try_from(v).ok())
}

/// `None` outside the form; inside it a time or none.
fn time(word: &[u8]) -> Option<Option<f64>> {
    if word == b"-" {
        Some(None)
    } else {
        whole(word).map(|v| Some(v as f64))
    }
}

fn settings(line: &[u8]) -> Option<Config> {
    let w: Vec<&[u8]> = line.split(|&b| b == b' ').collect();
    let [r1, r2, single, stay, gap, size, seed] = w[..] else {
        return None;
    };
    Some(Config {
        r1: whole(r1)? as f64,
        r2: whole(r2)? as f64,
        label_singleton: natural(single).filter(|&s| s <= 1)? == 1,
        min_staying_time: whole(stay)? as f64,
        max_time_between: whole(gap)? as f64,
        min_size: natural(size)? as usize,
        seed: natural(seed)?,
        distance_metric: MetricKind::Euclidean,
        ..Config::default()
    })
}

/// One more fix, of the last trace or the next.
fn add_fix(line: &[u8], traces: &mut Vec<Vec<TimedPoint>>) -> Option<()> {
    let w: Vec<&[u8]> = line.split(|&b| b == b' ').collect();
    let [trace, x, y, t] = w[..] else {
        return None;
    };
    let trace = natural(trace)? as usize;
    if trace == traces.len() {
        traces.push(Vec::new());
    } else if trace + 1 != traces.len() {
        return None;
    }
    let point = Point::new(whole(x)? as f64, whole(y)? as f64);
    traces[trace].push(TimedPoint {
        point,
        time: time(t)?,
    });
    Some(())
}

fn read(text: &[u8]) -> Option<(Config, Vec<Vec<TimedPoint>>)> {
    let text = text.strip_suffix(b"\n")?;
    let mut lines = text.split(|&b| b == b'\n');
    if lines.next()? != b"r1 r2 single stay gap size seed" {
        return None;
    }
    let config = settings(lines.next()?)?;
    if lines.next()? != b"trace x y time" {
        return None;
    }
    let mut traces = Vec::new();
    for line in lines {
        add_fix(line, &mut traces)?;
    }
    Some((config, traces))
}

/// The distinct medians of the accepted stays.
fn places(c: &Config, traces: &[Vec<TimedPoint>]) -> usize {
    let medians: Vec<Point> = traces
        .iter()
        .flat_map(|t| {
            get_stationary_events(
                t,
                c.r1,
                c.min_size,
                c.min_staying_time,
                c.max_time_between,
                &Euclidean,
            )
            .medians
        })
        .collect();
    model::access::unique(&medians).0.len()
}

/// The labels of each trace, or a refusal's number and trace.
fn fit(text: &[u8]) -> Result<Vec<Vec<i32>>, (u32, usize)> {
    let (config, traces) = read(text).ok_or((22, 0))?;
    let mut model =
        Infostop::from_config(config.clone()).map_err(|e| refusal(&e))?;
    let fixes: usize = traces.iter().map(Vec::len).sum();
    if traces.len() > TRACES || fixes > FIXES {
        return Err((9, 0));
    }
    let answer = model.fit_predict_many(&traces).map_err(|e| refusal(&e));
    let reached = !matches!(answer, Err((number, _)) if number < 18);
    if reached && places(&config, &traces) > PLACES {
        return Err((19, 0));
    }
    answer
}

fn answer(text: &[u8]) -> String {
    match fit(text) {
        Err((number, trace)) => format!("refused trace\n{number} {trace}\n"),
        Ok(labels) => {
            let mut out = String::from("trace fix label\n");
            for (t, trace) in labels.iter().enumerate() {
                for (f, label) in trace.iter().enumerate() {
                    out += &format!("{t} {f} {label}\n");
                }
            }
            out
        }
    }
}

/// The number in front of a line feed, and what follows it.
fn number(text: &[u8]) -> Option<(usize, &[u8])> {
    let end = text.iter().position(|&b| b == b'\n')?;
    let word = std::str::from_utf8(&text[..end]).ok()?;
    Some((word.parse().ok()?, &text[end + 1..]))
}

fn answers(list: &[u8]) -> Option<String> {
    let (count, mut rest) = number(list)?;
    let mut out = String::new();
    for _ in 0..count {
        let (len, text) = number(rest)?;
        out += &answer(text.get(..len)?);
        out.push('\n');
        rest = text.get(len + 1..)?;
    }
    Some(out)
}

fn main() {
    let args: Vec<String> = std::env::args().collect();
    let mut text = Vec::new();
    if let Err(e) = std::io::stdin().read_to_end(&mut text) {
        fail(&format!("standard input cannot be read: {e}"));
    }
    let out = match &args[1..] {
        [] => answer(&text),
        [list] if list == "list" => answers(&text)
            .unwrap_or_else(|| fail("the input is no list of texts")),
        _ => fail("usage: stops [list]"),
    };
    if let Err(e) = std::io::stdout().write_all(out.as_bytes()) {
        fail(&format!("standard output cannot be written: {e}"));
    }
}
