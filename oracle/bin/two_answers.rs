//! two_answers [FITS]: fits one track again and again with the Rust as it is, and counts the answers.
//! The track, in the program's form, is read on standard input; each trace has one label, or its labels are joined by commas.
use original::config::Config;
use original::distance::MetricKind;
use original::model::Infostop;
use original::types::TimedPoint;
use std::collections::BTreeMap;
use std::io::Read;
use std::process::exit;

fn fail(message: &str) -> ! {
    eprintln!("two_answers: {message}");
    exit(1)
}

fn number(word: &str, line: usize) -> f64 {
    word.parse().unwrap_or_else(|_| {
        fail(&format!("line {line}: {word} is no number"))
    })
}

fn tracks(text: &str) -> (Config, Vec<Vec<TimedPoint>>) {
    let lines: Vec<Vec<&str>> =
        text.lines().map(|l| l.split(' ').collect()).collect();
    if lines.len() < 4
        || lines[0].join(" ") != "r1 r2 single stay gap size seed"
        || lines[1].len() != 7
        || lines[2].join(" ") != "trace x y time"
    {
        fail("the input is not in the program's form");
    }
    let v: Vec<f64> = lines[1].iter().map(|w| number(w, 2)).collect();
    let config = Config {
        r1: v[0],
        r2: v[1],
        label_singleton: v[2] == 1.0,
        min_staying_time: v[3],
        max_time_between: v[4],
        min_size: v[5] as usize,
        seed: v[6] as u64,
        distance_metric: MetricKind::Euclidean,
        ..Config::default()
    };
    let mut traces: Vec<Vec<TimedPoint>> = Vec::new();
    for (i, l) in lines.iter().enumerate().skip(3) {
        if l.len() != 4 {
            fail(&format!("line {}: not four fields", i + 1));
        }
        let trace = number(l[0], i + 1) as usize;
        if trace == traces.len() {
            traces.push(Vec::new());
        }
        if trace + 1 != traces.len() {
            fail(&format!("line {}: traces must rise from 0", i + 1));
        }
        let (x, y) = (number(l[1], i + 1), number(l[2], i + 1));
        traces[trace].push(if l[3] == "-" {
            TimedPoint::new(x, y)
        } else {
            TimedPoint::with_time(x, y, number(l[3], i + 1))
        });
    }
    (config, traces)
}

fn answer(config: &Config, traces: &[Vec<TimedPoint>]) -> String {
    let fitted = Infostop::from_config(config.clone())
        .and_then(|mut m| m.fit_predict_many(traces));
    let labels = match fitted {
        Ok(labels) => labels,
        Err(e) => return e.to_string(),
    };
    let trace = |l: &Vec<i32>| {
        if l.iter().all(|x| *x == l[0]) {
            l[0].to_string()
        } else {
            l.iter().map(i32::to_string).collect::<Vec<_>>().join(",")
        }
    };
    labels.iter().map(trace).collect::<Vec<_>>().join(" ")
}

fn main() {
    let args: Vec<String> = std::env::args().collect();
    let fits = match args.len() {
        1 => 1000,
        2 => args[1].parse().unwrap_or_else(|_| fail("usage: two_answers [FITS]")),
        _ => fail("usage: two_answers [FITS]"),
    };
    let mut text = String::new();
    if std::io::stdin().read_to_string(&mut text).is_err() {
        fail("standard input cannot be read");
    }
    let (config, traces) = tracks(&text);
    let mut answers: BTreeMap<String, usize> = BTreeMap::new();
    for _ in 0..fits {
        *answers.entry(answer(&config, &traces)).or_default() += 1;
    }
    for (labels, times) in answers {
        println!("{times} of {fits}: {labels}");
    }
}
