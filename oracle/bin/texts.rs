//! texts FOLDER COUNT: writes COUNT texts for the program into FOLDER, always the same ones: tracks in its form, and damaged ones.
//! texts list: writes the list of texts that is replayed: edges of the form and of the limits, then some of the made ones. A text is its number of
//! bytes, a line feed, the bytes and a line feed.
use edited::random::Random;
use edited::text::fail;
use std::io::Write;
use std::path::Path;

/// Mostly usable settings.
fn settings(r: &mut Random) -> String {
    let r1 = if r.chance(40) {
        r.pick(&["0", "-0", "-5"])
    } else {
        r.pick(&["1", "5", "10", "30"])
    };
    let r2 = if r.chance(40) {
        r.pick(&["0", "-1"])
    } else {
        r.pick(&["1", "10", "25", "60"])
    };
    let single = r.below(2);
    let stay = if r.chance(40) {
        r.pick(&["0", "-300"])
    } else {
        r.pick(&["1", "60", "300"])
    };
    let gap = if r.chance(40) {
        r.pick(&["0", "60", "-1"])
    } else {
        r.pick(&["600", "86400"])
    };
    let size = if r.chance(40) {
        r.below(2)
    } else {
        r.between(2, 4)
    };
    let seed = r.pick(&["0", "1", "42", "43", "1000000000"]);
    format!("{r1} {r2} {single} {stay} {gap} {size} {seed}")
}

/// A walk between huts: a few fixes near each, timed or not.
fn tracks(r: &mut Random) -> String {
    let huts: Vec<(i64, i64)> = (0..r.between(1, 12))
        .map(|_| (r.between(0, 120) as i64 - 60, r.between(0, 120) as i64 - 60))
        .collect();
    let mut out = String::new();
    for trace in 0..r.between(1, 6) {
        let timed = r.chance(2);
        let mut time = 0;
        for _ in 0..r.between(1, 6) {
            let (x, y) = r.pick(&huts);
            for _ in 0..r.between(1, 5) {
                let spread = if r.chance(2) { 0 } else { 3 };
                let dx = r.between(0, 2 * spread) as i64 - spread as i64;
                let dy = r.between(0, 2 * spread) as i64 - spread as i64;
                time += r.pick(&[0, 30, 100, 400, 90_000]);
                if r.chance(200) {
                    time -= 500;
                }
                let shown = if timed != r.chance(1000) {
                    time.to_string()
                } else {
                    "-".into()
                };
                out += &format!("{trace} {} {} {shown}\n", x + dx, y + dy);
            }
        }
    }
    out
}

/// Standing at many places, near the limits of the program.
fn standing(places: usize, each: usize) -> String {
    let mut out = String::new();
    for trace in 0..places {
        for _ in 0..each {
            out += &format!("{} {} {} -\n", trace, 7 * trace, 0);
        }
    }
    out
}

/// One place of the text made wrong, or only unusual.
fn damaged(r: &mut Random, text: &[u8]) -> Vec<u8> {
    let mut t = text.to_vec();
    let at = r.below(t.len());
    match r.below(9) {
        0 => {
            t.remove(at);
        }
        1 => t.insert(at, r.pick(b" \n-0129xe.\t\r")),
        2 => t[at] = r.pick(b" \n-0129xe.\t\r\0\xff"),
        3 => {
            t.pop();
        }
        4 => t.push(b'\n'),
        5 => t.truncate(at),
        6 => {
            let word = r.pick(&[
                "-0",
                "007",
                "1000000000",
                "1000000001",
                "-1000000000",
                "99999999999999999999999",
                "+1",
                "--1",
            ]);
            let start = t[..at]
                .iter()
                .rposition(|&b| b == b' ' || b == b'\n')
                .map_or(0, |p| p + 1);
            let end = t[at..]
                .iter()
                .position(|&b| b == b' ' || b == b'\n')
                .map_or(t.len(), |p| at + p);
            t.splice(start..end.max(start), word.bytes());
        }
        7 => {
            let lines: Vec<&[u8]> =
                text.split_inclusive(|&b| b == b'\n').collect();
            let (a, b) = (r.below(lines.len()), r.below(lines.len()));
            let mut swapped = lines.clone();
            swapped.swap(a, b);
            t = swapped.concat();
        }
        _ => {
            let lines: Vec<&[u8]> =
                text.split_inclusive(|&b| b == b'\n').collect();
            let gone = r.below(lines.len());
            t = lines
                .iter()
                .enumerate()
                .filter(|l| l.0 != gone)
                .flat_map(|l| l.1.to_vec())
                .collect();
        }
    }
    t
}

fn text(r: &mut Random, i: usize) -> Vec<u8> {
    let lines = match i % 40 {
        0 => String::new(),
        1 => standing(64 + i / 40 % 2, 2),
        2 => standing(48, 16) + if i / 40 % 2 == 0 { "" } else { "47 0 0 -\n" },
        3 => standing(256 + i / 40 % 2, 2),
        _ => tracks(r),
    };
    let whole = format!(
        "r1 r2 single stay gap size seed\n{}\ntrace x y time\n{lines}",
        settings(r)
    );
    if r.chance(3) {
        damaged(r, whole.as_bytes())
    } else {
        whole.into_bytes()
    }
}

fn with(settings: &str, lines: &str) -> Vec<u8> {
    let names = "r1 r2 single stay gap size seed";
    format!("{names}\n{settings}\ntrace x y time\n{lines}").into_bytes()
}

/// Each refusal that a text can reach, the limits, and the edges of the form.
fn edges() -> Vec<Vec<u8>> {
    const USUAL: &str = "10 10 1 300 86400 2 42";
    const TWO: &str = "0 0 0 -\n0 3 4 -\n";
    let mut out = vec![Vec::new(), b"\n".to_vec(), vec![0xff; 40]];
    for settings in [
        USUAL,
        "0 10 1 300 86400 2 42",
        "10 0 1 300 86400 2 42",
        "10 10 1 0 86400 2 42",
        "10 10 1 300 -0 2 42",
        "10 10 1 300 300 2 42",
        "10 10 1 300 86400 1 42",
        "10 10 -0 300 86400 2 42",
        "10 10 2 300 86400 2 42",
        "10 10 -1 300 86400 2 42",
        "10 10 1 300 86400 -2 42",
        "10 10 1 300 86400 2 -1",
        "1000000000 1000000000 1 300 86400 2 1000000000",
        "1000000001 10 1 300 86400 2 42",
        "0010 10 1 300 86400 2 42",
        "+10 10 1 300 86400 2 42",
        "10 10 1 300 86400 2",
        "10 10 1 300 86400 2 42 ",
        " 10 10 1 300 86400 2 42",
        "10  10 1 300 86400 2 42",
        "10 - 1 300 86400 2 42",
    ] {
        out.push(with(settings, TWO));
    }
    for lines in [
        "",
        "0 0 0 -",
        "0 0 0 -\n\n",
        "1 0 0 -\n",
        "0 0 0 -\n2 0 0 -\n",
        "0 0 0 -\n1 0 0 -\n0 0 0 -\n",
        "0 -0 0 -\n0 0 -0 -\n",
        "0 1000000000 -1000000000 -\n0 1000000000 -1000000000 -\n",
        "0 1000000001 0 -\n",
        "0 0 0 0\n0 0 0 300\n",
        "0 0 0 0\n0 0 0 299\n",
        "0 0 0 10\n0 0 0 9\n",
        "0 0 0 -\n1 0 0 5\n1 0 0 -\n",
        "0 0 0 --\n",
        "0 - 0 -\n",
        "0 0 0 - \n",
        "0 0 0\n",
        "0 0 0 -\r\n",
        "0 0.5 0 -\n",
        "0 0 0 -\n0 6 9 -\n",
    ] {
        out.push(with(USUAL, lines));
    }
    for (places, each) in [(64, 2), (65, 2), (256, 2), (257, 2), (256, 3)] {
        out.push(with(USUAL, &standing(places, each)));
        out.push(with("1 1 0 300 86400 2 42", &standing(places, each)));
    }
    out.push(with(USUAL, &(standing(256, 3) + "255 0 0 -\n")));
    out.push(with("0 10 1 300 86400 2 42", &standing(257, 3)));
    let zeros = "0".repeat(20_000);
    out.push(with(USUAL, &format!("0 {zeros}3 0 -\n0 3 {zeros} -\n")));
    out.push(with(USUAL, &format!("0 {} 0 -\n", "9".repeat(20_000))));
    out.push(with(USUAL, &format!("0{}0 0 -\n", " ".repeat(20_000))));
    let whole = with(USUAL, TWO);
    out.push(whole[..whole.len() - 1].to_vec());
    out.push(whole[1..].to_vec());
    out
}

/// The examples; `-0` as the size, the seed and the trace; a text above 65,536 bytes whose last times fall, and the same with its last byte wrong.
fn further() -> Vec<Vec<u8>> {
    let zeros = "0".repeat(270);
    let lines: String = (0..256)
        .map(|i| {
            let time = if (i % 2 == 0) == (i / 2 == 127) { 300 } else { 0 };
            format!("{} {zeros}{} 0 {time}\n", i / 2, i / 2 * 40)
        })
        .collect();
    let long = with("10 10 1 300 86400 2 42", &lines);
    let mut wrong = long.clone();
    wrong.pop();
    wrong.push(b' ');
    vec![
        include_bytes!("../../examples/line.txt").to_vec(),
        include_bytes!("../../examples/two-answers.txt").to_vec(),
        include_bytes!("../../examples/timed.txt").to_vec(),
        include_bytes!("../../examples/refused.txt").to_vec(),
        include_bytes!("../../examples/unlabelled.txt").to_vec(),
        with("10 10 1 300 86400 -0 42", "0 0 0 -\n0 3 4 -\n"),
        with("10 10 1 300 86400 2 -0", "0 0 0 -\n0 3 4 -\n"),
        with("10 10 1 300 86400 2 42", "-0 0 0 -\n-0 3 4 -\n"),
        long,
        wrong,
    ]
}

fn put_list() {
    let mut texts = edges();
    let mut r = Random(20_261_117);
    texts.extend((0..160).filter(|i| i % 40 > 3).map(|i| text(&mut r, i)));
    texts.extend(further());
    let mut out = format!("{}\n", texts.len()).into_bytes();
    for t in texts {
        out.extend(format!("{}\n", t.len()).bytes());
        out.extend(t);
        out.push(b'\n');
    }
    if let Err(e) = std::io::stdout().write_all(&out) {
        fail(&format!("standard output cannot be written: {e}"));
    }
}

fn put_folder(folder: &str, count: usize) {
    let mut r = Random(20_261_116);
    for i in 0..count {
        let path = Path::new(folder).join(format!("{i}.txt"));
        if let Err(e) = std::fs::write(&path, text(&mut r, i)) {
            fail(&format!("{} cannot be written: {e}", path.display()));
        }
    }
}

fn main() {
    let args: Vec<String> = std::env::args().collect();
    match &args[1..] {
        [list] if list == "list" => put_list(),
        [folder, count] => put_folder(
            folder,
            count.parse().unwrap_or_else(|_| fail("COUNT is no number")),
        ),
        _ => fail("usage: texts list, or texts FOLDER COUNT"),
    }
}
