//! Numbers on standard input and output: unsigned decimal, floats as their bit patterns.
use std::fmt::Display;
use std::io::Read;
use std::process::exit;

/// Ends with a message and status 1.
pub fn fail(message: &str) -> ! {
    eprintln!("oracle: {message}");
    exit(1)
}

pub struct Numbers {
    values: Vec<u64>,
    at: usize,
}

impl Numbers {
    /// All of standard input.
    pub fn read() -> Self {
        let mut text = String::new();
        if let Err(e) = std::io::stdin().read_to_string(&mut text) {
            fail(&format!("standard input cannot be read: {e}"));
        }
        let values = text
            .split_ascii_whitespace()
            .enumerate()
            .map(|(i, w)| {
                w.parse().unwrap_or_else(|_| {
                    fail(&format!("word {} is no unsigned number: {w}", i + 1))
                })
            })
            .collect();
        Self { values, at: 0 }
    }

    pub fn next(&mut self) -> u64 {
        let Some(&v) = self.values.get(self.at) else {
            fail("the list ends in the middle of a case");
        };
        self.at += 1;
        v
    }

    pub fn float(&mut self) -> f64 {
        f64::from_bits(self.next())
    }

    /// A number of at most `most`.
    pub fn up_to(&mut self, most: u64) -> usize {
        let at = self.at + 1;
        let v = self.next();
        if v > most {
            fail(&format!("word {at} is {v}, more than {most}"));
        }
        v as usize
    }

    /// Nothing may be left.
    pub fn end(&self) {
        if self.at != self.values.len() {
            fail(&format!("more words than cases, from word {}", self.at + 1));
        }
    }
}

/// A float's bit pattern; one pattern for every NaN.
pub fn bits(x: f64) -> u64 {
    if x.is_nan() {
        0x7FF8_0000_0000_0000
    } else {
        x.to_bits()
    }
}

/// One line of numbers.
#[derive(Default)]
pub struct Line(Vec<String>);

impl Line {
    pub fn put(&mut self, n: impl Display) -> &mut Self {
        self.0.push(n.to_string());
        self
    }

    pub fn float(&mut self, x: f64) -> &mut Self {
        self.put(bits(x))
    }

    pub fn text(&self) -> String {
        self.0.join(" ")
    }
}
