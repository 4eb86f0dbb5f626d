//! A fit as the lists write it: settings and tracks.
use crate::text::Line;

/// x, y and a time or none.
pub type Fix = (f64, f64, Option<f64>);

#[derive(Clone)]
pub struct Fit {
    pub r1: f64,
    pub r2: f64,
    pub single: u32,
    pub stay: f64,
    pub gap: f64,
    pub size: u64,
    pub resolution: f64,
    pub seed: u64,
    pub traces: Vec<Vec<Fix>>,
}

/// The settings of the rules' examples.
pub const EXAMPLE: Fit = Fit {
    r1: 10.0,
    r2: 10.0,
    single: 1,
    stay: 300.0,
    gap: 86_400.0,
    size: 2,
    resolution: 0.0,
    seed: 42,
    traces: Vec::new(),
};

impl Fit {
    pub fn with(traces: Vec<Vec<Fix>>) -> Self {
        Self { traces, ..EXAMPLE }
    }

    pub fn line(&self) -> Line {
        let mut line = Line::default();
        line.float(self.r1).float(self.r2).put(self.single);
        line.float(self.stay).float(self.gap).put(self.size);
        line.float(self.resolution).put(self.seed);
        line.put(self.traces.len());
        for t in &self.traces {
            line.put(t.len());
        }
        for &(x, y, time) in self.traces.iter().flatten() {
            line.float(x).float(y).put(u32::from(time.is_some()));
            line.float(time.unwrap_or(0.0));
        }
        line
    }
}

pub fn untimed(points: &[(f64, f64)]) -> Vec<Fix> {
    points.iter().map(|p| (p.0, p.1, None)).collect()
}

/// Two fixes at one point.
pub fn twice(x: f64, y: f64) -> Vec<Fix> {
    untimed(&[(x, y), (x, y)])
}

pub fn timed_pair(a: f64, b: f64) -> Vec<Fix> {
    vec![(0.0, 0.0, Some(a)), (0.0, 0.0, Some(b))]
}
