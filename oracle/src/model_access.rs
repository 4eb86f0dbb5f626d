/// Access to private items, for the oracle.
pub mod access {
    use super::Point;

    /// Distinct points, the number of each point's place, and the counts.
    pub fn unique(points: &[Point]) -> (Vec<Point>, Vec<usize>, Vec<usize>) {
        super::unique_points(points)
    }

    /// The rounding to a whole number that a fit uses.
    pub fn round(x: f64) -> f64 {
        x.round()
    }

    /// The medians as a fit rounds them; in the Rust this stands inside the fit.
    pub fn on_grid(medians: &mut [Point], res: f64) {
        if res > 0.0 {
            for m in medians {
                m.x = round(m.x / res) * res;
                m.y = round(m.y / res) * res;
            }
        }
    }
}
