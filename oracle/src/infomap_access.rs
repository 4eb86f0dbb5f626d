/// Access to private items, for the oracle.
pub mod access {
    use super::Rng64;

    /// The first k outputs of a generator.
    pub fn outputs(seed: u64, k: usize) -> Vec<u64> {
        let mut rng = Rng64::new(seed);
        (0..k).map(|_| rng.next_u64()).collect()
    }

    /// A shuffle of 0..n, and the generator's state after it.
    pub fn shuffled(seed: u64, n: usize) -> (Vec<usize>, u64) {
        let mut rng = Rng64::new(seed);
        let mut items: Vec<usize> = (0..n).collect();
        rng.shuffle(&mut items);
        (items, rng.state)
    }

    pub fn plogp(p: f64) -> f64 {
        super::plogp(p)
    }
}
