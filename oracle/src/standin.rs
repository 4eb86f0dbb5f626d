//! The rules' stand-in for ln.

/// LN2 of docs/RULES.md.
const LN2: f64 = f64::from_bits(0x3FE6_2E42_FEFA_39EF);

/// p = 2^k × m with 0.75 <= m < 1.5; halving and doubling are exact here.
fn split(p: f64) -> (f64, f64) {
    let (mut m, mut k) = (p, 0.0);
    while m >= 1.5 {
        m *= 0.5;
        k += 1.0;
    }
    while m < 0.75 {
        m *= 2.0;
        k -= 1.0;
    }
    (k, m)
}

/// ln by the series of docs/RULES.md, each operation rounded once.
pub fn ln(p: f64) -> f64 {
    if p.is_nan() || p < 0.0 {
        return f64::NAN;
    }
    if p == 0.0 {
        return f64::NEG_INFINITY;
    }
    if p == f64::INFINITY {
        return p;
    }
    let (k, m) = split(p);
    let s = (m - 1.0) / (m + 1.0);
    let z = s * s;
    let mut t = 1.0 / 23.0;
    for j in (1..=21).rev().step_by(2) {
        t = t * z + 1.0 / f64::from(j);
    }
    k * LN2 + (2.0 * s) * t
}
