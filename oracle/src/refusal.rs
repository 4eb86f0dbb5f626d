//! The Rust's refusals, by the rules' numbers.
use crate::error::Error;
use crate::text::fail;

/// The rules' number of a refusal, and its trace.
pub fn refusal(e: &Error) -> (u32, usize) {
    const CAUSES: [(&str, u32); 13] = [
        ("`r1` must", 1),
        ("`r2` must", 2),
        ("`min_staying_time` must be finite", 3),
        ("`max_time_between` must be finite", 4),
        ("`max_time_between` must be >", 5),
        ("`min_size` must", 6),
        ("expected at least one trajectory", 7),
        ("coordinates must be finite", 12),
        ("timestamps must be finite", 13),
        ("timestamps must be present", 14),
        ("timestamps must be ordered", 15),
        ("no stop locations labeled", 18),
        ("`min_spatial_resolution` must", 23),
    ];
    let message = e.to_string();
    let Some((_, number)) = CAUSES.iter().find(|(c, _)| message.contains(c))
    else {
        fail(&format!("a refusal without a number: {message}"));
    };
    let trace = message
        .strip_prefix("invalid input: trace ")
        .and_then(|t| t.split(':').next())
        .map_or(0, |t| t.parse().expect("a trace number"));
    (*number, trace)
}

/// 24, which the Rust does not have: a resolution between zero and 2^-10, both excluded, or above 10^6.
pub fn is_out_of_bounds(resolution: f64) -> bool {
    (resolution > 0.0 && resolution < 1.0 / 1024.0) || resolution > 1e6
}
