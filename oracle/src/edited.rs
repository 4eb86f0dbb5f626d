//! The listed files of infostop with the rules' stand-ins, and what the oracle adds.
pub mod cluster;
pub mod config;
pub mod distance;
pub mod empty;
pub mod error;
pub mod fit;
pub mod grid;
pub mod infomap;
pub mod model;
pub mod neighbors;
pub mod random;
pub mod record;
pub mod refusal;
pub mod standin;
pub mod stay;
pub mod text;
pub mod types;
