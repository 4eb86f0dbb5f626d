//! The listed files of infostop as they are.
pub mod cluster;
pub mod config;
pub mod distance;
pub mod error;
pub mod infomap;
pub mod model;
pub mod neighbors;
pub mod stay;
pub mod types;
