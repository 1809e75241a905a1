//! An ordinary implementation of what `awreg` does, proved by nobody.
pub mod base;
pub mod check;
pub mod cli;
pub mod frames;
pub mod live;
pub mod play;
pub mod process;
pub mod report;
pub mod schedule;
pub mod text;
pub mod toml;
pub mod workload;
pub mod world;
