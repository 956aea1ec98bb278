//! Recordings as the programs `record`, `replay` and `show` have them, on a stack of 16,000 zero
//! bytes. What a recording is stands in `reference/replay.rs`.

pub mod draw;
pub mod kept;
mod record;
mod replay;
mod show;

pub use record::record;
pub use replay::replay;
pub use show::show;
