//! The comparison of the first implementation's programs with this one.

pub mod difference;
pub mod mismatch;
pub mod pool;
pub mod program;
pub mod progress;
pub mod shrink;
pub mod sides;
pub mod task;
