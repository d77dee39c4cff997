//! docs/RULES.md as a plain program: `log` (sections 1 to 3), which knows nothing of the pool, and `pool` above it
//! (sections 4 to 8).
pub mod log;
pub mod pool;
