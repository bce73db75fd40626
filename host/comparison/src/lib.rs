//! The proved library beside the reference: the same requests to both.

pub mod built;
pub mod cod;
pub mod compare;
pub mod counts;
pub mod guarded;
pub mod lengths;
pub mod logs;
pub mod looser;
pub mod prices;
pub mod requests;
pub mod stack;
pub mod sweep_calls;
pub mod sweeps;
pub mod targets;
pub mod works;
