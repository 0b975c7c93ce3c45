//! The proved tool, by the crate `drf`, beside the independent checker.

pub mod beside;
pub mod mutate;
pub mod single;
pub mod steps;
pub mod tables;
pub mod timing;
pub mod watch;
