//! The proved library beside two models of its own rules.
//!
//! - [`library`] puts the library behind the reference's trait, so that one comparison runs both.
//! - [`wrapper`] does the same with the typed wrapper.
//! - [`recordings`] reads and replays texts by both, [`writings`] writes them.
//! - [`simulations`] does it with the interrupt routines.
//! - [`fast`] is the model that the library's speed is compared with.
//! - [`peer`] is the fastest one that plain Rust offers.
//! - [`workload`] makes the benchmark's commands.

pub mod fast;
pub mod library;
pub mod peer;
pub mod recordings;
pub mod simulations;
pub mod workload;
pub mod wrapper;
pub mod writings;
