//! The host's side of PSIC, the interrupt controller of document 01.
//!
//! - [`records`], [`well_formed`] and [`mod@reference`] are the reference model.
//! - [`ledger`] and [`demand3`] are document 01's book and the check of demand 3 against it.
//! - [`dropped`] checks the counts of dropped triggers against what a run answered.
//! - [`random`], [`generate`] and [`damage`] make histories, broken states and records to lend.
//! - [`recording`] reads and replays the bus monitor's text; [`texts`] makes such texts.
//! - [`writing`] writes a run of commands as such a text.
//! - [`routines`] simulates the interrupt routines on all cores.
//! - [`model`] and [`compare`] run two models side by side on one workload.

pub mod compare;
pub mod damage;
pub mod demand3;
pub mod dropped;
pub mod generate;
pub mod ledger;
pub mod model;
pub mod random;
pub mod recording;
pub mod records;
pub mod reference;
pub mod routines;
pub mod texts;
pub mod well_formed;
pub mod writing;
