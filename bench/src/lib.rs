//! The kit finder's library against other programs for the same work: workloads, peers, measuring, tables and a plot.

pub mod measure;
pub mod peers;
pub mod plot;
mod random;
pub mod table;
pub mod workloads;
