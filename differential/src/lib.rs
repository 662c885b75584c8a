//! The original as judge of the port: scripts go through both, and every answer, list and stream is compared.
pub mod allowances;
pub mod bundle;
pub mod bundles;
pub mod compare;
pub mod counts;
pub mod cuts;
pub mod exchange;
pub mod guests;
pub mod judge;
pub mod line;
pub mod loans;
pub mod plans;
pub mod port;
pub mod random;
pub mod report;
pub mod shapes;
pub mod shrink;
