//! The station held against the code it carries over and against document 01.
//!
//! A [`table::Table`] is a sheet that must be accepted; [`judge::Judge::table`] asks the crate, the
//! model and the station for its rows and compares. A [`call::Call`] is one call of a C entry with
//! any bytes; [`judge::Judge::call`] asks the model and the station.

pub mod call;
pub mod columns;
pub mod comparisons;
pub mod crate_side;
pub mod cuts;
pub mod cutter;
pub mod damage;
pub mod document;
pub mod hex;
pub mod hostile;
pub mod joins;
pub mod judge;
pub mod lookups;
pub mod make;
pub mod misreads;
pub mod model;
pub mod options;
pub mod order;
pub mod plain;
pub mod reads;
pub mod record;
pub mod refusals;
pub mod rng;
pub mod sample;
pub mod shrink;
pub mod stack;
pub mod sweeps;
pub mod table;
pub mod trap;
pub mod yard;
