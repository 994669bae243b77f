//! The original files of yrs 0.28.0, unchanged, and what is compared with them.
#![allow(dead_code, unused, mismatched_lifetime_syntaxes)]
include!(concat!(env!("OUT_DIR"), "/yrs/mods.rs"));

pub use block::ID;
pub use id_set::IdSet;
pub use stand_ins::{Any, ReadTxn};

mod stand_ins;
pub use stand_ins::{block_store, iter, slice, store};

#[cfg(all(rattle, pace))]
pub mod bench;
pub mod case;
pub mod facts;
pub mod gen;
pub mod model;
pub mod original;
pub mod ours;
pub mod rng;
