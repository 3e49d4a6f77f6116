//! The published crate next to the port.
//!
//! [`published`] makes a call on crate thrift 0.25.0 and says its answer in the port's terms; [`port`] makes the same
//! call on the port; [`judge`] holds one answer against the other. [`known`] lists where they may differ and how.
//! [`inputs`] is what they are tried on, and [`plain`] a second opinion: the rules again, in ordinary Rust.
#![forbid(unsafe_code)]
#![warn(missing_docs)]

pub mod habits;
mod hex;
pub mod inputs;
pub mod judge;
pub mod kept;
pub mod known;
pub mod plain;
pub mod port;
pub mod published;
pub mod rng;
pub mod shares;
mod state;
pub mod visitor;
pub mod wrong;
