//! A node of the register. The core (`core` and what it uses) is pure: events in, actions out. The program around it has the sockets and files.
#![deny(unsafe_code)]

pub mod bytes;
pub mod cluster;
pub mod core;
pub mod desk;
pub mod draw;
pub mod events;
pub mod judge;
pub mod links;
pub mod log;
pub mod messages;
mod owed;
pub mod page;
pub mod random;
pub mod records;
pub mod recovery;
pub mod sem;
pub mod settings;
pub mod snapshot;
pub mod state;
pub mod status;
pub mod streams;

#[cfg(feature = "sim")]
pub mod sim;
pub mod writer;
