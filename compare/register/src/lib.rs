//! A second, independent implementation of the register of document 01, with the requests of
//! document 02 that have landed, written from the documents. `server` and `client` follow the
//! text with ordinary data structures; `flat` does the same steps on fixed arrays and lent areas,
//! without allocation.

pub mod accession;
pub mod any;
pub mod blocks;
pub mod client;
pub mod field;
pub mod flat;
pub mod frame;
pub mod history;
pub mod layout;
pub mod orders;
pub mod params;
pub mod playback;
pub mod random;
pub mod server;
pub mod sha256;
pub mod sheet;
pub mod staff;
pub mod traces;
pub mod variant;

pub use params::{Params, Party, Refusal, Send};
pub use variant::Variant;
