//! Random adversarial runs of the register, and the check of demand 3's row on each.

pub mod adversary;
pub mod check;
pub mod lockstep;
pub mod progress;
pub mod recorded;
pub mod run;
pub mod style;
pub mod world;
