//! Recorded sessions and their replay, through the safe interface.

mod disk;
mod faults;
mod foreign;
mod month;
mod random;
mod records;
mod session;
mod sessions;
mod traces;
