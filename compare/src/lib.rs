//! Document 01 written out plainly, for the programs that compare or measure with it.

pub mod paper;
