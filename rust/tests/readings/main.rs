//! The readings of documents 01 and 02, through the safe interface.

mod arguments;
mod dump;
mod header;
mod indices;
mod intakes;
mod locations;
mod nodes;
mod partition;
mod properties;
mod reading_record;
mod running;
mod tallies;
mod text;
