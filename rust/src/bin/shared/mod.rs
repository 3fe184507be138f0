//! What the command-line programs share. Each uses a part of it.

#![allow(dead_code)]

pub mod arguments;
pub mod calls;
pub mod command;
pub mod flaws;
pub mod input;
pub mod judge;
pub mod line;
pub mod names;
pub mod numbers;
pub mod output;
pub mod records;
pub mod sha256;
pub mod sources;
pub mod trace;
pub mod visible;
