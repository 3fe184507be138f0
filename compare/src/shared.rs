//! The command line, as the programs of rust/ have it.

#[path = "../../rust/src/bin/shared/arguments.rs"]
pub mod arguments;
#[path = "../../rust/src/bin/shared/command.rs"]
pub mod command;
#[path = "../../rust/src/bin/shared/names.rs"]
mod names;
#[path = "../../rust/src/bin/shared/numbers.rs"]
pub mod numbers;
#[path = "../../rust/src/bin/shared/output.rs"]
mod output;
