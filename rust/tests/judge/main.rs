//! The programs' judge of journals, inventories and traces: held to the library, and its words.

mod held;
#[path = "../../src/bin/shared/judge.rs"]
mod judge;
mod made;
#[path = "../replay/random.rs"]
mod random;
#[path = "../replay/records.rs"]
mod records;
#[path = "../../src/bin/shared/trace.rs"]
mod trace;
mod traces;
mod words;
