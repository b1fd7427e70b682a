//! A model of the hub's label monitor, written from the paper for use in tests.
//!
//! Sets of tags are `BTreeSet<u8>`, contents are `Vec<u8>`, a slot is an
//! `Option<Entity>`. Each rule of the paper stands in one place:
//!
//! - `hub`: the table, flow, conflict groups and the check of them
//! - `call`: the nine calls and the fields they use
//! - `refusal`: when a call is turned down
//! - `effect`: what an allowed call does, and previews
//! - `record`: the sixteen bytes and the need
//! - `audit`: which records an auditor is shown
//! - `text`: the loader
//! - `tally`: the records of each caller, counted
//! - `hubcalls`, `hubaudit`, `hubtally`: what the programs print
//! - `raw`: tables that may lack the form, and 99
//! - `script`: the line-based scripts of SCRIPT.md
//!
//! `generate` makes test input and `tworuns` checks the claim about two runs; neither
//! adds a rule.

pub mod audit;
pub mod call;
pub mod effect;
pub mod generate;
pub mod hex;
pub mod hub;
pub mod hubaudit;
pub mod hubcalls;
pub mod hubtally;
pub mod raw;
pub mod record;
pub mod refusal;
pub mod script;
pub mod tags;
pub mod tally;
pub mod text;
pub mod tworuns;
