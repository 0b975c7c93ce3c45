//! An independent checker of SCL(T) run files, in plain Rust, written from the paper, which is the
//! specification, "What we are building and its rules".
//!
//! The checker: [`clause`], [`constraint`], [`merge`], [`state`], [`step`], [`rules`] are the
//! calculus, [`file`] and [`admission`] its two ways in, [`listing`] what is printed, [`replay`] the steps behind a
//! trail; [`cases`] are offered by the second way, or to [`merge`] alone. [`table`] makes input clauses from a lookup
//! table, as change request 1 has it; the numbers behind a yes are as change request 2 has them, and the atoms of a
//! decision as the request "Decisions that bring bounds" has them.
//!
//! The tests of others: [`generate`] makes run files and tables, [`coverage`] counts what they come to, [`smt`] puts
//! questions to a solver.

pub mod admission;
pub mod cases;
pub mod clause;
pub mod constraint;
pub mod coverage;
pub mod file;
pub mod generate;
pub mod limits;
pub mod listing;
pub mod merge;
pub mod random;
pub mod refusal;
pub mod replay;
pub mod rules;
pub mod smt;
pub mod state;
pub mod step;
pub mod table;
