//! A second checker for stored jobs, written from the users' papers alone, and what compares the product with it.

pub mod baseline;
pub mod boundary;
pub mod checker;
pub mod generate;
pub mod harness;
pub mod mock;
pub mod program;
pub mod texts;
pub mod trial;
