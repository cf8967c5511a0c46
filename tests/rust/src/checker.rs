//! The second checker: plain, one case at a time, so that a reader sees at once that it does what the paper says.

pub mod operations;
pub mod runs;
pub mod stored;

#[cfg(test)]
mod examples;
