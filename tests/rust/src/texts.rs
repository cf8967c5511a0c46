//! Assertions as text (C-11): a second reader written from the request alone, texts to try it on, and the comparison.
//!
//! The reader says of whole texts which are accepted, and finds the place of a refusal by trying to complete what
//! stands before it. A reader that walks along the text is kept in `walk`, where mistakes are put into it.

pub mod calls;
pub mod damage;
pub mod draft;
pub mod generate;
pub mod guards;
pub mod mistakes;
pub mod mock;
pub mod place;
pub mod reader;
pub mod spread;
pub mod trial;
pub mod walk;

#[cfg(test)]
mod examples;
