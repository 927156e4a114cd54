//! Document 01 as a model, the words in which calls and answers are told, and their text format. It leans on nothing: neither on the Rust's text
//! nor on the shipped library.
pub mod calls;
pub mod corpus;
pub mod model;
