//! A second MFER reader, link, writer and maker, written from the papers alone, and generators of files
//! and of the maker's inputs to compare it with the first.
#![forbid(unsafe_code)]

pub mod generator;
pub mod inputs;
mod items;
pub mod link;
pub mod maker;
pub mod papers;
mod random;
pub mod reader;
mod scan;
mod settings;
pub mod shrink;
pub mod writer;
