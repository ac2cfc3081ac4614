//! The tool `manual`: searches a manual in plain text with the proved engine, and shows the finds in its text.
//!
//! The answers are the engine's. What is here, and tested and not proved, comes before and after it: [`document`] makes
//! sections of a manual, [`words`] numbers its words, [`families`] reads which of them count as one another, [`search`] puts
//! these numbers into a typed search, and [`show`] and [`json`] write what is found.

pub mod answer;
pub mod codes;
pub mod command;
pub mod document;
pub mod engine;
pub mod families;
pub mod json;
pub mod near;
pub mod refusal;
pub mod run;
pub mod search;
pub mod show;
pub mod tokens;
pub mod words;
