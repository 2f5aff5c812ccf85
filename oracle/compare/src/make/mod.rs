//! The inputs: all short ones of a kind, texts, random ones with damage, those at the limits, and real files.
pub mod exhaustive;
pub mod files;
pub mod limits;
pub mod lists;
pub mod numbers;
pub mod odd;
pub mod pick;
pub mod records;
pub mod rows;
pub mod shared;
pub mod texts;
pub mod trees;
