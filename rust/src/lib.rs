//! Bintolage: the feature store of a drainage plough's terminal.
//!
//! Events go in, a tree of geometry records comes out, and the tree reads back as events; property values go in, and
//! property bytes read back as values. The work is done by a library of which every function is proved; this crate gives it
//! Rust's types. It has no heap and no `std`: all memory is lent by the caller.
//!
//! [`Writer`] holds the lent memory of one feature. [`Tree::read`], [`Tree::bbox`] and [`read_properties`] read. `State`
//! is what a writer keeps between calls, as words that may be stored or sent. [`bare`] has the calls with their
//! numbers, [`link`] as C sees them.
//!
//! [`read_wkb`] makes events of a county map's well-known binary, which [`Writer::events`] takes as they are; [`write_wkb`]
//! makes well-known binary of a geometry's events.
//!
//! Every event has the number of its feature, which the caller chooses: a writer takes events of one number until the next
//! feature, and a reading says the number that it is given, so that one log can take several features.
//!
//! A text that is not UTF-8 is refused with the place where it went bad, on writing and on reading: [`Refusal::NotUtf8`].
//! [`PropertiesRead::refused_text`] finds the text that a reading refused.
#![no_std]

#[rustfmt::skip] // a pointer and its count on one line
pub mod bare;
pub mod column_type;
pub mod event;
pub mod geometry_type;
#[rustfmt::skip] // a pointer and its count on one line
pub mod link;
mod memory;
mod properties;
mod refusal;
mod state;
mod tree;
pub mod usable;
mod value;
mod wkb;
mod writer;

pub use event::Event;
pub use memory::{Memory, Tree};
pub use properties::{read_properties, PropertiesRead, RefusedText};
pub use refusal::Refusal;
pub use state::{State, StateWords, Taken};
pub use tree::{Boxed, Read};
pub use value::{Value, ValueRecord};
pub use wkb::{read_wkb, write_wkb};
pub use writer::Writer;
