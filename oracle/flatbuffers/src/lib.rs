//! Hand-written stand-in for crate `flatbuffers`, after the public FlatBuffers format, as far as flatgeobuf's feature_generated.rs,
//! feature_writer.rs and properties_reader.rs need it, with strings for the header. The names are the crate's.
//!
//! `Vector::get` asserts its index, as the crate does: that assertion is refusal 7 (SPEC 7.9).
#![allow(clippy::missing_safety_doc, clippy::len_without_is_empty)]

mod builder;
mod scalar;
mod table;
mod verifier;

pub use builder::*;
pub use scalar::*;
pub use table::*;
pub use verifier::*;

pub type UOffsetT = u32;
pub type SOffsetT = i32;
pub type VOffsetT = u16;
pub const SIZE_UOFFSET: usize = 4;
pub const SIZE_SOFFSET: usize = 4;
pub const SIZE_VOFFSET: usize = 2;
pub const SIZE_SIZEPREFIX: usize = 4;
pub const FLATBUFFERS_MAX_BUFFER_SIZE: usize = (1 << 31) - 1;
