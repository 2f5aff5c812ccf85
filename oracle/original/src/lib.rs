//! flatgeobuf 6.0.1's own feature writer, geometry reader and property reader, run over hand-written stand-ins for what they lean
//! on.
//!
//! The crate's text is taken in byte for byte (see build.rs); `header_generated` stands in for its module of that name, and the
//! names below for its root. The other modules are ours: they give the crate the records of SPEC 3 and take its answers back as
//! records.
pub mod answer;
pub mod events;
pub mod header_generated;
pub mod properties;
pub mod reading;
pub mod serve;
pub mod tree;
pub mod writing;

macro_rules! trace { ($($t:tt)*) => { { let _ = format_args!($($t)*); } } }
#[allow(unused_macros)] // the crate names it in a part that is never built
macro_rules! debug { ($($t:tt)*) => { { let _ = format_args!($($t)*); } } }
include!(concat!(env!("OUT_DIR"), "/sources.rs"));

pub use feature_generated::*;
pub use header_generated::*;

#[derive(Debug)]
pub enum Error {
    UnsupportedGeometryType(String),
    Io(std::io::Error),
}
impl From<std::io::Error> for Error {
    fn from(error: std::io::Error) -> Self {
        Error::Io(error)
    }
}
pub type Result<T> = std::result::Result<T, Error>;
