//! In the place of geos.rs, where libgeos_c is not installed.
use std::time::Duration;

pub fn reading(_bytes: &[u8]) -> Option<fn() -> Duration> {
    None
}

pub fn writing(_bytes: &[u8]) -> Option<fn() -> Duration> {
    None
}
