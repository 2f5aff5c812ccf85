//! The crate's answers as the numbers of SPEC 5.1.
use geozero::error::GeozeroError;
use std::cell::RefCell;
use std::panic::{catch_unwind, set_hook, AssertUnwindSafe};

pub const DONE: u8 = 0;
pub const TYPES_MIXED: u8 = 5;
pub const TEXT_NOT_UTF8: u8 = 6;
pub const PAST_LIST: u8 = 7;
pub const BAD_END: u8 = 8;
pub const LOG_FULL: u8 = 9;
pub const BAD_RECORD: u8 = 10;
pub const MALFORMED: u8 = 11;
pub const NO_ROOM: u8 = 12;
pub const TOO_DEEP: u8 = 13;
pub const VALUE_CUT: u8 = 14;
pub const NOT_ITS_TURN: u8 = 15;
pub const COLUMN_TOO_LARGE: u8 = 16;
pub const OTHER_FEATURE: u8 = 17;
/// No number of SPEC 5.1: an error or a panic that it does not know.
pub const UNKNOWN: u8 = 255;

/// The number of an error that the crate gives, by its words where one kind of error has several.
pub fn number(error: &GeozeroError) -> u8 {
    match error {
        GeozeroError::Coord => 1,
        GeozeroError::GeometryFormat => 2,
        GeozeroError::Geometry(words) if words.starts_with("Unknown geometry type") => 3,
        GeozeroError::Geometry(words) if words.starts_with("Unexpected geometry type in curve") => 4,
        GeozeroError::Geometry(words) if words.starts_with("Cannot mix geometry types") => TYPES_MIXED,
        GeozeroError::Property(words) if words == "Invalid UTF-8 encoding" => TEXT_NOT_UTF8,
        GeozeroError::LogFull => LOG_FULL,
        _ => UNKNOWN,
    }
}

thread_local! { static LAST_PANIC: RefCell<String> = const { RefCell::new(String::new()) }; }

/// Panics are kept, with their place, rather than printed.
pub fn keep_panics() {
    set_hook(Box::new(|info| {
        let payload = info.payload();
        let words = payload.downcast_ref::<&str>().copied().or(payload.downcast_ref::<String>().map(String::as_str));
        let place = info.location().map(|at| format!("{}:{}", at.file(), at.line()));
        let kept = format!("{} at {}", words.unwrap_or_default(), place.unwrap_or_default());
        LAST_PANIC.with(|last| *last.borrow_mut() = kept);
    }));
}

/// What a call of the crate gives, or the words of its panic.
pub fn caught<T>(call: impl FnOnce() -> T) -> Result<T, String> {
    catch_unwind(AssertUnwindSafe(call)).map_err(|_| LAST_PANIC.with(|last| last.borrow().clone()))
}
