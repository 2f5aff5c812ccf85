//! Column types, by number.
pub const BYTE: u8 = 0;
pub const UBYTE: u8 = 1;
pub const BOOL: u8 = 2;
pub const SHORT: u8 = 3;
pub const USHORT: u8 = 4;
pub const INT: u8 = 5;
pub const UINT: u8 = 6;
pub const LONG: u8 = 7;
pub const ULONG: u8 = 8;
pub const FLOAT: u8 = 9;
pub const DOUBLE: u8 = 10;
pub const STRING: u8 = 11;
pub const JSON: u8 = 12;
pub const DATE_TIME: u8 = 13;
pub const BINARY: u8 = 14;
