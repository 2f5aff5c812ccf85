//! Usable room: what is lent beyond it is neither read nor changed.
pub const RECORDS: usize = 4_096;
pub const XY_WORDS: usize = 131_072;
/// The words of each pool but xy's.
pub const POOL_WORDS: usize = 65_536;
pub const LOG_RECORDS: usize = 1_048_576;
pub const PROPERTY_BYTES: usize = 65_536;
/// Levels of geometries within geometries; the root, a box's own record, or the outermost geometry of well-known binary, is
/// the first.
pub const LEVELS: usize = 16;

/// How many words a writer's state has.
pub const STATE_WORDS: usize = 16;

/// How many bytes a record of each kind has.
pub const EVENT_BYTES: usize = 64;
pub const GEOMETRY_BYTES: usize = 64;
pub const VALUE_BYTES: usize = 16;
