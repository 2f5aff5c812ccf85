/// What is lent to write a feature: a table of 64-byte geometry records and six pools.
///
/// Between calls, what the state uses of it is to be kept as the last call left it.
pub struct Memory<'a> {
    pub table: &'a mut [u8],
    pub xy: &'a mut [u64],
    pub ends: &'a mut [u32],
    pub z: &'a mut [u64],
    pub m: &'a mut [u64],
    pub t: &'a mut [u64],
    pub tm: &'a mut [u64],
}

impl Memory<'_> {
    /// The same, to be read.
    pub fn tree(&self) -> Tree<'_> {
        Tree { table: self.table, xy: self.xy, ends: self.ends, z: self.z, m: self.m, t: self.t, tm: self.tm }
    }
}

/// A tree of geometry records, its root at record 0. The table is to have a whole number of records.
#[derive(Clone, Copy)]
pub struct Tree<'a> {
    pub table: &'a [u8],
    pub xy: &'a [u64],
    pub ends: &'a [u32],
    pub z: &'a [u64],
    pub m: &'a [u64],
    pub t: &'a [u64],
    pub tm: &'a [u64],
}
