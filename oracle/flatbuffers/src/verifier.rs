//! Whether bytes hold the tables they claim to: after the public rules, and only roughly the crate's own.
use crate::table::{Follow, ForwardsUOffset, SkipSizePrefix, Vector};
use crate::{UOffsetT, VOffsetT, SIZE_SIZEPREFIX, SIZE_UOFFSET};
use std::fmt;
use std::mem::size_of;

#[derive(Clone, Debug, PartialEq, Eq)]
pub enum InvalidFlatbuffer {
    MissingRequiredField(&'static str),
    Utf8Error,
    MissingNullTerminator,
    Unaligned(usize),
    RangeOutOfBounds(usize, usize),
    SignedOffsetOutOfBounds(usize),
    TooManyTables,
    ApparentSizeTooLarge,
    DepthLimitReached,
}
impl fmt::Display for InvalidFlatbuffer {
    fn fmt(&self, f: &mut fmt::Formatter<'_>) -> fmt::Result {
        write!(f, "{self:?}")
    }
}
impl std::error::Error for InvalidFlatbuffer {}
type VResult<T> = Result<T, InvalidFlatbuffer>;

#[derive(Clone, Debug)]
pub struct VerifierOptions {
    pub max_depth: usize,
    pub max_tables: usize,
    pub max_apparent_size: usize,
    pub ignore_missing_null_terminator: bool,
}
impl Default for VerifierOptions {
    fn default() -> Self {
        VerifierOptions { max_depth: 64, max_tables: 1_000_000, max_apparent_size: 1 << 31, ignore_missing_null_terminator: false }
    }
}
pub struct Verifier<'opts, 'buf> {
    buffer: &'buf [u8],
    opts: &'opts VerifierOptions,
    depth: usize,
    num_tables: usize,
    apparent_size: usize,
}
impl<'opts, 'buf> Verifier<'opts, 'buf> {
    pub fn new(opts: &'opts VerifierOptions, buffer: &'buf [u8]) -> Self {
        Verifier { buffer, opts, depth: 0, num_tables: 0, apparent_size: 0 }
    }
    fn is_aligned(&self, align: usize, pos: usize) -> VResult<()> {
        if pos.is_multiple_of(align) {
            Ok(())
        } else {
            Err(InvalidFlatbuffer::Unaligned(pos))
        }
    }
    fn range_in_buffer(&mut self, pos: usize, size: usize) -> VResult<()> {
        let end = pos.saturating_add(size);
        if end > self.buffer.len() {
            return Err(InvalidFlatbuffer::RangeOutOfBounds(pos, end));
        }
        self.apparent_size += size;
        if self.apparent_size > self.opts.max_apparent_size {
            return Err(InvalidFlatbuffer::ApparentSizeTooLarge);
        }
        Ok(())
    }
    fn in_buffer(&mut self, size: usize, align: usize, pos: usize) -> VResult<()> {
        self.is_aligned(align, pos)?;
        self.range_in_buffer(pos, size)
    }
    fn get_u16(&mut self, pos: usize) -> VResult<u16> {
        self.in_buffer(2, 2, pos)?;
        Ok(u16::from_le_bytes([self.buffer[pos], self.buffer[pos + 1]]))
    }
    fn get_uoffset(&mut self, pos: usize) -> VResult<UOffsetT> {
        self.in_buffer(4, 4, pos)?;
        Ok(u32::from_le_bytes(self.buffer[pos..pos + 4].try_into().unwrap()))
    }
    pub fn visit_table<'ver>(&'ver mut self, table_pos: usize) -> VResult<TableVerifier<'ver, 'opts, 'buf>> {
        // the vtable, by a signed offset
        self.in_buffer(4, 4, table_pos)?;
        let so = i32::from_le_bytes(self.buffer[table_pos..table_pos + 4].try_into().unwrap());
        let vt = table_pos as i64 - so as i64;
        if vt < 0 || vt as usize >= self.buffer.len() {
            return Err(InvalidFlatbuffer::SignedOffsetOutOfBounds(table_pos));
        }
        let vtable_pos = vt as usize;
        let vtable_len = self.get_u16(vtable_pos)? as usize;
        self.is_aligned(2, vtable_pos + vtable_len)?;
        self.range_in_buffer(vtable_pos, vtable_len)?;
        self.num_tables += 1;
        if self.num_tables > self.opts.max_tables {
            return Err(InvalidFlatbuffer::TooManyTables);
        }
        self.depth += 1;
        if self.depth > self.opts.max_depth {
            return Err(InvalidFlatbuffer::DepthLimitReached);
        }
        Ok(TableVerifier { pos: table_pos, vtable: vtable_pos, vtable_len, verifier: self })
    }
}
pub struct TableVerifier<'ver, 'opts, 'buf> {
    pos: usize,
    vtable: usize,
    vtable_len: usize,
    verifier: &'ver mut Verifier<'opts, 'buf>,
}
impl<'ver, 'opts, 'buf> TableVerifier<'ver, 'opts, 'buf> {
    fn deref(&mut self, field: VOffsetT) -> VResult<Option<usize>> {
        let field = field as usize;
        if field < self.vtable_len {
            let off = self.verifier.get_u16(self.vtable.saturating_add(field))?;
            if off > 0 {
                return Ok(Some(self.pos.saturating_add(off as usize)));
            }
        }
        Ok(None)
    }
    pub fn visit_field<T: Verifiable>(mut self, name: &'static str, field: VOffsetT, required: bool) -> VResult<Self> {
        if let Some(p) = self.deref(field)? {
            T::run_verifier(self.verifier, p)?;
            return Ok(self);
        }
        if required {
            Err(InvalidFlatbuffer::MissingRequiredField(name))
        } else {
            Ok(self)
        }
    }
    pub fn finish(self) -> &'ver mut Verifier<'opts, 'buf> {
        self.verifier.depth -= 1;
        self.verifier
    }
}
pub trait Verifiable {
    fn run_verifier(v: &mut Verifier, pos: usize) -> Result<(), InvalidFlatbuffer>;
}
/// Elements that need no more than range and alignment.
pub trait SimpleToVerifyInSlice {}
macro_rules! verify_scalar { ($($t:ident)*) => {$(
    impl Verifiable for $t {
        #[inline] fn run_verifier(v: &mut Verifier, pos: usize) -> VResult<()> { v.in_buffer(size_of::<$t>(), size_of::<$t>(), pos) }
    }
    impl SimpleToVerifyInSlice for $t {})*}
}
verify_scalar!(u8 i8 u16 i16 u32 i32 u64 i64 f64 bool);
impl<T: Verifiable> Verifiable for ForwardsUOffset<T> {
    fn run_verifier(v: &mut Verifier, pos: usize) -> VResult<()> {
        let off = v.get_uoffset(pos)? as usize;
        T::run_verifier(v, off.saturating_add(pos))
    }
}
impl<T: Verifiable> Verifiable for SkipSizePrefix<T> {
    fn run_verifier(v: &mut Verifier, pos: usize) -> VResult<()> {
        T::run_verifier(v, pos.saturating_add(SIZE_SIZEPREFIX))
    }
}
fn verify_vector_range(v: &mut Verifier, pos: usize, size: usize, align: usize) -> VResult<(usize, usize)> {
    let len = v.get_uoffset(pos)? as usize;
    let start = pos.saturating_add(SIZE_UOFFSET);
    v.is_aligned(align, start)?;
    let bytes = len.saturating_mul(size);
    v.range_in_buffer(start, bytes)?;
    Ok((start, start + bytes))
}
impl<T: SimpleToVerifyInSlice> Verifiable for Vector<'_, T> {
    fn run_verifier(v: &mut Verifier, pos: usize) -> VResult<()> {
        verify_vector_range(v, pos, size_of::<T>(), size_of::<T>()).map(|_| ())
    }
}
impl<T: Verifiable> Verifiable for Vector<'_, ForwardsUOffset<T>> {
    fn run_verifier(v: &mut Verifier, pos: usize) -> VResult<()> {
        let (s, e) = verify_vector_range(v, pos, 4, 4)?;
        for p in (s..e).step_by(4) {
            <ForwardsUOffset<T>>::run_verifier(v, p)?;
        }
        Ok(())
    }
}
impl Verifiable for &str {
    fn run_verifier(v: &mut Verifier, pos: usize) -> VResult<()> {
        let (s, e) = verify_vector_range(v, pos, 1, 1)?;
        let nul = v.buffer.get(e).map(|b| *b == 0);
        std::str::from_utf8(&v.buffer[s..e]).map_err(|_| InvalidFlatbuffer::Utf8Error)?;
        if !v.opts.ignore_missing_null_terminator && nul != Some(true) {
            return Err(InvalidFlatbuffer::MissingNullTerminator);
        }
        Ok(())
    }
}
pub fn root<'b, T: 'b + Follow<'b> + Verifiable>(data: &'b [u8]) -> Result<T::Inner, InvalidFlatbuffer> {
    root_with_opts::<T>(&VerifierOptions::default(), data)
}
pub fn root_with_opts<'o, 'b, T: 'b + Follow<'b> + Verifiable>(
    opts: &'o VerifierOptions,
    data: &'b [u8],
) -> Result<T::Inner, InvalidFlatbuffer> {
    let mut v = Verifier::new(opts, data);
    <ForwardsUOffset<T>>::run_verifier(&mut v, 0)?;
    Ok(unsafe { root_unchecked::<T>(data) })
}
pub fn size_prefixed_root<'b, T: 'b + Follow<'b> + Verifiable>(data: &'b [u8]) -> Result<T::Inner, InvalidFlatbuffer> {
    size_prefixed_root_with_opts::<T>(&VerifierOptions::default(), data)
}
pub fn size_prefixed_root_with_opts<'o, 'b, T: 'b + Follow<'b> + Verifiable>(
    opts: &'o VerifierOptions,
    data: &'b [u8],
) -> Result<T::Inner, InvalidFlatbuffer> {
    let mut v = Verifier::new(opts, data);
    <SkipSizePrefix<ForwardsUOffset<T>>>::run_verifier(&mut v, 0)?;
    Ok(unsafe { size_prefixed_root_unchecked::<T>(data) })
}
pub unsafe fn root_unchecked<'b, T: 'b + Follow<'b>>(data: &'b [u8]) -> T::Inner {
    <ForwardsUOffset<T>>::follow(data, 0)
}
pub unsafe fn size_prefixed_root_unchecked<'b, T: 'b + Follow<'b>>(data: &'b [u8]) -> T::Inner {
    <SkipSizePrefix<ForwardsUOffset<T>>>::follow(data, 0)
}
