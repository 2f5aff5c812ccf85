//! Tables and vectors, read where they lie.
use crate::scalar::read_scalar_at;
use crate::{SOffsetT, UOffsetT, VOffsetT, SIZE_SIZEPREFIX, SIZE_UOFFSET, SIZE_VOFFSET};
use std::fmt::{self, Debug};
use std::marker::PhantomData;
use std::mem::size_of;

pub trait Follow<'buf> {
    type Inner;
    unsafe fn follow(buf: &'buf [u8], loc: usize) -> Self::Inner;
}
macro_rules! follow_scalar { ($($t:ident)*) => {$(
    impl<'a> Follow<'a> for $t {
        type Inner = $t;
        #[inline] unsafe fn follow(buf: &'a [u8], loc: usize) -> $t { read_scalar_at::<$t>(buf, loc) }
    })*}
}
follow_scalar!(u8 i8 u16 i16 u32 i32 u64 i64 f64 bool);

#[allow(dead_code)]
pub struct ForwardsUOffset<T>(UOffsetT, PhantomData<T>);
impl<'a, T: Follow<'a>> Follow<'a> for ForwardsUOffset<T> {
    type Inner = T::Inner;
    #[inline(always)]
    unsafe fn follow(buf: &'a [u8], loc: usize) -> Self::Inner {
        let off = read_scalar_at::<u32>(buf, loc) as usize;
        T::follow(buf, loc + off)
    }
}
pub struct SkipSizePrefix<T>(PhantomData<T>);
impl<'a, T: Follow<'a>> Follow<'a> for SkipSizePrefix<T> {
    type Inner = T::Inner;
    #[inline(always)]
    unsafe fn follow(buf: &'a [u8], loc: usize) -> Self::Inner {
        T::follow(buf, loc + SIZE_SIZEPREFIX)
    }
}
impl<'a> Follow<'a> for &'a str {
    type Inner = &'a str;
    unsafe fn follow(buf: &'a [u8], loc: usize) -> &'a str {
        let len = read_scalar_at::<UOffsetT>(buf, loc) as usize;
        std::str::from_utf8_unchecked(&buf[loc + SIZE_UOFFSET..loc + SIZE_UOFFSET + len])
    }
}

pub struct Vector<'a, T: 'a>(&'a [u8], usize, PhantomData<T>);
impl<'a, T> Clone for Vector<'a, T> {
    fn clone(&self) -> Self {
        *self
    }
}
impl<'a, T> Copy for Vector<'a, T> {}
impl<'a, T: 'a> Vector<'a, T> {
    #[inline(always)]
    pub fn len(&self) -> usize {
        unsafe { read_scalar_at::<UOffsetT>(self.0, self.1) as usize }
    }
    #[inline(always)]
    pub fn bytes(&self) -> &'a [u8] {
        let sz = size_of::<T>();
        let len = self.len();
        &self.0[self.1 + SIZE_UOFFSET..self.1 + SIZE_UOFFSET + sz * len]
    }
}
impl<'a, T: Follow<'a> + 'a> Vector<'a, T> {
    #[inline(always)]
    pub fn get(&self, idx: usize) -> T::Inner {
        assert!(idx < self.len());
        let sz = size_of::<T>();
        debug_assert!(sz > 0);
        unsafe { T::follow(self.0, self.1 + SIZE_UOFFSET + sz * idx) }
    }
    pub fn iter(&self) -> impl Iterator<Item = T::Inner> + '_ {
        (0..self.len()).map(move |i| self.get(i))
    }
}
impl<'a, T: Follow<'a> + 'a> Follow<'a> for Vector<'a, T> {
    type Inner = Vector<'a, T>;
    #[inline]
    unsafe fn follow(buf: &'a [u8], loc: usize) -> Self {
        Vector(buf, loc, PhantomData)
    }
}
impl<'a, T> Debug for Vector<'a, T>
where
    T: 'a + Follow<'a>,
    T::Inner: Debug,
{
    fn fmt(&self, f: &mut fmt::Formatter) -> fmt::Result {
        f.debug_list().entries(self.iter()).finish()
    }
}

#[derive(Clone, Copy, PartialEq)]
pub struct VTable<'a> {
    buf: &'a [u8],
    loc: usize,
}
impl<'a> VTable<'a> {
    pub unsafe fn init(buf: &'a [u8], loc: usize) -> Self {
        VTable { buf, loc }
    }
    pub fn num_bytes(&self) -> usize {
        unsafe { read_scalar_at::<VOffsetT>(self.buf, self.loc) as usize }
    }
    pub fn as_bytes(&self) -> &[u8] {
        &self.buf[self.loc..self.loc + self.num_bytes()]
    }
    pub fn get(&self, off: VOffsetT) -> VOffsetT {
        if off as usize + SIZE_VOFFSET > self.num_bytes() {
            return 0;
        }
        unsafe { read_scalar_at::<VOffsetT>(self.buf, self.loc + off as usize) }
    }
}
#[derive(Clone, Copy, Debug, PartialEq)]
pub struct Table<'a> {
    pub buf: &'a [u8],
    pub loc: usize,
}
impl<'a> Table<'a> {
    #[inline]
    pub unsafe fn new(buf: &'a [u8], loc: usize) -> Self {
        Table { buf, loc }
    }
    #[inline]
    pub fn vtable(&self) -> VTable<'a> {
        let so = unsafe { read_scalar_at::<SOffsetT>(self.buf, self.loc) };
        VTable { buf: self.buf, loc: (self.loc as i64 - so as i64) as usize }
    }
    #[inline]
    pub unsafe fn get<T: Follow<'a> + 'a>(&self, slot: VOffsetT, default: Option<T::Inner>) -> Option<T::Inner> {
        let o = self.vtable().get(slot) as usize;
        if o == 0 {
            return default;
        }
        Some(T::follow(self.buf, self.loc + o))
    }
}
