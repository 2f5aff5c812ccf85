//! Numbers in little-endian bytes.
use std::mem::size_of;

pub trait EndianScalar: Sized + PartialEq + Copy + Clone {
    type Scalar: Copy;
    fn to_little_endian(self) -> Self::Scalar;
    fn from_little_endian(v: Self::Scalar) -> Self;
}
macro_rules! int_scalar { ($($t:ident)*) => {$(
    impl EndianScalar for $t {
        type Scalar = Self;
        #[inline] fn to_little_endian(self) -> Self { self.to_le() }
        #[inline] fn from_little_endian(v: Self) -> Self { Self::from_le(v) }
    })*}
}
int_scalar!(u8 i8 u16 i16 u32 i32 u64 i64);
impl EndianScalar for bool {
    type Scalar = u8;
    #[inline]
    fn to_little_endian(self) -> u8 {
        self as u8
    }
    #[inline]
    fn from_little_endian(v: u8) -> bool {
        v != 0
    }
}
impl EndianScalar for f64 {
    type Scalar = u64;
    #[inline]
    fn to_little_endian(self) -> u64 {
        self.to_bits().to_le()
    }
    #[inline]
    fn from_little_endian(v: u64) -> f64 {
        f64::from_bits(u64::from_le(v))
    }
}
#[inline]
pub unsafe fn emplace_scalar<T: EndianScalar>(s: &mut [u8], x: T) {
    let n = size_of::<T::Scalar>();
    assert!(n <= s.len());
    let v = x.to_little_endian();
    std::ptr::copy_nonoverlapping(&v as *const T::Scalar as *const u8, s.as_mut_ptr(), n);
}
#[inline]
pub unsafe fn read_scalar_at<T: EndianScalar>(s: &[u8], loc: usize) -> T {
    read_scalar(&s[loc..])
}
#[inline]
pub unsafe fn read_scalar<T: EndianScalar>(s: &[u8]) -> T {
    let n = size_of::<T::Scalar>();
    assert!(n <= s.len());
    let mut mem = std::mem::MaybeUninit::<T::Scalar>::uninit();
    std::ptr::copy_nonoverlapping(s.as_ptr(), mem.as_mut_ptr() as *mut u8, n);
    T::from_little_endian(mem.assume_init())
}
