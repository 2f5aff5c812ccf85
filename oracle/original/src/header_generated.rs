//! Hand-written stand-in for the crate's module of this name, from the public header.fbs: type numbers, columns and the header.

macro_rules! byte_enum { ($name:ident, $($v:ident = $n:expr),* $(,)?) => {
    #[derive(Clone, Copy, PartialEq, Eq, PartialOrd, Ord, Hash, Default)]
    #[repr(transparent)]
    pub struct $name(pub u8);
    #[allow(non_upper_case_globals)]
    impl $name {
        $(pub const $v: Self = Self($n);)*
        pub fn variant_name(self) -> Option<&'static str> { match self { $(Self::$v => Some(stringify!($v)),)* _ => None } }
    }
    impl core::fmt::Debug for $name {
        fn fmt(&self, f: &mut core::fmt::Formatter) -> core::fmt::Result {
            if let Some(n) = self.variant_name() { f.write_str(n) } else { f.write_fmt(format_args!("<UNKNOWN {:?}>", self.0)) }
        }
    }
    impl<'a> flatbuffers::Follow<'a> for $name {
        type Inner = Self;
        #[inline] unsafe fn follow(buf: &'a [u8], loc: usize) -> Self { Self(flatbuffers::read_scalar_at::<u8>(buf, loc)) }
    }
    impl flatbuffers::Push for $name {
        type Output = $name;
        #[inline] unsafe fn push(&self, dst: &mut [u8], _w: usize) { flatbuffers::emplace_scalar::<u8>(dst, self.0) }
    }
    impl flatbuffers::EndianScalar for $name {
        type Scalar = u8;
        #[inline] fn to_little_endian(self) -> u8 { self.0 }
        #[inline] fn from_little_endian(v: u8) -> Self { Self(v) }
    }
    impl flatbuffers::Verifiable for $name {
        fn run_verifier(v: &mut flatbuffers::Verifier, pos: usize) -> Result<(), flatbuffers::InvalidFlatbuffer> {
            u8::run_verifier(v, pos)
        }
    }
    impl flatbuffers::SimpleToVerifyInSlice for $name {}
} }
byte_enum!(
    GeometryType,
    Unknown = 0,
    Point = 1,
    LineString = 2,
    Polygon = 3,
    MultiPoint = 4,
    MultiLineString = 5,
    MultiPolygon = 6,
    GeometryCollection = 7,
    CircularString = 8,
    CompoundCurve = 9,
    CurvePolygon = 10,
    MultiCurve = 11,
    MultiSurface = 12,
    Curve = 13,
    Surface = 14,
    PolyhedralSurface = 15,
    TIN = 16,
    Triangle = 17
);
byte_enum!(
    ColumnType,
    Byte = 0,
    UByte = 1,
    Bool = 2,
    Short = 3,
    UShort = 4,
    Int = 5,
    UInt = 6,
    Long = 7,
    ULong = 8,
    Float = 9,
    Double = 10,
    String = 11,
    Json = 12,
    DateTime = 13,
    Binary = 14
);

#[derive(Copy, Clone, PartialEq)]
pub struct Column<'a> {
    pub _tab: flatbuffers::Table<'a>,
}
impl<'a> flatbuffers::Follow<'a> for Column<'a> {
    type Inner = Column<'a>;
    #[inline]
    unsafe fn follow(buf: &'a [u8], loc: usize) -> Self {
        Self { _tab: flatbuffers::Table::new(buf, loc) }
    }
}
impl<'a> Column<'a> {
    pub const VT_NAME: flatbuffers::VOffsetT = 4;
    pub const VT_TYPE_: flatbuffers::VOffsetT = 6;
    pub fn name(&self) -> &'a str {
        unsafe { self._tab.get::<flatbuffers::ForwardsUOffset<&str>>(Self::VT_NAME, None).unwrap() }
    }
    pub fn type_(&self) -> ColumnType {
        unsafe { self._tab.get::<ColumnType>(Self::VT_TYPE_, Some(ColumnType::Byte)).unwrap() }
    }
}
impl flatbuffers::Verifiable for Column<'_> {
    fn run_verifier(v: &mut flatbuffers::Verifier, pos: usize) -> Result<(), flatbuffers::InvalidFlatbuffer> {
        v.visit_table(pos)?
            .visit_field::<flatbuffers::ForwardsUOffset<&str>>("name", Self::VT_NAME, true)?
            .visit_field::<ColumnType>("type_", Self::VT_TYPE_, false)?
            .finish();
        Ok(())
    }
}
impl core::fmt::Debug for Column<'_> {
    fn fmt(&self, f: &mut core::fmt::Formatter<'_>) -> core::fmt::Result {
        f.debug_struct("Column").field("name", &self.name()).field("type_", &self.type_()).finish()
    }
}

#[derive(Copy, Clone, PartialEq)]
pub struct Header<'a> {
    pub _tab: flatbuffers::Table<'a>,
}
impl<'a> flatbuffers::Follow<'a> for Header<'a> {
    type Inner = Header<'a>;
    #[inline]
    unsafe fn follow(buf: &'a [u8], loc: usize) -> Self {
        Self { _tab: flatbuffers::Table::new(buf, loc) }
    }
}
impl<'a> Header<'a> {
    pub const VT_GEOMETRY_TYPE: flatbuffers::VOffsetT = 8;
    pub const VT_HAS_Z: flatbuffers::VOffsetT = 10;
    pub const VT_HAS_M: flatbuffers::VOffsetT = 12;
    pub const VT_COLUMNS: flatbuffers::VOffsetT = 18;
    pub const VT_FEATURES_COUNT: flatbuffers::VOffsetT = 20;
    pub const VT_INDEX_NODE_SIZE: flatbuffers::VOffsetT = 22;
    pub fn geometry_type(&self) -> GeometryType {
        unsafe { self._tab.get::<GeometryType>(Self::VT_GEOMETRY_TYPE, Some(GeometryType::Unknown)).unwrap() }
    }
    pub fn has_z(&self) -> bool {
        unsafe { self._tab.get::<bool>(Self::VT_HAS_Z, Some(false)).unwrap() }
    }
    pub fn has_m(&self) -> bool {
        unsafe { self._tab.get::<bool>(Self::VT_HAS_M, Some(false)).unwrap() }
    }
    pub fn features_count(&self) -> u64 {
        unsafe { self._tab.get::<u64>(Self::VT_FEATURES_COUNT, Some(0)).unwrap() }
    }
    pub fn index_node_size(&self) -> u16 {
        unsafe { self._tab.get::<u16>(Self::VT_INDEX_NODE_SIZE, Some(16)).unwrap() }
    }
    pub fn columns(&self) -> Option<flatbuffers::Vector<'a, flatbuffers::ForwardsUOffset<Column<'a>>>> {
        unsafe {
            self._tab.get::<flatbuffers::ForwardsUOffset<flatbuffers::Vector<'a, flatbuffers::ForwardsUOffset<Column>>>>(
                Self::VT_COLUMNS,
                None,
            )
        }
    }
}
impl flatbuffers::Verifiable for Header<'_> {
    fn run_verifier(v: &mut flatbuffers::Verifier, pos: usize) -> Result<(), flatbuffers::InvalidFlatbuffer> {
        v.visit_table(pos)?
            .visit_field::<GeometryType>("geometry_type", Self::VT_GEOMETRY_TYPE, false)?
            .visit_field::<bool>("has_z", Self::VT_HAS_Z, false)?
            .visit_field::<bool>("has_m", Self::VT_HAS_M, false)?
            .visit_field::<flatbuffers::ForwardsUOffset<flatbuffers::Vector<'_, flatbuffers::ForwardsUOffset<Column>>>>(
                "columns",
                Self::VT_COLUMNS,
                false,
            )?
            .visit_field::<u64>("features_count", Self::VT_FEATURES_COUNT, false)?
            .visit_field::<u16>("index_node_size", Self::VT_INDEX_NODE_SIZE, false)?
            .finish();
        Ok(())
    }
}
pub fn size_prefixed_root_as_header(buf: &[u8]) -> Result<Header<'_>, flatbuffers::InvalidFlatbuffer> {
    flatbuffers::size_prefixed_root::<Header>(buf)
}
/// # Safety
/// The bytes hold a valid size-prefixed Header.
pub unsafe fn size_prefixed_root_as_header_unchecked(buf: &[u8]) -> Header<'_> {
    flatbuffers::size_prefixed_root_unchecked::<Header>(buf)
}
