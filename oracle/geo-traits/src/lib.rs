//! Hand-written stand-in for crate `geo-traits`: only the shapes that geo_trait_impl.rs fills. Nothing that is compared runs
//! through it; it lets properties_reader.rs compile unchanged.
use std::marker::PhantomData;
#[derive(Debug, Clone, Copy, PartialEq, Eq)]
pub enum Dimensions {
    Xy,
    Xyz,
    Xym,
    Xyzm,
    Unknown(usize),
}
pub trait CoordTrait {
    type T;
    fn dim(&self) -> Dimensions;
    fn nth_or_panic(&self, n: usize) -> Self::T;
    fn x(&self) -> Self::T;
    fn y(&self) -> Self::T;
}
#[derive(Debug, Clone, Copy)]
pub struct UnimplementedLine<T>(pub PhantomData<T>);
#[derive(Debug, Clone, Copy)]
pub struct UnimplementedRect<T>(pub PhantomData<T>);
#[derive(Debug, Clone, Copy)]
pub struct UnimplementedTriangle<T>(pub PhantomData<T>);
pub enum GeometryType<'a, P, LS, Y, MP, ML, MY, GC, R, TT, L> {
    Point(&'a P),
    LineString(&'a LS),
    Polygon(&'a Y),
    MultiPoint(&'a MP),
    MultiLineString(&'a ML),
    MultiPolygon(&'a MY),
    GeometryCollection(&'a GC),
    Rect(&'a R),
    Triangle(&'a TT),
    Line(&'a L),
}
#[allow(clippy::type_complexity)]
pub trait GeometryTrait {
    type T;
    type PointType<'a>
    where
        Self: 'a;
    type LineStringType<'a>
    where
        Self: 'a;
    type PolygonType<'a>
    where
        Self: 'a;
    type MultiPointType<'a>
    where
        Self: 'a;
    type MultiLineStringType<'a>
    where
        Self: 'a;
    type MultiPolygonType<'a>
    where
        Self: 'a;
    type GeometryCollectionType<'a>
    where
        Self: 'a;
    type RectType<'a>
    where
        Self: 'a;
    type TriangleType<'a>
    where
        Self: 'a;
    type LineType<'a>
    where
        Self: 'a;
    fn dim(&self) -> Dimensions;
    fn as_type(
        &self,
    ) -> GeometryType<
        '_,
        Self::PointType<'_>,
        Self::LineStringType<'_>,
        Self::PolygonType<'_>,
        Self::MultiPointType<'_>,
        Self::MultiLineStringType<'_>,
        Self::MultiPolygonType<'_>,
        Self::GeometryCollectionType<'_>,
        Self::RectType<'_>,
        Self::TriangleType<'_>,
        Self::LineType<'_>,
    >;
}
pub trait PointTrait: GeometryTrait {
    type CoordType<'a>: CoordTrait
    where
        Self: 'a;
    fn coord(&self) -> Option<Self::CoordType<'_>>;
}
pub trait LineStringTrait: GeometryTrait {
    type CoordType<'a>: CoordTrait
    where
        Self: 'a;
    fn num_coords(&self) -> usize;
    /// # Safety
    /// i is below num_coords
    unsafe fn coord_unchecked(&self, i: usize) -> Self::CoordType<'_>;
}
pub trait PolygonTrait: GeometryTrait {
    type RingType<'a>
    where
        Self: 'a;
    fn num_interiors(&self) -> usize;
    fn exterior(&self) -> Option<Self::RingType<'_>>;
    /// # Safety
    /// i is below num_interiors
    unsafe fn interior_unchecked(&self, i: usize) -> Self::RingType<'_>;
}
pub trait MultiPointTrait: GeometryTrait {
    type InnerPointType<'a>
    where
        Self: 'a;
    fn num_points(&self) -> usize;
    /// # Safety
    /// i is below num_points
    unsafe fn point_unchecked(&self, i: usize) -> Self::InnerPointType<'_>;
}
pub trait MultiLineStringTrait: GeometryTrait {
    type InnerLineStringType<'a>
    where
        Self: 'a;
    fn num_line_strings(&self) -> usize;
    /// # Safety
    /// i is below num_line_strings
    unsafe fn line_string_unchecked(&self, i: usize) -> Self::InnerLineStringType<'_>;
}
pub trait MultiPolygonTrait: GeometryTrait {
    type InnerPolygonType<'a>
    where
        Self: 'a;
    fn num_polygons(&self) -> usize;
    /// # Safety
    /// i is below num_polygons
    unsafe fn polygon_unchecked(&self, i: usize) -> Self::InnerPolygonType<'_>;
}
pub trait GeometryCollectionTrait: GeometryTrait {
    type GeometryType<'a>
    where
        Self: 'a;
    fn num_geometries(&self) -> usize;
    /// # Safety
    /// i is below num_geometries
    unsafe fn geometry_unchecked(&self, i: usize) -> Self::GeometryType<'_>;
}
