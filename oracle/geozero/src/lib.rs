//! Hand-written stand-in for crate `geozero`, as far as flatgeobuf's sources name it. Begin and end events do nothing by default,
//! and `multi_dim` is true where any flag is set (SPEC 6.12, 7.6).
pub mod error {
    #[derive(Debug)]
    pub enum GeozeroError {
        GeometryFormat,
        Coord,
        Geometry(String),
        Property(String),
        Dataset(String),
        /// Not in geozero: what our own processor answers when its log is full.
        LogFull,
    }
    impl std::fmt::Display for GeozeroError {
        fn fmt(&self, f: &mut std::fmt::Formatter<'_>) -> std::fmt::Result {
            write!(f, "{self:?}")
        }
    }
    impl std::error::Error for GeozeroError {}
    pub type Result<T> = std::result::Result<T, GeozeroError>;
}
use error::Result;

#[derive(Default, Debug, Clone, Copy, PartialEq, Eq)]
pub struct CoordDimensions {
    pub z: bool,
    pub m: bool,
    pub t: bool,
    pub tm: bool,
}

#[derive(Clone, Debug, PartialEq)]
pub enum ColumnValue<'a> {
    Byte(i8),
    UByte(u8),
    Bool(bool),
    Short(i16),
    UShort(u16),
    Int(i32),
    UInt(u32),
    Long(i64),
    ULong(u64),
    Float(f32),
    Double(f64),
    String(&'a str),
    Json(&'a str),
    DateTime(&'a str),
    Binary(&'a [u8]),
}

#[allow(unused_variables, clippy::too_many_arguments)]
pub trait GeomProcessor {
    fn dimensions(&self) -> CoordDimensions {
        CoordDimensions::default()
    }
    fn multi_dim(&self) -> bool {
        let d = self.dimensions();
        d.z || d.m || d.t || d.tm
    }
    fn srid(&mut self, srid: Option<i32>) -> Result<()> {
        Ok(())
    }
    fn xy(&mut self, x: f64, y: f64, idx: usize) -> Result<()> {
        Ok(())
    }
    fn coordinate(
        &mut self,
        x: f64,
        y: f64,
        z: Option<f64>,
        m: Option<f64>,
        t: Option<f64>,
        tm: Option<u64>,
        idx: usize,
    ) -> Result<()> {
        Ok(())
    }
    fn empty_point(&mut self, idx: usize) -> Result<()> {
        Ok(())
    }
    fn point_begin(&mut self, idx: usize) -> Result<()> {
        Ok(())
    }
    fn point_end(&mut self, idx: usize) -> Result<()> {
        Ok(())
    }
    fn multipoint_begin(&mut self, size: usize, idx: usize) -> Result<()> {
        Ok(())
    }
    fn multipoint_end(&mut self, idx: usize) -> Result<()> {
        Ok(())
    }
    fn linestring_begin(&mut self, tagged: bool, size: usize, idx: usize) -> Result<()> {
        Ok(())
    }
    fn linestring_end(&mut self, tagged: bool, idx: usize) -> Result<()> {
        Ok(())
    }
    fn multilinestring_begin(&mut self, size: usize, idx: usize) -> Result<()> {
        Ok(())
    }
    fn multilinestring_end(&mut self, idx: usize) -> Result<()> {
        Ok(())
    }
    fn polygon_begin(&mut self, tagged: bool, size: usize, idx: usize) -> Result<()> {
        Ok(())
    }
    fn polygon_end(&mut self, tagged: bool, idx: usize) -> Result<()> {
        Ok(())
    }
    fn multipolygon_begin(&mut self, size: usize, idx: usize) -> Result<()> {
        Ok(())
    }
    fn multipolygon_end(&mut self, idx: usize) -> Result<()> {
        Ok(())
    }
    fn geometrycollection_begin(&mut self, size: usize, idx: usize) -> Result<()> {
        Ok(())
    }
    fn geometrycollection_end(&mut self, idx: usize) -> Result<()> {
        Ok(())
    }
    fn circularstring_begin(&mut self, size: usize, idx: usize) -> Result<()> {
        Ok(())
    }
    fn circularstring_end(&mut self, idx: usize) -> Result<()> {
        Ok(())
    }
    fn compoundcurve_begin(&mut self, size: usize, idx: usize) -> Result<()> {
        Ok(())
    }
    fn compoundcurve_end(&mut self, idx: usize) -> Result<()> {
        Ok(())
    }
    fn curvepolygon_begin(&mut self, size: usize, idx: usize) -> Result<()> {
        Ok(())
    }
    fn curvepolygon_end(&mut self, idx: usize) -> Result<()> {
        Ok(())
    }
    fn multicurve_begin(&mut self, size: usize, idx: usize) -> Result<()> {
        Ok(())
    }
    fn multicurve_end(&mut self, idx: usize) -> Result<()> {
        Ok(())
    }
    fn multisurface_begin(&mut self, size: usize, idx: usize) -> Result<()> {
        Ok(())
    }
    fn multisurface_end(&mut self, idx: usize) -> Result<()> {
        Ok(())
    }
    fn triangle_begin(&mut self, tagged: bool, size: usize, idx: usize) -> Result<()> {
        Ok(())
    }
    fn triangle_end(&mut self, tagged: bool, idx: usize) -> Result<()> {
        Ok(())
    }
    fn polyhedralsurface_begin(&mut self, size: usize, idx: usize) -> Result<()> {
        Ok(())
    }
    fn polyhedralsurface_end(&mut self, idx: usize) -> Result<()> {
        Ok(())
    }
    fn tin_begin(&mut self, size: usize, idx: usize) -> Result<()> {
        Ok(())
    }
    fn tin_end(&mut self, idx: usize) -> Result<()> {
        Ok(())
    }
}

#[allow(unused_variables)]
pub trait PropertyProcessor {
    fn property(&mut self, idx: usize, name: &str, value: &ColumnValue) -> Result<bool> {
        Ok(true)
    }
}

#[allow(unused_variables)]
pub trait FeatureProcessor: GeomProcessor + PropertyProcessor {
    fn dataset_begin(&mut self, name: Option<&str>) -> Result<()> {
        Ok(())
    }
    fn dataset_end(&mut self) -> Result<()> {
        Ok(())
    }
    fn feature_begin(&mut self, idx: u64) -> Result<()> {
        Ok(())
    }
    fn feature_end(&mut self, idx: u64) -> Result<()> {
        Ok(())
    }
    fn properties_begin(&mut self) -> Result<()> {
        Ok(())
    }
    fn properties_end(&mut self) -> Result<()> {
        Ok(())
    }
    fn geometry_begin(&mut self) -> Result<()> {
        Ok(())
    }
    fn geometry_end(&mut self) -> Result<()> {
        Ok(())
    }
}

pub trait GeozeroGeometry {
    fn process_geom<P: GeomProcessor>(&self, processor: &mut P) -> Result<()>
    where
        Self: Sized;
}
pub trait FeatureProperties {
    fn process_properties<P: PropertyProcessor>(&self, processor: &mut P) -> Result<bool>;
}
pub trait FeatureAccess: FeatureProperties + GeozeroGeometry {}
