//! The crate's writer, driven by events and properties (SPEC 3.2, 9.2).
use crate::answer::{caught, number, DONE, UNKNOWN};
use crate::events::give;
use crate::feature_generated::size_prefixed_root_as_feature;
use crate::feature_writer::{peek, FeatureWriter};
use crate::header_generated::GeometryType;
use crate::tree::Store;
use geozero::{ColumnValue, PropertyProcessor};

pub struct Writer(FeatureWriter<'static>);

/// What the crate writes for a feature: its tree, its property bytes, and the FlatBuffers bytes of both.
pub struct Feature {
    pub tree: Store,
    pub properties: Vec<u8>,
    pub bytes: Vec<u8>,
}

impl Writer {
    pub fn new(declared: u8, detect: bool, promote: bool) -> Writer {
        Writer(FeatureWriter::new(GeometryType(declared), detect, promote))
    }

    pub fn event(&mut self, event: &[u8]) -> u8 {
        answered(caught(|| give(&mut self.0, event)))
    }

    pub fn property(&mut self, column: u32, value: &ColumnValue) -> u8 {
        answered(caught(|| self.0.property(column as usize, "c", value)))
    }

    /// The crate's `finish_to_feature`, which is finish and next in one (SPEC 6.20, 6.23).
    pub fn finish(&mut self) -> Feature {
        let bytes = peek::finish(&mut self.0);
        let feature = size_prefixed_root_as_feature(&bytes).expect("the writer's bytes are a feature");
        let tree = Store::from_geometry(feature.geometry().expect("the writer gives a geometry"));
        let properties = feature.properties().expect("the writer gives properties").bytes().to_vec();
        Feature { tree, properties, bytes }
    }

    pub fn state(&self) -> peek::State {
        peek::state(&self.0)
    }

    pub fn pending(&self) -> peek::Pending<'_> {
        peek::pending(&self.0)
    }

    pub fn properties(&self) -> &[u8] {
        peek::properties(&self.0)
    }

    pub fn bounds(&self) -> [u64; 4] {
        peek::bounds(&self.0)
    }
}

fn answered<T>(answer: Result<geozero::error::Result<T>, String>) -> u8 {
    match answer {
        Ok(Ok(_)) => DONE,
        Ok(Err(error)) => number(&error),
        Err(_) => UNKNOWN,
    }
}
