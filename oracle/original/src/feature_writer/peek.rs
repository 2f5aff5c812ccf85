//! The writer's private fields, looked at.
use super::{FeatureWriter, GeomState};

/// The six lists that belong to no part yet, in the order of SPEC 6.2, as bit patterns.
pub struct Pending<'w> {
    pub xy: &'w [f64],
    pub ends: &'w [u32],
    pub z: &'w [f64],
    pub m: &'w [f64],
    pub t: &'w [f64],
    pub tm: &'w [u64],
}

#[derive(Clone, Copy, Debug, PartialEq, Eq)]
pub struct State {
    pub declared: u8,
    pub current: u8,
    /// Normal 0, GeometryCollection 1, ForceMulti 2.
    pub mode: u8,
    pub parts: usize,
    pub pending: [usize; 6],
    pub properties: usize,
}

pub fn state(writer: &FeatureWriter) -> State {
    State {
        declared: writer.dataset_type.0,
        current: writer.type_.0,
        mode: match writer.geom_state {
            GeomState::Normal => 0,
            GeomState::GeometryCollection => 1,
            GeomState::ForceMulti => 2,
        },
        parts: writer.parts.len(),
        pending: [writer.xy.len(), writer.ends.len(), writer.z.len(), writer.m.len(), writer.t.len(), writer.tm.len()],
        properties: writer.properties.len(),
    }
}

pub fn pending<'w>(writer: &'w FeatureWriter) -> Pending<'w> {
    Pending { xy: &writer.xy, ends: &writer.ends, z: &writer.z, m: &writer.m, t: &writer.t, tm: &writer.tm }
}

impl Pending<'_> {
    /// The word at a place of a list.
    pub fn word(&self, list: usize, at: usize) -> u64 {
        match list {
            0 => self.xy[at].to_bits(),
            1 => self.ends[at].into(),
            2 => self.z[at].to_bits(),
            3 => self.m[at].to_bits(),
            4 => self.t[at].to_bits(),
            _ => self.tm[at],
        }
    }
}

pub fn properties<'w>(writer: &'w FeatureWriter) -> &'w [u8] {
    &writer.properties
}

/// Least x, least y, greatest x, greatest y.
pub fn bounds(writer: &FeatureWriter) -> [u64; 4] {
    let bounds = &writer.bbox;
    [bounds.min_x, bounds.min_y, bounds.max_x, bounds.max_y].map(f64::to_bits)
}

/// The finished feature, size-prefixed; the writer goes on with the next.
pub fn finish(writer: &mut FeatureWriter) -> Vec<u8> {
    writer.finish_to_feature()
}
