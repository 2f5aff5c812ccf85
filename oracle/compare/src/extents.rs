//! GDAL's own extents of the features in its files, beside the boxes of their roots.
//!
//! The list of them, which stands beside the files, says how it was made. It has every feature but those of types with arcs: GDAL
//! goes round an arc, and a box over the pairs that are stored.
use crate::boxes::Edges;
use crate::make::files::Feature;
use crate::port::{self, Memory};
use crate::tally::Tally;
use original::answer::DONE;
use std::collections::BTreeMap;
use std::path::Path;

const LIST: &str = "extents.txt";

/// CircularString, CompoundCurve, CurvePolygon, MultiCurve, MultiSurface.
const TYPES_WITH_ARCS: std::ops::RangeInclusive<u8> = 8..=12;

/// By file and number.
type Extents = BTreeMap<(String, usize), Edges>;

/// Every feature without arcs has an extent and is compared, and the list has no other.
pub fn compare(folder: &Path, features: &[Feature], tally: &mut Tally) -> Result<(), String> {
    let mut extents = listed(folder)?;
    for feature in features.iter().filter(|feature| !TYPES_WITH_ARCS.contains(&feature.kind())) {
        let place = (feature.file.clone(), feature.number);
        let extent = extents.remove(&place).ok_or(format!("{LIST} has no extent of {place:?}"))?;
        let answered = port::edges(&Memory::of(&feature.store), 0);
        if answered != (DONE, extent) {
            return Err(format!("the box of {place:?} is {answered:x?}, and GDAL's extent {extent:x?}"));
        }
        tally.extents += 1;
    }
    match extents.keys().next() {
        Some(place) => Err(format!("{LIST} has an extent of {place:?}, which has arcs or is not there")),
        None => Ok(()),
    }
}

fn listed(folder: &Path) -> Result<Extents, String> {
    let text = std::fs::read_to_string(folder.join(LIST)).map_err(|error| format!("{LIST}: {error}"))?;
    let lines = text.lines().filter(|line| !line.starts_with('#'));
    lines.map(|line| extent(line).ok_or(format!("{LIST}: {line}"))).collect()
}

/// A line is the file's name, the feature's number, and the edges in the order of SPEC 8.1, as decimals that give back their bits.
fn extent(line: &str) -> Option<((String, usize), Edges)> {
    let mut words = line.split(' ');
    let place = (words.next()?.to_string(), words.next()?.parse().ok()?);
    let edges: Option<Vec<u64>> = words.map(|word| word.parse().ok().map(f64::to_bits)).collect();
    Some((place, edges?.try_into().ok()?))
}
