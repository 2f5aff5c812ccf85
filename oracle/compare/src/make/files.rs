//! FlatGeobuf files that GDAL made: each feature's tables turned into geometry records, read under the file's type and under its
//! own with every set of flags, its property bytes read, and its events written again by both sides.
use super::numbers::{number, put_numbers};
use crate::input::{Call, Input, Properties, Row, Tree, What};
use original::events::u32_at;
use original::reading::read_feature;
use original::tree::Store;
use original::{size_prefixed_root_as_feature, size_prefixed_root_as_header};
use std::path::Path;

const MAGIC: [u8; 4] = *b"fgb\x03";

/// A feature of a file, with what the file's header says of all its features.
pub struct Feature {
    pub file: String,
    /// Its number in the file, from 0.
    pub number: usize,
    pub store: Store,
    declared: u8,
    columns: Option<Vec<u8>>,
    bytes: Vec<u8>,
}

/// All features of the folder's files, by the files' names.
pub fn features(folder: &Path) -> Result<Vec<Feature>, String> {
    let mut paths: Vec<_> =
        std::fs::read_dir(folder).map_err(|error| error.to_string())?.flatten().map(|entry| entry.path()).collect();
    paths.retain(|path| path.extension().is_some_and(|extension| extension == "fgb"));
    paths.sort();
    let mut features = vec![];
    for path in paths {
        let bytes = std::fs::read(&path).map_err(|error| error.to_string())?;
        let name = path.file_name().unwrap_or_default().to_string_lossy();
        features.extend(file(&name, &bytes).ok_or(format!("{} is no file that this reads", path.display()))?);
    }
    Ok(features)
}

/// A file without an index: the magic bytes, a header, features; each of the two has its length before it.
fn file(name: &str, bytes: &[u8]) -> Option<Vec<Feature>> {
    if bytes.get(..4)? != MAGIC {
        return None;
    }
    let mut rest = &bytes[8..];
    let header = size_prefixed_root_as_header(take(&mut rest)?).ok()?;
    let columns = header.columns().map(|columns| columns.iter().map(|column| column.type_().0).collect::<Vec<_>>());
    let mut features = vec![];
    while !rest.is_empty() {
        let bytes = take(&mut rest)?.to_vec();
        let store = Store::from_geometry(size_prefixed_root_as_feature(&bytes).ok()?.geometry()?);
        let (file, number, declared) = (name.to_string(), features.len(), header.geometry_type().0);
        features.push(Feature { file, number, store, declared, columns: columns.clone(), bytes });
    }
    Some(features)
}

fn take<'b>(rest: &mut &'b [u8]) -> Option<&'b [u8]> {
    let (taken, after) = rest.split_at_checked(4 + u32_at(rest.get(..4)?, 0) as usize)?;
    *rest = after;
    Some(taken)
}

impl Feature {
    /// The type that it is read as: the file's, or its own where that is 0.
    pub fn kind(&self) -> u8 {
        if self.declared == 0 {
            self.store.table[0]
        } else {
            self.declared
        }
    }

    /// Gives it in all those ways.
    pub fn each(&self, give: &mut dyn FnMut(Input)) {
        for flags in 0..16 {
            for declared in [self.declared, 0] {
                let feature = number(flags.into());
                give(Input::Tree(Tree { store: self.store.clone(), declared, flags, feature, cut: 40 }));
            }
            give(Input::Row(again(&self.bytes, self.declared, flags)));
        }
        let bytes = self.properties();
        for stop in [65_536, 0, 1, 2] {
            give(Input::Properties(Properties { bytes: bytes.clone(), columns: self.columns.clone(), stop, cut: 20 }));
        }
    }

    fn properties(&self) -> Vec<u8> {
        let feature = size_prefixed_root_as_feature(&self.bytes).expect("read before");
        feature.properties().map(|list| list.bytes().to_vec()).unwrap_or_default()
    }
}

/// A row that writes the events of a feature twice, under two numbers.
fn again(bytes: &[u8], declared: u8, flags: u8) -> Row {
    let events = read_feature(bytes, declared, flags).events;
    let mut calls: Vec<Call> = vec![];
    for _ in 0..2 {
        calls.extend(events.chunks(64).map(|event| What::Event { bytes: event.to_vec(), times: 1 }.into()));
        calls.extend([What::Finish.into(), What::Next.into()]);
    }
    put_numbers(&mut calls, |_, nexts| number(usize::from(flags) + nexts));
    Row { declared, detect: false, promote: false, held: [64 * 64, 512, 64, 256, 256, 256, 256, 0], scrambled: true, calls }
}
