//! Property values given to the crate's writer, and property bytes read by the crate.
use crate::answer::{caught, number, DONE, MALFORMED, TEXT_NOT_UTF8, UNKNOWN, VALUE_CUT};
use crate::feature_generated::{Feature, FeatureArgs};
use crate::header_generated::{Column, ColumnType, Header};
use crate::properties_reader::FgbFeature;
use flatbuffers::{FlatBufferBuilder, WIPOffset};
use geozero::error::Result;
use geozero::{ColumnValue, FeatureProperties, PropertyProcessor};
use std::str::from_utf8;

/// Bytes of a value, by its column type; types 11 to 14 have a length of their own.
pub const WIDTHS: [u32; 11] = [1, 1, 1, 2, 2, 4, 4, 8, 8, 4, 8];

/// Why the crate cannot be given a value: a number of SPEC 9.4, and with 6 the place of the text's first bad byte (9.13), which is else 0.
#[derive(Debug)]
pub struct Refused {
    pub number: u8,
    pub place: usize,
}

/// A value as the crate takes it. 11 and 6 are SPEC 9.4's: the crate's types hold no such value. The place is Rust's own, of the error
/// where the text is to become a `&str`.
pub fn value(kind: u8, bits: u64, text: &[u8]) -> std::result::Result<ColumnValue<'_>, Refused> {
    let too_wide = WIDTHS.get(usize::from(kind)).is_some_and(|width| *width < 8 && bits >> (8 * width) != 0);
    if kind > 14 || too_wide || (kind == 2 && bits > 1) {
        return Err(Refused { number: MALFORMED, place: 0 });
    }
    let utf8 = || from_utf8(text).map_err(|error| Refused { number: TEXT_NOT_UTF8, place: error.valid_up_to() });
    Ok(match kind {
        0 => ColumnValue::Byte(bits as i8),
        1 => ColumnValue::UByte(bits as u8),
        2 => ColumnValue::Bool(bits == 1),
        3 => ColumnValue::Short(bits as i16),
        4 => ColumnValue::UShort(bits as u16),
        5 => ColumnValue::Int(bits as i32),
        6 => ColumnValue::UInt(bits as u32),
        7 => ColumnValue::Long(bits as i64),
        8 => ColumnValue::ULong(bits),
        9 => ColumnValue::Float(f32::from_bits(bits as u32)),
        10 => ColumnValue::Double(f64::from_bits(bits)),
        11 => ColumnValue::String(utf8()?),
        12 => ColumnValue::Json(utf8()?),
        13 => ColumnValue::DateTime(utf8()?),
        _ => ColumnValue::Binary(text),
    })
}

/// A processor that writes value records (SPEC 3.11), and stops after a named column.
pub struct Values {
    pub records: Vec<u8>,
    first_byte: *const u8,
    stop: u32,
}

impl Values {
    pub fn of(feature: &FgbFeature, stop: u32) -> Values {
        let first_byte = feature.fbs_feature().properties().expect("made with properties").bytes().as_ptr();
        Values { records: Vec::new(), first_byte, stop }
    }
}

impl PropertyProcessor for Values {
    fn property(&mut self, column: usize, _name: &str, value: &ColumnValue) -> Result<bool> {
        let place = |bytes: &[u8]| (bytes.as_ptr() as usize - self.first_byte as usize) as u64;
        let (kind, length, word) = match value {
            ColumnValue::Byte(n) => (0, 1, u64::from(*n as u8)),
            ColumnValue::UByte(n) => (1, 1, u64::from(*n)),
            ColumnValue::Bool(is) => (2, 1, u64::from(*is)),
            ColumnValue::Short(n) => (3, 2, u64::from(*n as u16)),
            ColumnValue::UShort(n) => (4, 2, u64::from(*n)),
            ColumnValue::Int(n) => (5, 4, u64::from(*n as u32)),
            ColumnValue::UInt(n) => (6, 4, u64::from(*n)),
            ColumnValue::Long(n) => (7, 8, *n as u64),
            ColumnValue::ULong(n) => (8, 8, *n),
            ColumnValue::Float(x) => (9, 4, u64::from(x.to_bits())),
            ColumnValue::Double(x) => (10, 8, x.to_bits()),
            ColumnValue::String(text) => (11, text.len(), place(text.as_bytes())),
            ColumnValue::Json(text) => (12, text.len(), place(text.as_bytes())),
            ColumnValue::DateTime(text) => (13, text.len(), place(text.as_bytes())),
            ColumnValue::Binary(bytes) => (14, bytes.len(), place(bytes)),
        };
        self.records.extend_from_slice(&(column as u16).to_le_bytes());
        self.records.extend_from_slice(&[kind, 0]);
        self.records.extend_from_slice(&(length as u32).to_le_bytes());
        self.records.extend_from_slice(&word.to_le_bytes());
        Ok(column as u32 == self.stop)
    }
}

pub struct ValuesRead {
    pub number: u8,
    pub stopped: bool,
    /// With 6 the place of the text's first bad byte, else 0.
    pub place: usize,
    pub records: Vec<u8>,
    pub words: String,
}

/// Reads property bytes. All is the crate's, but for the number 14 of its panics and the way to the text that it refused.
pub fn read(bytes: &[u8], columns: Option<&[u8]>, stop: u32) -> ValuesRead {
    let feature = feature(bytes, columns);
    let mut values = Values::of(&feature, stop);
    let (number, stopped, words) = match caught(|| feature.process_properties(&mut values)) {
        Ok(Ok(stopped)) => (DONE, stopped, String::new()),
        Ok(Err(error)) => (number(&error), false, format!("{error:?}")),
        Err(words) => (if words.contains("properties_reader.rs") { VALUE_CUT } else { UNKNOWN }, false, words),
    };
    let records = values.records;
    if number != TEXT_NOT_UTF8 {
        return ValuesRead { number, stopped, place: 0, records, words };
    }
    match caught(|| bad_place(bytes, columns.unwrap_or_default(), records.len() / 16)) {
        Ok(place) => ValuesRead { number, stopped, place, records, words },
        Err(words) => ValuesRead { number: UNKNOWN, stopped, place: 0, records, words },
    }
}

/// Where the text went bad that the crate refused behind so many values. Its error has no place, so the text is looked for by SPEC 9.1
/// and 9.6 to 9.9, and Rust is asked about it once more. It panics if there is no such text: the way to it is wrong then.
fn bad_place(bytes: &[u8], columns: &[u8], values: usize) -> usize {
    let mut rest = bytes;
    for _ in 0..values {
        let (kind, value) = first_value(rest, columns);
        rest = split_value(kind, value).1;
    }
    let (kind, value) = first_value(rest, columns);
    assert!(matches!(kind, 11..=13), "the crate refused the text of a value of type {kind}");
    from_utf8(split_value(kind, value).0).expect_err("the crate refused a text that is UTF-8").valid_up_to()
}

/// The first property that has a value: its type, and the bytes from its value on.
fn first_value<'b>(bytes: &'b [u8], columns: &[u8]) -> (u8, &'b [u8]) {
    let mut rest = bytes;
    loop {
        let (column, behind) = rest.split_first_chunk().expect("the crate refused a text behind the last property");
        let kind = columns[usize::from(u16::from_le_bytes(*column))];
        if kind <= 14 {
            return (kind, behind);
        }
        rest = behind;
    }
}

/// A value's bytes, without the length that types 11 to 14 have before them, and what stands behind it.
fn split_value(kind: u8, bytes: &[u8]) -> (&[u8], &[u8]) {
    match WIDTHS.get(usize::from(kind)) {
        Some(width) => bytes.split_at(*width as usize),
        None => {
            let (length, behind) = bytes.split_first_chunk().expect("the crate refused a text without a length");
            behind.split_at(u32::from_le_bytes(*length) as usize)
        }
    }
}

/// A feature of these property bytes and columns, as the crate reads it.
pub fn feature(bytes: &[u8], columns: Option<&[u8]>) -> FgbFeature {
    FgbFeature { header_buf: header_with(columns), feature_buf: feature_with(bytes) }
}

fn header_with(columns: Option<&[u8]>) -> Vec<u8> {
    let mut to = FlatBufferBuilder::new();
    let columns = columns.map(|kinds| {
        let name = to.create_string("c");
        let tables: Vec<WIPOffset<Column>> = kinds.iter().map(|kind| column(&mut to, name, *kind)).collect();
        to.create_vector(&tables)
    });
    let start = to.start_table();
    if let Some(columns) = columns {
        to.push_slot_always(Header::VT_COLUMNS, columns);
    }
    let header = to.end_table(start);
    to.finish_size_prefixed(header, None);
    to.finished_data().to_vec()
}

fn column<'b>(to: &mut FlatBufferBuilder<'b>, name: WIPOffset<&'b str>, kind: u8) -> WIPOffset<Column<'b>> {
    let start = to.start_table();
    to.push_slot_always(Column::VT_NAME, name);
    to.push_slot(Column::VT_TYPE_, ColumnType(kind), ColumnType::Byte);
    WIPOffset::new(to.end_table(start).value())
}

fn feature_with(bytes: &[u8]) -> Vec<u8> {
    let mut to = FlatBufferBuilder::new();
    let properties = Some(to.create_vector(bytes));
    let feature = Feature::create(&mut to, &FeatureArgs { properties, ..Default::default() });
    to.finish_size_prefixed(feature, None);
    to.finished_data().to_vec()
}
