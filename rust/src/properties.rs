use crate::{bare, column_type, Refusal, ValueRecord};

/// What a reading of property bytes came to: the log's first `count` records are values, refused or not. With
/// [`Refusal::NotUtf8`] the refused text is the value that would have been the next record, and
/// [`PropertiesRead::refused_text`] finds it.
#[derive(Clone, Copy, Debug, PartialEq, Eq)]
pub struct PropertiesRead {
    pub answer: Result<(), Refusal>,
    pub count: usize,
    /// Whether it ended after the column that was named.
    pub stopped: bool,
}

/// A text that was refused as not UTF-8: its column, the column's type, and its own bytes among the property bytes.
#[derive(Clone, Copy, Debug, PartialEq, Eq)]
pub struct RefusedText<'a> {
    pub column: u16,
    pub column_type: u8,
    pub bytes: &'a [u8],
}

impl PropertiesRead {
    /// The text that this reading refused as not UTF-8, from the bytes and columns that it was given and the log that it
    /// wrote. `None` with another answer, and where bytes, columns and log of another reading lead to no text.
    pub fn refused_text<'a>(&self, bytes: &'a [u8], columns: &[u8], log: &[u8]) -> Option<RefusedText<'a>> {
        let Err(Refusal::NotUtf8 { .. }) = self.answer else { return None };
        let mut properties = from_next_value(bytes, columns);
        for record in ValueRecord::in_log(log, self.count) {
            properties = from_next_value(behind_value(properties, record)?, columns);
        }
        first_text(properties, columns)
    }
}

/// A property's column, and what stands behind it.
fn split_column(properties: &[u8]) -> Option<(u16, &[u8])> {
    let (column, behind) = properties.split_first_chunk()?;
    Some((u16::from_le_bytes(*column), behind))
}

/// The properties from the first that has a value: a column of a type above 14 has none.
fn from_next_value<'a>(properties: &'a [u8], columns: &[u8]) -> &'a [u8] {
    let mut next = properties;
    while let Some((column, behind)) = split_column(next) {
        match columns.get(usize::from(column)) {
            Some(&column_type) if column_type > column_type::BINARY => next = behind,
            _ => break,
        }
    }
    next
}

/// The properties behind the first, of which this is the record. A text has its length between its column and its bytes.
fn behind_value(properties: &[u8], record: ValueRecord) -> Option<&[u8]> {
    let (_, behind) = split_column(properties)?;
    let value = if record.column_type < column_type::STRING { behind } else { behind.get(4..)? };
    value.get(record.length as usize..)
}

/// The text of the first property. Binary is none, since any bytes are good for it.
fn first_text<'a>(properties: &'a [u8], columns: &[u8]) -> Option<RefusedText<'a>> {
    let (column, behind) = split_column(properties)?;
    let column_type = *columns.get(usize::from(column))?;
    if !(column_type::STRING..column_type::BINARY).contains(&column_type) {
        return None;
    }
    let (length, text) = behind.split_first_chunk()?;
    let bytes = text.get(..u32::from_le_bytes(*length) as usize)?;
    Some(RefusedText { column, column_type, bytes })
}

/// Reads property bytes as value records from the log's start. `columns` has each column's type; without it nothing is read.
/// The reading ends after the first value of the column `stop`. Refused: 2, 14, 6, 9.
pub fn read_properties(bytes: &[u8], columns: Option<&[u8]>, stop: Option<u16>, log: &mut [u8]) -> PropertiesRead {
    let (mut count, mut stopped, mut place) = (0, 0, 0);
    let stop = stop.map_or(65_536, u32::from);
    let number = bare::read_properties(bytes, columns, stop, log, &mut count, &mut stopped, &mut place);
    PropertiesRead { answer: Refusal::of_properties(number, place), count: count as usize, stopped: stopped == 1 }
}
