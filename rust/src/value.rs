use crate::column_type;

/// A property's value.
#[derive(Clone, Copy, Debug, PartialEq)]
pub enum Value<'a> {
    Byte(i8),
    UByte(u8),
    Bool(bool),
    Short(i16),
    UShort(u16),
    Int(i32),
    UInt(u32),
    Long(i64),
    ULong(u64),
    Float(f32),
    Double(f64),
    String(&'a str),
    Json(&'a str),
    DateTime(&'a str),
    Binary(&'a [u8]),
}

impl<'a> Value<'a> {
    /// Its column type, its bits, and its text: what is not used is zero or empty.
    pub(crate) fn parts(self) -> (u8, u64, &'a [u8]) {
        match self {
            Value::Byte(v) => (column_type::BYTE, v as u8 as u64, &[]),
            Value::UByte(v) => (column_type::UBYTE, v as u64, &[]),
            Value::Bool(v) => (column_type::BOOL, v as u64, &[]),
            Value::Short(v) => (column_type::SHORT, v as u16 as u64, &[]),
            Value::UShort(v) => (column_type::USHORT, v as u64, &[]),
            Value::Int(v) => (column_type::INT, v as u32 as u64, &[]),
            Value::UInt(v) => (column_type::UINT, v as u64, &[]),
            Value::Long(v) => (column_type::LONG, v as u64, &[]),
            Value::ULong(v) => (column_type::ULONG, v, &[]),
            Value::Float(v) => (column_type::FLOAT, v.to_bits() as u64, &[]),
            Value::Double(v) => (column_type::DOUBLE, v.to_bits(), &[]),
            Value::String(v) => (column_type::STRING, 0, v.as_bytes()),
            Value::Json(v) => (column_type::JSON, 0, v.as_bytes()),
            Value::DateTime(v) => (column_type::DATE_TIME, 0, v.as_bytes()),
            Value::Binary(v) => (column_type::BINARY, 0, v),
        }
    }
}

/// A value as its 16-byte record has it: `word` is a number's bits, or where a text's bytes start in the property bytes.
#[derive(Clone, Copy, Debug, PartialEq, Eq)]
pub struct ValueRecord {
    pub column: u16,
    pub column_type: u8,
    pub length: u32,
    pub word: u64,
}

impl ValueRecord {
    pub fn from_bytes(bytes: &[u8; 16]) -> ValueRecord {
        ValueRecord {
            column: u16::from_le_bytes(bytes[0..2].try_into().unwrap()),
            column_type: bytes[2],
            length: u32::from_le_bytes(bytes[4..8].try_into().unwrap()),
            word: u64::from_le_bytes(bytes[8..16].try_into().unwrap()),
        }
    }

    /// The records of the first `count` of a log.
    pub fn in_log(log: &[u8], count: usize) -> impl Iterator<Item = ValueRecord> + '_ {
        log.chunks_exact(16).take(count).map(|bytes| ValueRecord::from_bytes(bytes.try_into().unwrap()))
    }

    /// The value itself, with the property bytes that it was read from; `None` with others that it does not fit.
    pub fn value<'a>(&self, properties: &'a [u8]) -> Option<Value<'a>> {
        let word = self.word;
        let bytes = || properties.get(word as usize..)?.get(..self.length as usize);
        let text = || core::str::from_utf8(bytes()?).ok();
        Some(match self.column_type {
            column_type::BYTE => Value::Byte(word as i8),
            column_type::UBYTE => Value::UByte(word as u8),
            column_type::BOOL => Value::Bool(word != 0),
            column_type::SHORT => Value::Short(word as i16),
            column_type::USHORT => Value::UShort(word as u16),
            column_type::INT => Value::Int(word as i32),
            column_type::UINT => Value::UInt(word as u32),
            column_type::LONG => Value::Long(word as i64),
            column_type::ULONG => Value::ULong(word),
            column_type::FLOAT => Value::Float(f32::from_bits(word as u32)),
            column_type::DOUBLE => Value::Double(f64::from_bits(word)),
            column_type::STRING => Value::String(text()?),
            column_type::JSON => Value::Json(text()?),
            column_type::DATE_TIME => Value::DateTime(text()?),
            column_type::BINARY => Value::Binary(bytes()?),
            _ => return None,
        })
    }
}
