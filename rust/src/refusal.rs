use core::fmt;

/// Why a call was refused. A refused write changes nothing; a refused read leaves in the log the records before the place.
#[derive(Clone, Copy, Debug, PartialEq, Eq)]
pub enum Refusal {
    /// 1: a list of coordinates is absent where one is needed.
    XyAbsent,
    /// 2, of a tree: a list of parts is absent where one is needed.
    PartsAbsent,
    /// 2, of property bytes: the column is not below the column count.
    ColumnUnknown,
    /// 3: no such geometry type, or one that has no events.
    TypeUnknown,
    /// 4: a type that does not belong in a curve or a surface.
    TypeNotACurve,
    /// 5: the type does not go into a feature of the declared type.
    TypesMixed,
    /// 6: a text is not UTF-8. `at` is the place in it of the first byte that begins no well-formed character, as
    /// [`core::str::Utf8Error::valid_up_to`] has it; a character that is cut short or broken is placed at its first byte.
    NotUtf8 { at: usize },
    /// 7: a coordinate, or a z, m, t or tm value, lies past its list.
    PastList,
    /// 8: an end that is 2^31 or larger, or less than the end before it.
    BadEnd,
    /// 9: the log has no room for the next record.
    LogFull,
    /// 10: a bad geometry record or table.
    BadRecord,
    /// 11: a malformed event record; a value of no type, a Bool above 1, or bits beyond the type's width.
    Malformed,
    /// 12: no room in a pool, the table or the property buffer, or one is lent shorter than the state uses; no room for
    /// well-known binary.
    NoRoom,
    /// 13: a part at level 17, or a geometry of well-known binary there.
    TooDeep,
    /// 14: property bytes end within a value.
    ValueCut,
    /// 15: a finished feature waits for `next`, or `next` has none to leave.
    NotItsTurn,
    /// 16: a column above 65,535.
    ColumnTooLarge,
    /// 17: the number of an event's feature is not the one that is held.
    OtherFeature,
    /// 18: well-known binary ends before a field is whole.
    WkbCut,
    /// 19: an order mark that is neither 0 nor 1, or a type that may not stand there.
    WkbUnknown,
    /// 20: bytes behind the geometry.
    WkbLeftOver,
    /// 21: events that are no geometry's: badly nested, tagged, indexed or sized.
    BadlyNested,
}

/// The number and words of a refusal, by its name alone, whatever else it has: NotUtf8 has its place. The rows are names and no
/// patterns, since .ci/refusals holds them to the C header's.
macro_rules! row_of {
    ($refusal:expr, $((Refusal::$name:ident, $number:literal, $words:literal),)*) => {
        match $refusal {
            $(Refusal::$name { .. } => ($number, $words),)*
        }
    };
}

impl Refusal {
    pub fn number(self) -> u8 {
        self.row().0
    }

    pub fn words(self) -> &'static str {
        self.row().1
    }

    /// Its number and words.
    fn row(self) -> (u8, &'static str) {
        row_of!(
            self,
            (Refusal::XyAbsent, 1, "an xy list is absent"),
            (Refusal::PartsAbsent, 2, "parts are absent"),
            (Refusal::ColumnUnknown, 2, "a column is not below the column count"),
            (Refusal::TypeUnknown, 3, "unknown geometry type"),
            (Refusal::TypeNotACurve, 4, "unexpected type in a curve"),
            (Refusal::TypesMixed, 5, "types mixed"),
            (Refusal::NotUtf8, 6, "text is not UTF-8"),
            (Refusal::PastList, 7, "a coordinate or a z, m, t or tm value past its list"),
            (Refusal::BadEnd, 8, "an end that is 2^31 or larger, or less than the end before it"),
            (Refusal::LogFull, 9, "the log is full"),
            (Refusal::BadRecord, 10, "bad geometry record or table"),
            (Refusal::Malformed, 11, "malformed event or value"),
            (Refusal::NoRoom, 12, "no room in a pool, the table or the property bytes"),
            (Refusal::TooDeep, 13, "a part at level 17"),
            (Refusal::ValueCut, 14, "a property value cut short"),
            (Refusal::NotItsTurn, 15, "not its turn"),
            (Refusal::ColumnTooLarge, 16, "column number above 65,535"),
            (Refusal::OtherFeature, 17, "an event of another feature"),
            (Refusal::WkbCut, 18, "well-known binary that ends before a field is whole"),
            (Refusal::WkbUnknown, 19, "an order mark that is neither 0 nor 1, or a type that may not stand there"),
            (Refusal::WkbLeftOver, 20, "bytes behind the geometry"),
            (Refusal::BadlyNested, 21, "events that are no geometry's: badly nested, tagged, indexed or sized"),
        )
    }

    /// The answer of a call on properties, where 2 is about a column and 6 has its place.
    pub(crate) fn of_properties(number: u8, place: usize) -> Result<(), Refusal> {
        match number {
            2 => Err(Refusal::ColumnUnknown),
            6 => Err(Refusal::NotUtf8 { at: place }),
            _ => Refusal::of(number),
        }
    }

    /// The answer of a call that has no properties, where 2 is about parts, and of one on properties where it is neither 2 nor
    /// 6. No 6 comes here, since it has a place.
    pub(crate) fn of(number: u8) -> Result<(), Refusal> {
        match number {
            0 => Ok(()),
            1 => Err(Refusal::XyAbsent),
            2 => Err(Refusal::PartsAbsent),
            3 => Err(Refusal::TypeUnknown),
            4 => Err(Refusal::TypeNotACurve),
            5 => Err(Refusal::TypesMixed),
            7 => Err(Refusal::PastList),
            8 => Err(Refusal::BadEnd),
            9 => Err(Refusal::LogFull),
            10 => Err(Refusal::BadRecord),
            11 => Err(Refusal::Malformed),
            12 => Err(Refusal::NoRoom),
            13 => Err(Refusal::TooDeep),
            14 => Err(Refusal::ValueCut),
            15 => Err(Refusal::NotItsTurn),
            16 => Err(Refusal::ColumnTooLarge),
            17 => Err(Refusal::OtherFeature),
            18 => Err(Refusal::WkbCut),
            19 => Err(Refusal::WkbUnknown),
            20 => Err(Refusal::WkbLeftOver),
            21 => Err(Refusal::BadlyNested),
            _ => unreachable!("no call answers {number} without a place"),
        }
    }
}

impl fmt::Display for Refusal {
    fn fmt(&self, f: &mut fmt::Formatter) -> fmt::Result {
        write!(f, "{}: {}", self.number(), self.words())?;
        match self {
            Refusal::NotUtf8 { at } => write!(f, " at byte {at}"),
            _ => Ok(()),
        }
    }
}

impl core::error::Error for Refusal {}
