//! The types of columns.

use std::fmt;
use std::ops::RangeInclusive;
use std::str::FromStr;

/// A column's type.
///
/// ```
/// use gukoremo::ColumnType;
///
/// let column_type: ColumnType = "uint8".parse()?;
/// assert_eq!((column_type, column_type.code(), column_type.range()), (ColumnType::Uint8, 5, 0..=255));
/// # Ok::<(), gukoremo::UnknownType>(())
/// ```
#[non_exhaustive]
#[derive(Clone, Copy, Debug, PartialEq, Eq, Hash)]
pub enum ColumnType {
    /// Integers of 8 bits, with a sign.
    Int8,
    /// Integers of 16 bits, with a sign.
    Int16,
    /// Integers of 32 bits, with a sign.
    Int32,
    /// Integers of 64 bits, with a sign.
    Int64,
    /// Integers of 8 bits, without a sign.
    Uint8,
    /// Integers of 16 bits, without a sign.
    Uint16,
    /// Integers of 32 bits, without a sign.
    Uint32,
    /// False and true: 0 and 1.
    Boolean,
    /// A code that no type has: of tables that are not sound, or of a new table, which is then refused.
    Unknown(u64),
}

impl ColumnType {
    /// Every type, in the order of the codes.
    pub const ALL: [ColumnType; 8] = [
        ColumnType::Int8,
        ColumnType::Int16,
        ColumnType::Int32,
        ColumnType::Int64,
        ColumnType::Uint8,
        ColumnType::Uint16,
        ColumnType::Uint32,
        ColumnType::Boolean,
    ];

    /// The type of a code.
    ///
    /// ```
    /// use gukoremo::ColumnType;
    ///
    /// assert_eq!((ColumnType::of(4), ColumnType::of(9)), (ColumnType::Int64, ColumnType::Unknown(9)));
    /// ```
    pub fn of(code: u64) -> ColumnType {
        ColumnType::ALL.into_iter().find(|known| known.code() == code).unwrap_or(ColumnType::Unknown(code))
    }

    /// The code that a column's record has.
    ///
    /// ```
    /// assert_eq!(gukoremo::ColumnType::Boolean.code(), 8);
    /// ```
    pub fn code(self) -> u64 {
        match self {
            ColumnType::Int8 => 1,
            ColumnType::Int16 => 2,
            ColumnType::Int32 => 3,
            ColumnType::Int64 => 4,
            ColumnType::Uint8 => 5,
            ColumnType::Uint16 => 6,
            ColumnType::Uint32 => 7,
            ColumnType::Boolean => 8,
            ColumnType::Unknown(code) => code,
        }
    }

    /// The published name.
    ///
    /// ```
    /// assert_eq!(gukoremo::ColumnType::Int64.name(), "int64");
    /// ```
    pub fn name(self) -> &'static str {
        match self {
            ColumnType::Int8 => "int8",
            ColumnType::Int16 => "int16",
            ColumnType::Int32 => "int32",
            ColumnType::Int64 => "int64",
            ColumnType::Uint8 => "uint8",
            ColumnType::Uint16 => "uint16",
            ColumnType::Uint32 => "uint32",
            ColumnType::Boolean => "boolean",
            ColumnType::Unknown(_) => "unknown",
        }
    }

    /// The lowest and the highest value. No value is of an unknown type.
    ///
    /// ```
    /// use gukoremo::ColumnType;
    ///
    /// assert_eq!(ColumnType::Int8.range(), -128..=127);
    /// assert!(ColumnType::Unknown(9).range().is_empty());
    /// ```
    pub fn range(self) -> RangeInclusive<i64> {
        match self {
            ColumnType::Int8 => i8::MIN.into()..=i8::MAX.into(),
            ColumnType::Int16 => i16::MIN.into()..=i16::MAX.into(),
            ColumnType::Int32 => i32::MIN.into()..=i32::MAX.into(),
            ColumnType::Int64 => i64::MIN..=i64::MAX,
            ColumnType::Uint8 => 0..=u8::MAX.into(),
            ColumnType::Uint16 => 0..=u16::MAX.into(),
            ColumnType::Uint32 => 0..=u32::MAX.into(),
            ColumnType::Boolean => 0..=1,
            ColumnType::Unknown(_) => RangeInclusive::new(1, 0),
        }
    }
}

impl fmt::Display for ColumnType {
    fn fmt(&self, f: &mut fmt::Formatter<'_>) -> fmt::Result {
        f.pad(self.name())
    }
}

/// No type has that name.
#[derive(Clone, Copy, Debug, PartialEq, Eq)]
pub struct UnknownType;

impl fmt::Display for UnknownType {
    fn fmt(&self, f: &mut fmt::Formatter<'_>) -> fmt::Result {
        let names = ColumnType::ALL.map(ColumnType::name);
        write!(f, "types are {}", names.join(", "))
    }
}

impl std::error::Error for UnknownType {}

impl FromStr for ColumnType {
    type Err = UnknownType;

    /// The type of a published name.
    fn from_str(name: &str) -> Result<ColumnType, UnknownType> {
        ColumnType::ALL.into_iter().find(|known| known.name() == name).ok_or(UnknownType)
    }
}

#[cfg(test)]
mod tests {
    use super::{ColumnType, UnknownType};

    #[test]
    fn codes_and_names_there_and_back() {
        for (code, known) in (1..).zip(ColumnType::ALL) {
            assert_eq!((known.code(), ColumnType::of(code), known.name().parse()), (code, known, Ok(known)));
        }
        for code in [0, 9, u64::MAX] {
            assert_eq!((ColumnType::of(code), ColumnType::of(code).code()), (ColumnType::Unknown(code), code));
        }
        assert_eq!("unknown".parse::<ColumnType>(), Err(UnknownType));
    }
}
