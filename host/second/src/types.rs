//! "Types, each with its lowest and highest value: 1 int8, 2 int16, 3 int32, 4 int64, 5 uint8,
//! 6 uint16, 7 uint32, 8 boolean (0 to 1)."

use std::ops::RangeInclusive;

#[derive(Clone, Copy, Debug, PartialEq, Eq)]
pub enum Type {
    Int8 = 1,
    Int16 = 2,
    Int32 = 3,
    Int64 = 4,
    Uint8 = 5,
    Uint16 = 6,
    Uint32 = 7,
    Boolean = 8,
}

impl Type {
    pub fn from_code(code: u64) -> Option<Type> {
        match code {
            1 => Some(Type::Int8),
            2 => Some(Type::Int16),
            3 => Some(Type::Int32),
            4 => Some(Type::Int64),
            5 => Some(Type::Uint8),
            6 => Some(Type::Uint16),
            7 => Some(Type::Uint32),
            8 => Some(Type::Boolean),
            _ => None,
        }
    }

    pub fn code(self) -> u64 {
        self as u64
    }

    /// From the lowest to the highest value.
    pub fn values(self) -> RangeInclusive<i64> {
        match self {
            Type::Int8 => i8::MIN.into()..=i8::MAX.into(),
            Type::Int16 => i16::MIN.into()..=i16::MAX.into(),
            Type::Int32 => i32::MIN.into()..=i32::MAX.into(),
            Type::Int64 => i64::MIN..=i64::MAX,
            Type::Uint8 => 0..=u8::MAX.into(),
            Type::Uint16 => 0..=u16::MAX.into(),
            Type::Uint32 => 0..=u32::MAX.into(),
            Type::Boolean => 0..=1,
        }
    }
}

#[cfg(test)]
mod tests {
    use super::Type;

    #[test]
    fn codes_are_1_to_8() {
        for code in 1..=8 {
            assert_eq!(Type::from_code(code).map(Type::code), Some(code));
        }
        for code in [0, 9, u64::MAX] {
            assert_eq!(Type::from_code(code), None);
        }
    }
}
