//! "Names lie in 32-byte places of a byte run beside the table, filled with zero bytes: 1 to 32
//! ASCII letters, digits or underscores. Names are equal when their bytes are."

use crate::lent::NAME_SIZE;

/// A well formed name, in its place.
#[derive(Clone, Copy, Debug, PartialEq, Eq, PartialOrd, Ord)]
pub struct Name {
    place: [u8; NAME_SIZE],
}

impl Name {
    /// A name argument is the name's own bytes (R18).
    pub fn from_bytes(bytes: &[u8]) -> Option<Name> {
        let in_size = (1..=NAME_SIZE).contains(&bytes.len());
        let plain = bytes.iter().all(|byte| byte.is_ascii_alphanumeric() || *byte == b'_');
        if !in_size || !plain {
            return None;
        }
        let mut place = [0; NAME_SIZE];
        place[..bytes.len()].copy_from_slice(bytes);
        Some(Name { place })
    }

    /// "padding is zero": what follows the name in its place.
    pub fn from_place(place: &[u8; NAME_SIZE]) -> Option<Name> {
        let length = place.iter().position(|byte| *byte == 0).unwrap_or(NAME_SIZE);
        let (bytes, padding) = place.split_at(length);
        if padding.iter().any(|byte| *byte != 0) {
            return None;
        }
        Name::from_bytes(bytes)
    }

    pub fn place(&self) -> [u8; NAME_SIZE] {
        self.place
    }
}

#[cfg(test)]
mod tests {
    use super::Name;

    #[test]
    fn a_name_is_1_to_32_letters_digits_or_underscores() {
        for good in [&b"a"[..], b"Z", b"0", b"_", b"desk_diary_2024", &[b'x'; 32]] {
            assert!(Name::from_bytes(good).is_some());
        }
        for bad in [&b""[..], &[b'x'; 33], b"a b", b"a-b", b"a\0", b"\0", b"\xe9", b"a\x7f"] {
            assert!(Name::from_bytes(bad).is_none());
        }
    }

    #[test]
    fn padding_is_zero() {
        let mut place = [0; 32];
        place[..4].copy_from_slice(b"main");
        assert_eq!(Name::from_place(&place), Name::from_bytes(b"main"));
        place[31] = b'x';
        assert_eq!(Name::from_place(&place), None);
        assert_eq!(Name::from_place(&[0; 32]), None);
        assert!(Name::from_place(&[b'x'; 32]).is_some());
    }
}
