//! UUIDs, which are two words in the tables. How one is shown and read is the `uuid` crate's.

use crate::record::Uuid;
use std::cmp::Ordering;
use std::fmt;
use std::hash::{Hash, Hasher};
use std::str::FromStr;

impl Uuid {
    /// The UUID of a number of 128 bits.
    ///
    /// ```
    /// use gukoremo::Uuid;
    ///
    /// assert_eq!(Uuid::from_u128(0xa1a2_a3a4_b1b2_c1c2_d1d2_d3d4_d5d6_d7d8).to_string(), "a1a2a3a4-b1b2-c1c2-d1d2-d3d4d5d6d7d8");
    /// ```
    pub const fn from_u128(number: u128) -> Uuid {
        Uuid { high: (number >> 64) as u64, low: number as u64 }
    }

    /// The UUID as a number of 128 bits.
    ///
    /// ```
    /// use gukoremo::Uuid;
    ///
    /// assert_eq!(Uuid { high: 1, low: 2 }.as_u128(), (1 << 64) + 2);
    /// ```
    pub const fn as_u128(self) -> u128 {
        (self.high as u128) << 64 | self.low as u128
    }

    /// The path of the file with this UUID: "A path is `ducklake-{uuid}.parquet`, UUID in lower-case hexadecimal (8-4-4-4-12), relative to its table."
    ///
    /// ```
    /// use gukoremo::Uuid;
    ///
    /// assert_eq!(Uuid::from_u128(1).path(), "ducklake-00000000-0000-0000-0000-000000000001.parquet");
    /// ```
    pub fn path(self) -> String {
        format!("ducklake-{self}.parquet")
    }
}

impl From<uuid::Uuid> for Uuid {
    fn from(uuid: uuid::Uuid) -> Uuid {
        Uuid::from_u128(uuid.as_u128())
    }
}

impl From<Uuid> for uuid::Uuid {
    fn from(uuid: Uuid) -> uuid::Uuid {
        uuid::Uuid::from_u128(uuid.as_u128())
    }
}

impl FromStr for Uuid {
    type Err = uuid::Error;

    /// Each form that the `uuid` crate reads: 8-4-4-4-12 hexadecimal digits in either case, without the hyphens, in braces, or as a URN.
    fn from_str(text: &str) -> Result<Uuid, uuid::Error> {
        uuid::Uuid::from_str(text).map(Uuid::from)
    }
}

/// 8-4-4-4-12, in lower case.
impl fmt::Display for Uuid {
    fn fmt(&self, f: &mut fmt::Formatter<'_>) -> fmt::Result {
        uuid::Uuid::from(*self).fmt(f)
    }
}

/// As it is shown.
impl fmt::Debug for Uuid {
    fn fmt(&self, f: &mut fmt::Formatter<'_>) -> fmt::Result {
        fmt::Display::fmt(self, f)
    }
}

impl PartialOrd for Uuid {
    fn partial_cmp(&self, other: &Uuid) -> Option<Ordering> {
        Some(self.cmp(other))
    }
}

impl Ord for Uuid {
    fn cmp(&self, other: &Uuid) -> Ordering {
        self.as_u128().cmp(&other.as_u128())
    }
}

impl Hash for Uuid {
    fn hash<H: Hasher>(&self, state: &mut H) {
        self.as_u128().hash(state);
    }
}

#[cfg(test)]
mod tests {
    use crate::Uuid;

    const TEXT: &str = "0198c2a4-0f3e-7abc-8def-0123456789ab";
    const UUID: Uuid = Uuid { high: 0x0198_c2a4_0f3e_7abc, low: 0x8def_0123_4567_89ab };

    #[test]
    fn there_and_back() {
        assert_eq!((UUID.to_string(), format!("{UUID:?}")), (TEXT.to_string(), TEXT.to_string()));
        for form in [TEXT.to_string(), TEXT.to_uppercase(), TEXT.replace('-', ""), format!("{{{TEXT}}}"), format!("urn:uuid:{TEXT}")] {
            assert_eq!(form.parse(), Ok(UUID), "{form}");
        }
        for bad in ["", "0198c2a4", "0198c2a40-f3e-7abc-8def-0123456789ab", "+198c2a4-0f3e-7abc-8def-0123456789ab"] {
            assert!(bad.parse::<Uuid>().is_err(), "{bad}");
        }
        assert_eq!(UUID.path(), format!("ducklake-{TEXT}.parquet"));
    }

    #[test]
    fn words_and_numbers() {
        assert_eq!(UUID.as_u128(), 0x0198_c2a4_0f3e_7abc_8def_0123_4567_89ab);
        assert_eq!((Uuid::from_u128(UUID.as_u128()), Uuid::from(uuid::Uuid::from(UUID))), (UUID, UUID));
        assert_eq!(uuid::Uuid::from(UUID).to_string(), TEXT);
        // by the high word first, as the digits are
        assert!(Uuid { high: 1, low: 0 } > Uuid { high: 0, low: u64::MAX });
    }
}
