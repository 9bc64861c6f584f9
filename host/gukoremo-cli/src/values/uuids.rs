//! UUIDs in their usual form, or made.

use super::times;
use gukoremo::Uuid;
use std::fs::File;
use std::io::{self, Read};

/// 8-4-4-4-12 hexadecimal digits, in either case, or another form that the uuid crate reads.
pub fn parse(text: &str) -> Result<Uuid, String> {
    text.parse().map_err(|_| "a UUID is 8-4-4-4-12 hexadecimal digits, such as 00000000-0000-0000-0000-000000000001".to_string())
}

/// A new one of version 7: the clock's milliseconds, then chance. Files made later sort later.
pub fn make() -> io::Result<Uuid> {
    let mut chance = [0; 16];
    File::open("/dev/urandom")?.read_exact(&mut chance)?;
    let chance = u128::from_le_bytes(chance);
    let high = (times::now() / 1_000) << 16 | 0x7000 | (chance as u64 & 0x0fff);
    let low = 1 << 63 | (chance >> 64) as u64 >> 2;
    Ok(Uuid { high, low })
}

#[cfg(test)]
mod tests {
    use super::{make, parse};

    #[test]
    fn there_and_back() {
        let text = "0198c2a4-0f3e-7abc-8def-0123456789ab";
        assert_eq!(parse(text).map(|uuid| uuid.to_string()), Ok(text.to_string()));
        assert_eq!(parse(&text.replace('-', "").to_uppercase()).map(|uuid| uuid.to_string()), Ok(text.to_string()));
        for bad in
            ["", "0198c2a4", "0198c2a4-0f3e-7abc-8def-0123456789aé", "0198c2a40-f3e-7abc-8def-0123456789ab", "+198c2a4-0f3e-7abc-8def-0123456789ab"]
        {
            assert!(parse(bad).is_err(), "{bad}");
        }
        let made = make().expect("chance").to_string();
        assert_eq!(&made[14..15], "7");
        assert!("89ab".contains(&made[19..20]));
    }
}
