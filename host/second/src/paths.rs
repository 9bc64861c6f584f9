//! "A path is `ducklake-{uuid}.parquet`, UUID in lower-case hexadecimal (8-4-4-4-12), relative to
//! its table."

use crate::records::Uuid;

pub fn path((high, low): Uuid) -> String {
    let digits = format!("{high:016x}{low:016x}");
    let groups = [0..8, 8..12, 12..16, 16..20, 20..32].map(|group| &digits[group]);
    format!("ducklake-{}.parquet", groups.join("-"))
}

#[cfg(test)]
mod tests {
    use super::path;

    #[test]
    fn a_uuid_is_written_high_word_first() {
        let uuid = (0x0123_4567_89ab_cdef, 0xfedc_ba98_7654_3210);
        assert_eq!(path(uuid), "ducklake-01234567-89ab-cdef-fedc-ba9876543210.parquet");
    }
}
