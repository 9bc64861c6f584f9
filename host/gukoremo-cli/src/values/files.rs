//! Files, by id or by path: `2`, `ducklake-UUID.parquet`, `main/diary/ducklake-UUID.parquet`, or the UUID alone.

use super::{numbers, uuids};
use gukoremo::{FileId, Uuid};
use std::fmt;

#[derive(Clone, Copy, Debug, PartialEq, Eq)]
pub enum FileReference {
    Id(FileId),
    /// No two files have the same.
    Uuid(Uuid),
}

pub fn parse(text: &str) -> Result<FileReference, String> {
    if !text.is_empty() && text.bytes().all(|byte| byte.is_ascii_digit()) {
        return numbers::number(text).map(|id| FileReference::Id(FileId(id)));
    }
    let name = text.rsplit('/').next().unwrap_or_default();
    let uuid = name.strip_prefix("ducklake-").and_then(|name| name.strip_suffix(".parquet")).unwrap_or(name);
    uuids::parse(uuid)
        .map(FileReference::Uuid)
        .map_err(|_| format!("'{text}' is no file: that is its id, its path, which ends in ducklake-UUID.parquet, or its UUID"))
}

impl fmt::Display for FileReference {
    fn fmt(&self, f: &mut fmt::Formatter<'_>) -> fmt::Result {
        match self {
            FileReference::Id(id) => write!(f, "{}", id.0),
            FileReference::Uuid(uuid) => write!(f, "{}", uuid.path()),
        }
    }
}

#[cfg(test)]
mod tests {
    use super::{parse, FileReference};
    use gukoremo::{FileId, Uuid};

    #[test]
    fn forms() {
        assert_eq!(parse("7"), Ok(FileReference::Id(FileId(7))));
        let uuid = "00000000-0000-0001-0000-00000000000a";
        for text in [uuid, &format!("ducklake-{uuid}.parquet"), &format!("main/diary/ducklake-{uuid}.parquet")] {
            assert_eq!(parse(text), Ok(FileReference::Uuid(Uuid { high: 1, low: 10 })), "{text}");
        }
        for bad in ["", "-1", "x", "99999999999999999999", "ducklake-7.parquet", "main/diary/", "7.parquet"] {
            assert!(parse(bad).is_err(), "{bad}");
        }
    }
}
