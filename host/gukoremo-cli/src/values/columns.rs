//! New columns: `price:int64?` is a column `price` of type int64 in which nulls are allowed.

use gukoremo::{ColumnType, UnknownType};

#[derive(Clone, Debug, PartialEq, Eq)]
pub struct Column {
    pub name: String,
    pub column_type: ColumnType,
    pub nulls_allowed: bool,
}

pub fn parse(text: &str) -> Result<Column, String> {
    let wrong = || format!("a column is NAME:TYPE, with ? after it where nulls are allowed, such as price:int64?; {UnknownType}");
    let (name, rest) = text.split_once(':').ok_or_else(wrong)?;
    let (code, nulls_allowed) = match rest.strip_suffix('?') {
        Some(code) => (code, true),
        None => (rest, false),
    };
    let column_type = code.parse().map_err(|_| wrong())?;
    Ok(Column { name: name.to_string(), column_type, nulls_allowed })
}

#[cfg(test)]
mod tests {
    #[test]
    fn forms() {
        let price = super::parse("price:int64?").expect("a column");
        assert_eq!((price.name.as_str(), price.column_type.code(), price.nulls_allowed), ("price", 4, true));
        assert!(!super::parse("item:boolean").expect("a column").nulls_allowed);
        for bad in ["price", "price:", "price:int", "price:int64??", ":"] {
            assert!(super::parse(bad).is_err(), "{bad}");
        }
    }
}
