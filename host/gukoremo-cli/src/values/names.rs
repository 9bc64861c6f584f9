//! Schemas, tables and columns, by id or by name. Digits are an id; a name of digits alone is put in quotes: `'"7"'`.

use std::fmt;

/// A schema or a column.
#[derive(Clone, Debug, PartialEq, Eq)]
pub enum Reference {
    Id(u64),
    Name(String),
}

/// A table: by id, or by its schema and its name.
#[derive(Clone, Debug, PartialEq, Eq)]
pub enum TableReference {
    Id(u64),
    Name(Reference, String),
}

pub fn parse(text: &str) -> Result<Reference, String> {
    match text.parse() {
        Ok(id) if text.bytes().all(|byte| byte.is_ascii_digit()) => Ok(Reference::Id(id)),
        _ => Ok(Reference::Name(unquoted(text).to_string())),
    }
}

/// `7`, `main.diary`, or `diary` in the schema main.
pub fn parse_table(text: &str) -> Result<TableReference, String> {
    match parse(text)? {
        Reference::Id(id) => Ok(TableReference::Id(id)),
        Reference::Name(_) => parse_new_table(text).map(|(schema, name)| TableReference::Name(schema, name)),
    }
}

/// The schema and the name of a table that is not there yet.
pub fn parse_new_table(text: &str) -> Result<(Reference, String), String> {
    match text.split_once('.') {
        None => Ok((Reference::Name("main".to_string()), unquoted(text).to_string())),
        Some((schema, name)) => Ok((parse(schema)?, unquoted(name).to_string())),
    }
}

fn unquoted(text: &str) -> &str {
    text.strip_prefix('"').and_then(|rest| rest.strip_suffix('"')).unwrap_or(text)
}

impl fmt::Display for Reference {
    fn fmt(&self, f: &mut fmt::Formatter<'_>) -> fmt::Result {
        match self {
            Reference::Id(id) => write!(f, "{id}"),
            Reference::Name(name) => write!(f, "{name}"),
        }
    }
}

impl fmt::Display for TableReference {
    fn fmt(&self, f: &mut fmt::Formatter<'_>) -> fmt::Result {
        match self {
            TableReference::Id(id) => write!(f, "{id}"),
            TableReference::Name(schema, name) => write!(f, "{schema}.{name}"),
        }
    }
}

#[cfg(test)]
mod tests {
    use super::{parse_table, Reference, TableReference};

    #[test]
    fn tables() {
        let named = |schema: &str, name: &str| Ok(TableReference::Name(Reference::Name(schema.to_string()), name.to_string()));
        assert_eq!(parse_table("7"), Ok(TableReference::Id(7)));
        assert_eq!(parse_table("diary"), named("main", "diary"));
        assert_eq!(parse_table("shop.diary"), named("shop", "diary"));
        assert_eq!(parse_table("shop.7"), named("shop", "7"));
        assert_eq!(parse_table("\"7\""), named("main", "7"));
        assert_eq!(parse_table("0.diary"), Ok(TableReference::Name(Reference::Id(0), "diary".to_string())));
        assert_eq!(parse_table(""), named("main", ""));
        assert_eq!(parse_table("99999999999999999999"), named("main", "99999999999999999999"));
    }
}
