//! The words of a script's line, and what they are read as.

use gukoremo::number::{ABSENT, NAME_SIZE};
use std::io;

/// Why a line is not played.
pub enum Fault {
    Wrong(String),
    Output(io::Error),
}

impl From<String> for Fault {
    fn from(why: String) -> Fault {
        Fault::Wrong(why)
    }
}

impl From<io::Error> for Fault {
    fn from(error: io::Error) -> Fault {
        Fault::Output(error)
    }
}

/// A word of a line, or a list in brackets.
#[derive(Debug, PartialEq, Eq)]
pub enum Word<'a> {
    One(&'a str),
    List(Vec<&'a str>),
}

/// The words up to a `#`. Brackets are words of their own and do not nest.
pub fn words(line: &str) -> Result<Vec<Word<'_>>, String> {
    let line = line.split_once('#').map_or(line, |(before, _)| before);
    let mut words = Vec::new();
    let mut list: Option<Vec<&str>> = None;
    for piece in line.split_whitespace() {
        for part in parts(piece) {
            match (part, &mut list) {
                ("[", None) => list = Some(Vec::new()),
                ("[", Some(_)) => return Err("a list stands within a list".to_string()),
                ("]", _) => words.push(Word::List(list.take().ok_or("a list ends that did not begin")?)),
                (part, Some(list)) => list.push(part),
                (part, None) => words.push(Word::One(part)),
            }
        }
    }
    match list {
        None => Ok(words),
        Some(_) => Err("a list does not end".to_string()),
    }
}

/// A piece without spaces, cut at its brackets.
fn parts(piece: &str) -> impl Iterator<Item = &str> {
    piece.split_inclusive(['[', ']']).flat_map(|part| {
        let cut = part.len() - usize::from(part.ends_with(['[', ']']));
        [&part[..cut], &part[cut..]].into_iter().filter(|part| !part.is_empty())
    })
}

/// The arguments of a line, taken one after the other.
pub struct Arguments<'a> {
    pub command: &'a str,
    pub rest: std::slice::Iter<'a, Word<'a>>,
}

impl<'a> Arguments<'a> {
    fn one(&mut self, what: &str) -> Result<&'a str, String> {
        match self.rest.next() {
            Some(Word::One(word)) => Ok(word),
            Some(Word::List(_)) => Err(format!("{} has a list where {what} should stand", self.command)),
            None => Err(format!("{} lacks {what}", self.command)),
        }
    }

    pub fn text(&mut self, what: &str) -> Result<&'a str, String> {
        self.one(what)
    }

    pub fn word(&mut self, what: &str) -> Result<u64, String> {
        word(self.one(what)?)
    }

    /// A length or a count: any word, as far as this machine has such.
    pub fn size(&mut self, what: &str) -> Result<usize, String> {
        usize::try_from(self.word(what)?).map_err(|_| format!("{what} is above what this machine has"))
    }

    pub fn name(&mut self, what: &str) -> Result<Vec<u8>, String> {
        Ok(bytes(self.one(what)?))
    }

    fn list(&mut self, what: &str) -> Result<&'a [&'a str], String> {
        match self.rest.next() {
            Some(Word::List(list)) => Ok(list),
            Some(Word::One(word)) => Err(format!("{} has '{word}' where the list of {what} should begin with [", self.command)),
            None => Err(format!("{} lacks the list of {what}", self.command)),
        }
    }

    pub fn words(&mut self, what: &str) -> Result<Vec<u64>, String> {
        self.list(what)?.iter().map(|text| word(text)).collect()
    }

    /// Name places: text filled with zero bytes, hexadecimal as it is.
    pub fn places(&mut self, what: &str) -> Result<Vec<u8>, String> {
        let place = |text: &&str| match hexadecimal(text) {
            Some(bytes) => bytes,
            None => {
                let mut bytes = text.as_bytes().to_vec();
                bytes.resize(bytes.len().max(NAME_SIZE), 0);
                bytes
            }
        };
        Ok(self.list(what)?.iter().flat_map(place).collect())
    }

    pub fn end(&mut self) -> Result<(), String> {
        match self.rest.next() {
            None => Ok(()),
            Some(_) => Err(format!("{} has more words than it takes", self.command)),
        }
    }
}

/// A word of 64 bits.
pub fn word(text: &str) -> Result<u64, String> {
    let read = match text.strip_prefix("0x") {
        Some(digits) if !digits.starts_with('+') => u64::from_str_radix(digits, 16).ok(),
        _ if text == "absent" => Some(ABSENT),
        _ if text.starts_with('-') => text.parse::<i64>().ok().map(|number| number as u64),
        _ if text.starts_with('+') => None,
        _ => text.parse().ok(),
    };
    read.ok_or_else(|| format!("'{text}' is no word of 64 bits"))
}

/// The bytes of a name.
pub fn bytes(text: &str) -> Vec<u8> {
    hexadecimal(text).unwrap_or_else(|| text.as_bytes().to_vec())
}

/// `x` and pairs of hexadecimal digits.
fn hexadecimal(text: &str) -> Option<Vec<u8>> {
    let digits = text.strip_prefix('x')?.as_bytes();
    if digits.len() % 2 != 0 {
        return None;
    }
    let digit = |byte: u8| (byte as char).to_digit(16).map(|digit| digit as u8);
    digits.chunks_exact(2).map(|pair| Some(digit(pair[0])? << 4 | digit(pair[1])?)).collect()
}

#[cfg(test)]
mod tests {
    use super::{bytes, word, words, Word};

    #[test]
    fn lines() {
        assert_eq!(words("a [1 2][]b # c"), Ok(vec![Word::One("a"), Word::List(vec!["1", "2"]), Word::List(vec![]), Word::One("b")]));
        assert_eq!(words("  "), Ok(vec![]));
        for bad in ["[", "]", "[[]]", "a [1"] {
            assert!(words(bad).is_err(), "{bad}");
        }
    }

    #[test]
    fn values() {
        assert_eq!([word("0x10"), word("-1"), word("absent")], [Ok(16), Ok(u64::MAX), Ok(u64::MAX)]);
        for bad in ["", "+1", "0x", "0x+1", "1x", "18446744073709551616", "-9223372036854775809"] {
            assert!(word(bad).is_err(), "{bad}");
        }
        assert_eq!([bytes("x"), bytes("x0aFF"), bytes("x0"), bytes("xy")], [vec![], vec![10, 255], b"x0".to_vec(), b"xy".to_vec()]);
    }
}
