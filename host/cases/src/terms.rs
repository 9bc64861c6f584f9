//! The terms that cases are written in, a small part of antt: numbers, quoted texts, names with arguments, `[]`, and
//! the operators of numbers and lists.

use std::iter::Peekable;
use std::slice::Iter;

/// A word, a bracket or a quoted text, and the line that it stands in.
#[derive(Clone, Debug)]
pub struct Token {
    pub line: usize,
    pub kind: Kind,
}

#[derive(Clone, Debug, PartialEq)]
pub enum Kind {
    Open,
    Close,
    Text(String),
    Word(String),
}

#[derive(Clone, Debug)]
pub enum Term {
    Number(u128),
    Text(String),
    Empty,
    /// a name with its arguments
    Named(String, Vec<Term>),
    Joined(Operator, Box<Term>, Box<Term>),
}

#[derive(Clone, Copy, Debug)]
pub enum Operator {
    Before,
    Append,
    Plus,
    Minus,
    Times,
    Power,
}

/// The tokens of some lines, each with its number. A remark has none.
pub fn tokens<'a>(lines: impl Iterator<Item = (usize, &'a str)>) -> Result<Vec<Token>, String> {
    let mut found = Vec::new();
    for (line, text) in lines {
        let mut rest = text.trim_start();
        while !rest.is_empty() && !rest.starts_with("--") {
            let (kind, after) = token(rest).ok_or_else(|| format!("{line}: a text that has no end, or an escape that is not known: {rest}"))?;
            found.push(Token { line, kind });
            rest = after.trim_start();
        }
    }
    Ok(found)
}

/// The first token of a line, and what comes after it.
fn token(line: &str) -> Option<(Kind, &str)> {
    let first = line.chars().next()?;
    let rest = &line[first.len_utf8()..];
    match first {
        '(' => Some((Kind::Open, rest)),
        ')' => Some((Kind::Close, rest)),
        '"' => text(rest),
        _ => {
            let end = line.find(|c: char| c.is_whitespace() || "()\"".contains(c)).unwrap_or(line.len());
            Some((Kind::Word(line[..end].to_string()), &line[end..]))
        }
    }
}

/// A text up to its closing quote, with the escapes that names and their faults need.
fn text(rest: &str) -> Option<(Kind, &str)> {
    let mut said = String::new();
    let mut characters = rest.char_indices();
    loop {
        match characters.next()? {
            (at, '"') => return Some((Kind::Text(said), &rest[at + 1..])),
            (_, '\\') => said.push(match characters.next()?.1 {
                '0' => '\0',
                'n' => '\n',
                quoted @ ('"' | '\\') => quoted,
                _ => return None,
            }),
            (_, plain) => said.push(plain),
        }
    }
}

/// Reads terms from tokens, one after another.
pub struct Reader<'a> {
    tokens: Peekable<Iter<'a, Token>>,
}

impl<'a> Reader<'a> {
    pub fn new(tokens: &'a [Token]) -> Reader<'a> {
        Reader { tokens: tokens.iter().peekable() }
    }

    /// The line of the next token, if there is one.
    pub fn line(&mut self) -> Option<usize> {
        self.tokens.peek().map(|token| token.line)
    }

    /// Takes a word if it is the next token.
    pub fn takes(&mut self, word: &str) -> bool {
        self.tokens.next_if(|token| matches!(&token.kind, Kind::Word(found) if found == word)).is_some()
    }

    /// A term, as far as it goes: `++`, `+` and `-` bind least and from the left.
    pub fn term(&mut self) -> Option<Term> {
        let mut left = self.list()?;
        loop {
            let operator = match () {
                _ if self.takes("++") => Operator::Append,
                _ if self.takes("+") => Operator::Plus,
                _ if self.takes("-") => Operator::Minus,
                _ => return Some(left),
            };
            left = joined(operator, left, self.list()?);
        }
    }

    fn list(&mut self) -> Option<Term> {
        let first = self.product()?;
        match self.takes("∷") {
            true => Some(joined(Operator::Before, first, self.list()?)),
            false => Some(first),
        }
    }

    fn product(&mut self) -> Option<Term> {
        let mut left = self.power()?;
        while self.takes("*") {
            left = joined(Operator::Times, left, self.power()?);
        }
        Some(left)
    }

    fn power(&mut self) -> Option<Term> {
        let base = self.applied()?;
        match self.takes("^") {
            true => Some(joined(Operator::Power, base, self.power()?)),
            false => Some(base),
        }
    }

    /// A name with all its arguments, or what takes none.
    fn applied(&mut self) -> Option<Term> {
        let mut head = self.atom()?;
        if let Term::Named(_, arguments) = &mut head {
            while let Some(argument) = self.atom() {
                arguments.push(argument);
            }
        }
        Some(head)
    }

    /// A number, a text, `[]`, a name or a term in brackets, if one comes next.
    pub fn atom(&mut self) -> Option<Term> {
        let is_operator = |word: &str| ["∷", "++", "+", "-", "*", "^", "="].contains(&word);
        let token = self.tokens.next_if(|token| match &token.kind {
            Kind::Word(word) => !is_operator(word),
            kind => *kind != Kind::Close,
        })?;
        match &token.kind {
            Kind::Text(text) => Some(Term::Text(text.clone())),
            Kind::Word(word) if word == "[]" => Some(Term::Empty),
            Kind::Word(word) => Some(number(word).map_or_else(|| Term::Named(word.clone(), Vec::new()), Term::Number)),
            Kind::Open | Kind::Close => {
                let term = self.term()?;
                self.tokens.next_if(|token| token.kind == Kind::Close).map(|_| term)
            }
        }
    }
}

fn joined(operator: Operator, left: Term, right: Term) -> Term {
    Term::Joined(operator, Box::new(left), Box::new(right))
}

/// A number in decimal or, after `0x`, in hexadecimal.
fn number(word: &str) -> Option<u128> {
    match word.strip_prefix("0x") {
        Some(digits) => u128::from_str_radix(digits, 16).ok(),
        None => word.parse().ok(),
    }
}
