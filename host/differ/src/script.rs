//! Lists of calls as text, a line each; conformance/README.md says how to read them.

use crate::runs::{FIRST_NAMES, RUNS};
use crate::step::{self, Argument, Step};
use second::lent::NAME_SIZE;
use std::fmt::{self, Display, Formatter};

#[derive(Clone, Debug, PartialEq, Eq)]
pub enum Line {
    /// A run of so many words, all of them the same.
    Lend {
        run: usize,
        length: usize,
        fill: u64,
    },
    Set {
        run: usize,
        index: usize,
        value: u64,
    },
    Counts([u64; 9]),
    /// The answer area of each call from here on.
    Area {
        length: usize,
        fill: u64,
    },
    Step(Step),
    /// What the call before must give: number, place, length, counts, answer.
    Given(Vec<u64>),
    /// The checksum of all runs and of the answer area after it.
    Sum(u64),
}

impl Display for Line {
    fn fmt(&self, f: &mut Formatter<'_>) -> fmt::Result {
        match self {
            Line::Lend { run, length, fill: 0 } => write!(f, "lend {} {length}", RUNS[*run]),
            Line::Lend { run, length, fill } => write!(f, "lend {} {length} {fill}", RUNS[*run]),
            Line::Set { run, index, value } if *run < FIRST_NAMES => write!(f, "set {} {index} {value}", RUNS[*run]),
            Line::Set { run, index, value } => write!(f, "set {} {index} x{value:02x}", RUNS[*run]),
            Line::Counts(counts) => write!(f, "counts{}", spaced(counts)),
            Line::Area { length, fill: 0 } => write!(f, "area {length}"),
            Line::Area { length, fill } => write!(f, "area {length} {fill}"),
            Line::Step(step) => {
                f.write_str(step::name(step))?;
                step::arguments(step).iter().try_for_each(|argument| write!(f, " {argument}"))
            }
            Line::Given(words) => write!(f, "={}", spaced(words)),
            Line::Sum(sum) => write!(f, "sum {sum:016x}"),
        }
    }
}

fn spaced(words: &[u64]) -> String {
    words.iter().map(|word| format!(" {word}")).collect()
}

impl Display for Argument {
    fn fmt(&self, f: &mut Formatter<'_>) -> fmt::Result {
        match self {
            Argument::Word(word) => write!(f, "{word}"),
            Argument::Words(words) => write!(f, "[{}]", spaced(words).trim_start()),
            Argument::Name(name) => f.write_str(&bytes_text(name)),
            Argument::Places(places) => write!(f, "[{}]", places_text(places).join(" ")),
        }
    }
}

fn is_plain(byte: u8) -> bool {
    byte.is_ascii_alphanumeric() || byte == b'_'
}

/// A name as it is, where it is letters, digits and underscores and does not read as hexadecimal; other bytes as `x` and hexadecimal.
fn bytes_text(bytes: &[u8]) -> String {
    let plain: String = bytes.iter().map(|byte| char::from(*byte)).collect();
    match !bytes.is_empty() && bytes.iter().all(|byte| is_plain(*byte)) && hexadecimal(&plain).is_none() {
        true => plain,
        false => hexadecimal_text(bytes),
    }
}

fn hexadecimal_text(bytes: &[u8]) -> String {
    bytes.iter().fold("x".to_string(), |text, byte| text + &format!("{byte:02x}"))
}

/// Name places one after another: one that is a plain name filled with zeros by its name, any other as hexadecimal.
fn places_text(places: &[u8]) -> Vec<String> {
    let text = |place: &[u8]| {
        let name: &[u8] = place.split(|byte| *byte == 0).next().unwrap_or(&[]);
        let is_filled = place.len() == NAME_SIZE && place[name.len()..].iter().all(|byte| *byte == 0);
        match is_filled && !name.is_empty() && name.iter().all(|byte| is_plain(*byte)) {
            true => bytes_text(name),
            false => hexadecimal_text(place),
        }
    };
    places.chunks(NAME_SIZE).map(text).collect()
}

/// The lines as text, with words that are set one after another on one line.
pub fn text(lines: &[Line]) -> String {
    let follows = |one: &Line, next: &Line| match (one, next) {
        (Line::Set { run, index, .. }, Line::Set { run: next_run, index: next, .. }) => run == next_run && index + 1 == *next,
        _ => false,
    };
    let mut text = String::new();
    for same in lines.chunk_by(follows) {
        text += &same[0].to_string();
        for line in &same[1..] {
            if let Line::Set { run, value, .. } = line {
                text += &if *run < FIRST_NAMES { format!(" {value}") } else { format!("{value:02x}") };
            }
        }
        text += "\n";
    }
    text
}

/// The lines of a text, up to a `#`, with their numbers; an error has the number too.
pub fn parse(text: &str) -> Result<Vec<(usize, Line)>, String> {
    let mut lines = Vec::new();
    for (at, line) in text.lines().enumerate() {
        let line = line.split_once('#').map_or(line, |(before, _)| before).trim();
        if !line.is_empty() {
            let parsed = parse_line(line).ok_or_else(|| format!("{}: no line of a list: {line}", at + 1))?;
            lines.extend(parsed.into_iter().map(|line| (at + 1, line)));
        }
    }
    Ok(lines)
}

fn parse_line(line: &str) -> Option<Vec<Line>> {
    let (first, rest) = line.split_once(' ').unwrap_or((line, ""));
    let words: Vec<&str> = rest.split_whitespace().collect();
    let number = |i: usize| words.get(i)?.parse::<u64>().ok();
    let run = || RUNS.iter().position(|run| words.first() == Some(run));
    let or_zero = |i: usize| if words.len() > i { number(i) } else { Some(0) };
    Some(vec![match first {
        "lend" if words.len() <= 3 => Line::Lend { run: run()?, length: number(1)? as usize, fill: or_zero(2)? },
        "set" => return set(run()?, number(1)? as usize, words.get(2..)?),
        "counts" => Line::Counts(numbers(&words)?.try_into().ok()?),
        "area" if words.len() <= 2 => Line::Area { length: number(0)? as usize, fill: or_zero(1)? },
        "=" => Line::Given(numbers(&words)?),
        "sum" if words.len() == 1 => Line::Sum(u64::from_str_radix(words[0], 16).ok()?),
        _ => Line::Step(step::of(first, arguments(first, rest)?)?),
    }])
}

/// Words, or the bytes of texts, from an index on.
fn set(run: usize, index: usize, values: &[&str]) -> Option<Vec<Line>> {
    let values = match run < FIRST_NAMES {
        true => numbers(values)?,
        false => values.iter().flat_map(|text| bytes_of(text)).map(u64::from).collect(),
    };
    Some(values.into_iter().enumerate().map(|(at, value)| Line::Set { run, index: index + at, value }).collect())
}

fn numbers(words: &[&str]) -> Option<Vec<u64>> {
    words.iter().map(|word| word.parse().ok()).collect()
}

/// The arguments of a call: words and names as its places have them, lists in brackets; the names of columns are the second list.
fn arguments(call: &str, text: &str) -> Option<Vec<Argument>> {
    let mut found = Vec::new();
    let mut lists = 0;
    let mut rest = text.trim_start();
    while !rest.is_empty() {
        if let Some(list) = rest.strip_prefix('[') {
            let (inner, after) = list.split_once(']')?;
            let words: Vec<&str> = inner.split_whitespace().collect();
            lists += 1;
            found.push(if lists == 2 { Argument::Places(words.into_iter().flat_map(place_of).collect()) } else { Argument::Words(numbers(&words)?) });
            rest = after;
        } else {
            let (word, after) = rest.split_once(' ').unwrap_or((rest, ""));
            let is_name = step::place_of_name(call) == Some(found.len());
            found.push(if is_name { Argument::Name(bytes_of(word)) } else { Argument::Word(word.parse().ok()?) });
            rest = after;
        }
        rest = rest.trim_start();
    }
    Some(found)
}

/// `x` and pairs of hexadecimal digits.
fn hexadecimal(word: &str) -> Option<Vec<u8>> {
    let digits = word.strip_prefix('x')?;
    if digits.len() % 2 != 0 {
        return None;
    }
    let pair = |at: usize| digits.get(at..at + 2).filter(|pair| pair.bytes().all(|digit| digit.is_ascii_hexdigit()));
    (0..digits.len()).step_by(2).map(|at| u8::from_str_radix(pair(at)?, 16).ok()).collect()
}

fn bytes_of(word: &str) -> Vec<u8> {
    hexadecimal(word).unwrap_or_else(|| word.as_bytes().to_vec())
}

/// A name place: text is filled with zeros to 32 bytes, hexadecimal is taken as it is.
fn place_of(word: &str) -> Vec<u8> {
    hexadecimal(word).unwrap_or_else(|| {
        let mut bytes = word.as_bytes().to_vec();
        bytes.resize(bytes.len().max(NAME_SIZE), 0);
        bytes
    })
}
