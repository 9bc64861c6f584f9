//! Lists of numbers: `0,1,5..9` is 0, 1 and 5 to 9, both ends included.

/// A list has at most so many numbers: as many as a file can have rows.
const MOST: u64 = 1 << 20;

/// A list that commas or spaces part. A range is written out, since the calls take lists.
pub fn parse_list(text: &str) -> Result<Vec<u64>, String> {
    let mut numbers = Vec::new();
    for piece in text.split([',', ' ']).filter(|piece| !piece.is_empty()) {
        let (first, last) = match piece.split_once("..") {
            None => (number(piece)?, number(piece)?),
            Some((first, last)) => (number(first)?, number(last)?),
        };
        if last < first {
            return Err(format!("{piece} is no range from a lower to a higher number"));
        }
        if last - first >= MOST - numbers.len() as u64 {
            return Err(format!("with {piece} the list has more than {MOST} numbers"));
        }
        numbers.extend(first..=last);
    }
    Ok(numbers)
}

pub fn number(text: &str) -> Result<u64, String> {
    text.parse().map_err(|_| format!("'{text}' is no number from 0 to 2^64 - 1"))
}

/// A number in these bounds.
pub fn between(text: &str, low: u64, high: u64) -> Result<u64, String> {
    text.parse().ok().filter(|number| (low..=high).contains(number)).ok_or_else(|| format!("'{text}' is no number from {low} to {high}"))
}

#[cfg(test)]
mod tests {
    #[test]
    fn lists() {
        assert_eq!(super::parse_list("0,1,5..7 9"), Ok(vec![0, 1, 5, 6, 7, 9]));
        assert_eq!(super::parse_list(""), Ok(vec![]));
        for bad in ["x", "3..1", "0..99999999999", "..", "-1", "1..2..3", "0..18446744073709551615", "18446744073709551616"] {
            assert!(super::parse_list(bad).is_err(), "{bad}");
        }
        // a million and some in all, and not one more
        assert_eq!(super::parse_list("1..1048575,0").map(|list| list.len()), Ok(1 << 20));
        for bad in ["0..1048576", "0..1048575,7", "0..600000,0..600000"] {
            assert!(super::parse_list(bad).is_err(), "{bad}");
        }
    }
}
