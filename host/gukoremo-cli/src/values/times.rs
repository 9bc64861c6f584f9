//! Times: microseconds since 1970 as a number, RFC 3339, or a date alone.

use chrono::format::ParseErrorKind;
use chrono::DateTime;
use std::time::{SystemTime, UNIX_EPOCH};

const SECOND: u64 = 1_000_000;
pub const DAY: u64 = 86_400 * SECOND;

/// The clock's time, in microseconds since 1970.
pub fn now() -> u64 {
    SystemTime::now().duration_since(UNIX_EPOCH).map_or(0, |since| since.as_micros() as u64)
}

pub fn parse(text: &str) -> Result<u64, String> {
    if text == "now" {
        return Ok(now());
    }
    if !text.is_empty() && text.bytes().all(|byte| byte.is_ascii_digit()) {
        return text.parse().map_err(|_| format!("{text} is above 2^64 - 1 microseconds"));
    }
    // a date is its midnight, and a space is as good as a T
    let midnight = format!("{text}T00:00:00Z");
    let text = if text.len() == 10 { midnight } else { text.replacen(' ', "T", 1) };
    let moment = DateTime::parse_from_rfc3339(&text).map_err(|error| match error.kind() {
        ParseErrorKind::OutOfRange | ParseErrorKind::Impossible => "there is no such day or time of day".to_string(),
        _ => {
            let forms = "microseconds since 1970, such as 110, RFC 3339, such as 2026-11-16T09:30:00Z, a date, such as 2026-11-16, or now";
            format!("a time is {forms}")
        }
    })?;
    // a leap second has more than a second's
    match moment.timestamp_subsec_nanos() {
        1_000_000_000.. => Err("there is no such day or time of day".to_string()),
        nanos if nanos % 1_000 != 0 => Err("a time has at most six digits of a second, which are microseconds".to_string()),
        _ => u64::try_from(moment.timestamp_micros()).map_err(|_| "a time is in 1970 or later".to_string()),
    }
}

/// Year, month and day of a day since 1970. Years are counted from March, so that the day more of a leap year is the last. Any word of 64 bits is a time and has a date,
/// where chrono ends at the year 262142.
fn date(days: u64) -> (u64, u64, u64) {
    let days = days + 719_468;
    let era = days / 146_097;
    let of_era = days % 146_097;
    let year = (of_era - of_era / 1_460 + of_era / 36_524 - of_era / 146_096) / 365;
    let of_year = of_era - (365 * year + year / 4 - year / 100);
    let month = (5 * of_year + 2) / 153;
    let day = of_year - (153 * month + 2) / 5 + 1;
    let (month, next) = if month < 10 { (month + 3, 0) } else { (month - 9, 1) };
    (400 * era + year + next, month, day)
}

/// A time as date and time of day, with this between them and this at the end. Years above 9999 have more digits.
pub fn show(time: u64, between: char, zone: &str) -> String {
    let (year, month, day) = date(time / DAY);
    let second = time % DAY / SECOND;
    let micros = time % SECOND;
    let (hour, minute, second) = (second / 3600, second / 60 % 60, second % 60);
    format!("{year:04}-{month:02}-{day:02}{between}{hour:02}:{minute:02}:{second:02}.{micros:06}{zone}")
}

/// A time as it is given and as a date.
pub fn both(time: u64) -> String {
    format!("{time} ({})", rfc(time))
}

/// A time in RFC 3339.
pub fn rfc(time: u64) -> String {
    show(time, 'T', "Z")
}

#[cfg(test)]
mod tests {
    use super::{parse, rfc};

    #[test]
    fn there_and_back() {
        for time in [0, 110, 951_782_400_000_000, 951_868_799_999_999, 4_102_444_800_000_000, 253_402_300_799_999_999] {
            assert_eq!(parse(&rfc(time)), Ok(time));
        }
        assert_eq!(rfc(951_782_400_000_000), "2000-02-29T00:00:00.000000Z");
        assert_eq!(rfc(u64::MAX), "586524-01-19T08:01:49.551615Z");
        for day in 0..200_000 {
            assert_eq!(parse(&rfc(day * super::DAY)), Ok(day * super::DAY));
        }
    }

    #[test]
    fn forms() {
        assert_eq!(parse("1970-01-01T01:00:00.5+01:00"), Ok(500_000));
        assert_eq!(parse("1970-01-01 00:00:01z"), Ok(1_000_000));
        assert_eq!(parse("1970-01-01T00:00:00-00:30"), Ok(1_800_000_000));
        assert_eq!(parse("1970-01-01t12:00:00.000001000-05:45"), Ok(63_900_000_001));
        assert_eq!(parse("18446744073709551615"), Ok(u64::MAX));
        assert_eq!(parse("1970-01-02"), Ok(super::DAY));
        assert_eq!(parse("2026-11-17").map(rfc), Ok("2026-11-17T00:00:00.000000Z".to_string()));
        for bad in [
            "",
            "-1",
            "18446744073709551616",
            "1970-02-30T00:00:00Z",
            "1969-12-31T23:59:59Z",
            "2026-11-31",
            "2026-13-01",
            "2026-11-1",
            "2026/11/16",
            "2026-11-16Z",
            "2026-11-16T09:30:00",
            "1970-01-01T00:00:00.1234567Z",
            "1970-01-01T00:00:00.Z",
            "1970-01-01T00:00:00+1:00",
            "1970-01-01T00:00:00+24:00",
            "1972-06-30T23:59:60Z",
            "1972-06-30T24:00:00Z",
            "1972-06-30T23:59:59Z ",
            " 1972-06-30T23:59:59Z",
            "1972-06-30T23:59:59 Z",
            "+1972-06-30T23:59:59Z",
            "1972-6-30T23:59:59Z",
            "é970-01-01T00:00:00Z",
        ] {
            assert!(parse(bad).is_err(), "{bad}");
        }
    }
}
