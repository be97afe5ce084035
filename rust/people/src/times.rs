//! Reads times that lldpa-live writes.

use crate::show::Read;
use crate::texts::quoted;

const SECONDS_OF_A_DAY: i64 = 86_400;

/// Converts a time like `2026-11-23T19:40:00Z` to seconds since 1970.
pub fn seconds_of(text: &str) -> Read<i64> {
    read(text).ok_or_else(|| format!("not a time such as 2026-11-23T19:40:00Z: {}", quoted(text)))
}

fn read(text: &str) -> Option<i64> {
    let is_digit = |place: usize| !matches!(place, 4 | 7 | 10 | 13 | 16 | 19);
    let is_able = |(place, octet): (usize, u8)| octet.is_ascii_digit() == is_digit(place);
    let has_form = text.len() == 20 && text.bytes().enumerate().all(is_able);
    let marks = [4, 7, 10, 13, 16, 19].map(|place| text.as_bytes().get(place).copied().unwrap_or(0));
    if !has_form || &marks != b"--T::Z" {
        return None;
    }
    let number = |begin: usize, length: usize| text[begin..begin + length].parse::<i64>().ok();
    let (year, month, day) = (number(0, 4)?, number(5, 2)?, number(8, 2)?);
    let (hour, minute, second) = (number(11, 2)?, number(14, 2)?, number(17, 2)?);
    let is_time = hour < 24 && minute < 60 && second < 60;
    let is_date = year > 0 && (1..=12).contains(&month) && (1..=days_in(year, month)).contains(&day);
    let days = days_before(year, month) + day - 1;
    (is_time && is_date).then(|| days * SECONDS_OF_A_DAY + hour * 3600 + minute * 60 + second)
}

fn is_leap(year: i64) -> bool {
    year % 4 == 0 && (year % 100 != 0 || year % 400 == 0)
}

fn days_in(year: i64, month: i64) -> i64 {
    match month {
        2 => 28 + i64::from(is_leap(year)),
        4 | 6 | 9 | 11 => 30,
        _ => 31,
    }
}

/// Returns the days from 1970 to the first day of a month.
fn days_before(year: i64, month: i64) -> i64 {
    let years = year - 1;
    let leap_days = |years: i64| years / 4 - years / 100 + years / 400;
    let before = 365 * (year - 1970) + leap_days(years) - leap_days(1969);
    before + (1..month).map(|month| days_in(year, month)).sum::<i64>()
}

#[cfg(test)]
mod tests {
    use super::*;

    #[test]
    fn times_are_seconds_since_1970() {
        for (text, seconds) in [
            ("1970-01-01T00:00:00Z", Some(0)),
            ("2026-11-25T09:30:00Z", Some(1_795_599_000)),
            ("2000-02-29T23:59:59Z", Some(951_868_799)),
            ("1969-12-31T23:59:59Z", Some(-1)),
            ("0001-01-01T00:00:00Z", Some(-62_135_596_800)),
            ("2026-13-01T00:00:00Z", None),
            ("2026-02-29T00:00:00Z", None),
            ("2026-01-00T00:00:00Z", None),
            ("2026-01-01T24:00:00Z", None),
            ("2026-01-01T00:00:60Z", None),
            ("2026-01-01 00:00:00Z", None),
            ("2026-01-01T00:00:00z", None),
            ("+026-01-01T00:00:00Z", None),
            ("now", None),
            ("", None),
        ] {
            assert_eq!(seconds_of(text).ok(), seconds, "{text}");
        }
    }
}
