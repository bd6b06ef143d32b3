//! Days and times as people write them, in UTC: no table of zones is needed, and the words are the same everywhere.
use std::time::{SystemTime, UNIX_EPOCH};

const DAY: u64 = 86400;
const SECOND: u64 = 1_000_000_000;

/// The date of a day, counted from 1970-01-01: year, month, day.
fn date_of(days: u64) -> (u64, u64, u64) {
    // Counted from the first of March of the year 0, so that a leap day is the last of its year; 146,097 days are 400 years.
    let days = days + 719468;
    let (era, of_era) = (days / 146097, days % 146097);
    let year = (of_era - of_era / 1460 + of_era / 36524 - of_era / 146096) / 365;
    let of_year = of_era - (365 * year + year / 4 - year / 100);
    let month = (5 * of_year + 2) / 153;
    let day = of_year - (153 * month + 2) / 5 + 1;
    (400 * era + year + u64::from(month >= 10), if month < 10 { month + 3 } else { month - 9 }, day)
}

fn days_in(year: u64, month: u64) -> u64 {
    match month {
        2 if year.is_multiple_of(4) && (!year.is_multiple_of(100) || year.is_multiple_of(400)) => 29,
        2 => 28,
        4 | 6 | 9 | 11 => 30,
        _ => 31,
    }
}

/// Today's date by the machine's clock.
pub fn today() -> String {
    let seconds = SystemTime::now().duration_since(UNIX_EPOCH).map_or(0, |since| since.as_secs());
    let (year, month, day) = date_of(seconds / DAY);
    format!("{year:04}-{month:02}-{day:02}")
}

/// A time as records have it, in nanoseconds from 1970 on, to the second.
pub fn time_of(nanoseconds: u64) -> String {
    format!("{}Z", second_of(nanoseconds))
}

/// The same to the nanosecond.
pub fn exact_time_of(nanoseconds: u64) -> String {
    format!("{}.{:09}Z", second_of(nanoseconds), nanoseconds % SECOND)
}

fn second_of(nanoseconds: u64) -> String {
    let seconds = nanoseconds / SECOND;
    let ((year, month, day), rest) = (date_of(seconds / DAY), seconds % DAY);
    format!("{year:04}-{month:02}-{day:02}T{:02}:{:02}:{:02}", rest / 3600, rest / 60 % 60, rest % 60)
}

/// Whether a word is a date, as 2026-11-17.
pub fn is_date(word: &str) -> bool {
    let number = |part: &str| part.bytes().all(|byte| byte.is_ascii_digit()).then(|| part.parse::<u64>().ok()).flatten();
    match word.split('-').collect::<Vec<_>>()[..] {
        [year, month, day] if [year.len(), month.len(), day.len()] == [4, 2, 2] => match (number(year), number(month), number(day)) {
            (Some(year), Some(month @ 1..=12), Some(day)) => (1..=days_in(year, month)).contains(&day),
            _ => false,
        },
        _ => false,
    }
}

#[cfg(test)]
mod tests {
    use super::*;

    #[test]
    fn days_as_the_calendar_has_them() {
        for (days, date) in [
            (0, (1970, 1, 1)),
            (58, (1970, 2, 28)),
            (59, (1970, 3, 1)),
            (10957, (2000, 1, 1)),
            (11016, (2000, 2, 29)),
            (19782, (2024, 2, 29)),
            (20774, (2026, 11, 17)),
            (47541, (2100, 3, 1)),
        ] {
            assert_eq!(date_of(days), date);
        }
        let (mut year, mut month, mut day) = (1970, 1, 1);
        for days in 0..150000 {
            assert_eq!(date_of(days), (year, month, day));
            (year, month, day) = match (day == days_in(year, month), month) {
                (false, _) => (year, month, day + 1),
                (true, 12) => (year + 1, 1, 1),
                (true, _) => (year, month + 1, 1),
            };
        }
    }

    #[test]
    fn times_of_records() {
        assert_eq!(time_of(0), "1970-01-01T00:00:00Z");
        assert_eq!(exact_time_of(1_500_000_000_000_000_007), "2017-07-14T02:40:00.000000007Z");
        assert_eq!(time_of(u64::MAX), "2554-07-21T23:34:33Z");
    }

    #[test]
    fn dates_are_dates() {
        for word in ["2026-11-17", "2024-02-29", "0000-01-01"] {
            assert!(is_date(word), "{word}");
        }
        for word in ["", "2026-11", "2026-13-01", "2026-00-01", "2026-02-29", "2026-1-17", "+026-11-17", "2026-11-17 ", "2026-11-00", "<b>"]
        {
            assert!(!is_date(word), "{word}");
        }
    }
}
