//! Today's date.

use std::time::{SystemTime, UNIX_EPOCH};

/// The date in UTC, as year, month and day.
pub fn today() -> String {
    let elapsed = SystemTime::now().duration_since(UNIX_EPOCH).unwrap_or_default();
    date(elapsed.as_secs() / 86_400)
}

/// The date of a day, counted from 1970-01-01.
fn date(mut day: u64) -> String {
    let mut year = 1970;
    while day >= 365 + leap(year) {
        day -= 365 + leap(year);
        year += 1;
    }
    let mut month = 1;
    for length in [31, 28 + leap(year), 31, 30, 31, 30, 31, 31, 30, 31, 30] {
        if day < length {
            break;
        }
        day -= length;
        month += 1;
    }
    format!("{year}-{month:02}-{:02}", day + 1)
}

/// The days that a year has over 365.
fn leap(year: u64) -> u64 {
    u64::from(year % 4 == 0 && year % 100 != 0 || year % 400 == 0)
}

#[cfg(test)]
mod tests {
    #[test]
    fn dates() {
        for (day, date) in [
            (0, "1970-01-01"),
            (58, "1970-02-28"),
            (364, "1970-12-31"),
            (11_016, "2000-02-29"),
            (20_772, "2026-11-15"),
        ] {
            assert_eq!(super::date(day), date);
        }
    }
}
