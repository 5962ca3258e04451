//! The day of an archive: today, or what SOURCE_DATE_EPOCH says, by UTC.

use crate::failure::{Done, Failure};
use std::time::{SystemTime, UNIX_EPOCH};

const DAY: u64 = 86_400;

/// The last second whose year has four digits.
const LAST: u64 = 253_402_300_799;

/// As `Bagging-Date` has it: 2026-11-18.
pub fn today() -> Done<String> {
    let seconds = match std::env::var_os("SOURCE_DATE_EPOCH") {
        Some(text) => {
            let number = text.to_str().and_then(|text| text.parse().ok());
            number.filter(|n| *n <= LAST).ok_or_else(|| {
                Failure::new(format!(
                    "SOURCE_DATE_EPOCH is seconds since 1970, from 0 to {LAST}, and not `{}`",
                    text.to_string_lossy()
                ))
            })?
        }
        None => SystemTime::now()
            .duration_since(UNIX_EPOCH)
            .map_or(0, |since| since.as_secs().min(LAST)),
    };
    Ok(written(seconds))
}

fn written(seconds: u64) -> String {
    let mut days = seconds / DAY;
    let mut year = 1970;
    while days >= year_days(year) {
        days -= year_days(year);
        year += 1;
    }
    let mut month = 0;
    while days >= month_days(year, month) {
        days -= month_days(year, month);
        month += 1;
    }
    format!("{year:04}-{:02}-{:02}", month + 1, days + 1)
}

fn leap(year: u64) -> bool {
    year % 4 == 0 && (year % 100 != 0 || year % 400 == 0)
}

fn year_days(year: u64) -> u64 {
    365 + u64::from(leap(year))
}

fn month_days(year: u64, month: usize) -> u64 {
    let february = u64::from(month == 1 && leap(year));
    [31, 28, 31, 30, 31, 30, 31, 31, 30, 31, 30, 31][month] + february
}

/// Whether a text is a day as `today` writes it.
pub fn is_day(text: &str) -> bool {
    let parts: Vec<&str> = text.split('-').collect();
    let [year, month, day] = parts[..] else {
        return false;
    };
    let number = |text: &str, digits: usize| {
        let all = text.len() == digits && text.bytes().all(|b| b.is_ascii_digit());
        text.parse::<u64>().ok().filter(|_| all)
    };
    let (Some(year), Some(month), Some(day)) = (number(year, 4), number(month, 2), number(day, 2))
    else {
        return false;
    };
    (1..=12).contains(&month) && day >= 1 && day <= month_days(year, month as usize - 1)
}

#[cfg(test)]
mod tests {
    use super::{is_day, written, DAY, LAST};

    /// Days checked with `date -u -d @N +%F`.
    #[test]
    fn days() {
        for (seconds, day) in [
            (0, "1970-01-01"),
            (951_782_400, "2000-02-29"),
            (951_868_800, "2000-03-01"),
            (1_794_960_000, "2026-11-18"),
            (4_107_542_400, "2100-03-01"),
            (LAST, "9999-12-31"),
        ] {
            assert_eq!(written(seconds), day);
            assert!(is_day(day));
        }
        assert_eq!(written(DAY - 1), "1970-01-01");
        for text in [
            "2026-02-29",
            "2026-13-01",
            "2026-1-1",
            "2026-00-10",
            "today",
            "",
        ] {
            assert!(!is_day(text), "{text}");
        }
    }
}
