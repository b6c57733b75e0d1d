//! Days as dates of the calendar.

/// So many days from 1970-01-01 on have a date; the last is 9999-12-31.
pub const DATED: u32 = 2_932_897;

fn is_leap(year: u32) -> bool {
    year % 400 == 0 || year % 4 == 0 && year % 100 != 0
}

fn days_of_month(year: u32, month: u32) -> u32 {
    match month {
        2 if is_leap(year) => 29,
        2 => 28,
        4 | 6 | 9 | 11 => 30,
        _ => 31,
    }
}

/// The date of a day: years and then months are counted up from 1970-01-01.
pub fn date_of(day: u32) -> String {
    let (mut year, mut month, mut left) = (1970, 1, day);
    while left >= 365 + u32::from(is_leap(year)) {
        left -= 365 + u32::from(is_leap(year));
        year += 1;
    }
    while left >= days_of_month(year, month) {
        left -= days_of_month(year, month);
        month += 1;
    }
    format!("{:04}-{:02}-{:02}", year, month, left + 1)
}
