//! Times of a record, microseconds since 1970 began, as dates.
use carolsedge::Unit;

/// `2026-11-15 22:35:27.123456`, in UTC.
pub fn date(time: u64) -> String {
    let (seconds, fraction) = (time / 1_000_000, time % 1_000_000);
    let (days, second) = (seconds / 86_400, seconds % 86_400);
    let (year, month, day) = civil(days);
    let (hour, minute, second) = (second / 3_600, second / 60 % 60, second % 60);
    format!("{year:04}-{month:02}-{day:02} {hour:02}:{minute:02}:{second:02}.{fraction:06}")
}

/// When units came, to the second: `2026-11-15 22:35:27 to 22:35:30 UTC`.
pub fn span(units: impl Iterator<Item = Unit>) -> String {
    let (first, last) = units.fold((u64::MAX, 0), |(first, last), u| (first.min(u.least), last.max(u.greatest)));
    let [first, last] = [first, last].map(date);
    let second = |date: &str| date.split('.').next().unwrap_or_default().to_string();
    let (first, last) = (second(&first), second(&last));
    let same_day = first.split(' ').next() == last.split(' ').next();
    let end = if same_day { last.split(' ').nth(1).unwrap_or_default() } else { &last };
    format!("{first} to {end} UTC")
}

/// Year, month and day of so many days behind 1970-01-01, by the Gregorian calendar. Years are counted from March on,
/// so that a leap day is the last of its year.
fn civil(days: u64) -> (u64, u64, u64) {
    let days = days + 719_468;
    let (era, of_era) = (days / 146_097, days % 146_097);
    let year = (of_era - of_era / 1_460 + of_era / 36_524 - of_era / 146_096) / 365;
    let of_year = of_era - (365 * year + year / 4 - year / 100);
    let month = (5 * of_year + 2) / 153;
    let day = of_year - (153 * month + 2) / 5 + 1;
    let month = if month < 10 { month + 3 } else { month - 9 };
    (400 * era + year + u64::from(month <= 2), month, day)
}

/// Seconds with six places.
pub fn seconds(time: u64) -> String {
    format!("{}.{:06}", time / 1_000_000, time % 1_000_000)
}
