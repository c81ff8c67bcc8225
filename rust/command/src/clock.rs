//! Times: as records hold them, and as a person writes them.
//!
//! A record's time is a number of the recording's unit, nanoseconds if no other is named. Below
//! 1,000,000 seconds it counts from midnight, else from 1970 (UTC), and is shown with its date.

use crate::fault::Fault;

const SECOND: u128 = 1_000_000_000;
const DAY: u128 = 86_400 * SECOND;
/// A larger time counts from 1970.
const SINCE_MIDNIGHT: u128 = 1_000_000 * SECOND;

/// How a recording counts its time.
#[derive(Clone, Copy, PartialEq, Eq, Debug)]
pub struct Clock {
    /// Nanoseconds of the unit.
    unit: u128,
    /// Seconds by which the clock on the wall is ahead of UTC.
    zone: i64,
    /// A time of the recording: its day is meant where none is named.
    some: u64,
}

impl Clock {
    /// A unit (ns, us, ms, s), a zone such as -05:00, and a time of the recording.
    pub fn new(unit: Option<&str>, zone: Option<&str>, some: u64) -> Result<Clock, Fault> {
        let unit = match unit.unwrap_or("ns") {
            "ns" => 1,
            "us" => 1_000,
            "ms" => 1_000_000,
            "s" => SECOND,
            other => return Fault::usage(format!("--unit {other}: ns, us, ms or s")),
        };
        let zone = match zone {
            None => 0,
            Some(text) => match seconds_of_zone(text) {
                Some(seconds) => seconds,
                None => return Fault::usage(format!("--zone {text}: as -05:00")),
            },
        };
        Ok(Clock { unit, zone, some })
    }

    /// Nanoseconds of the clock on the wall, since midnight or since 1970.
    fn wall(&self, time: u64) -> (bool, u128) {
        let nanoseconds = u128::from(time) * self.unit;
        if nanoseconds < SINCE_MIDNIGHT {
            return (false, nanoseconds);
        }
        let zone = i128::from(self.zone) * SECOND as i128;
        (true, nanoseconds.saturating_add_signed(zone))
    }

    /// As 09:30:00.123456789, and of a time since 1970 its date before.
    pub fn show(&self, time: u64) -> String {
        let (has_date, wall) = self.wall(time);
        if !has_date {
            return time_of_day(wall);
        }
        let (year, month, day) = date((wall / DAY) as i64);
        format!("{year}-{month:02}-{day:02} {}", time_of_day(wall % DAY))
    }

    /// A message's timestamp, which counts nanoseconds whatever the recording's unit is.
    pub fn show_stamp(&self, stamp: u64) -> String {
        let nanoseconds = Clock { unit: 1, ..*self };
        nanoseconds.show(stamp)
    }

    /// The time of day alone, to the second.
    pub fn show_short(&self, nanoseconds: u128) -> String {
        let text = time_of_day(nanoseconds % DAY);
        text[..8].to_string()
    }

    /// The time of day alone, to the millisecond.
    pub fn show_fine(&self, nanoseconds: u128) -> String {
        let text = time_of_day(nanoseconds % DAY);
        text[..12].to_string()
    }

    /// Nanoseconds since the midnight of the recording's day, for a picture.
    pub fn of_day(&self, time: u64) -> u128 {
        let (has_date, wall) = self.wall(time);
        if has_date {
            let midnight = self.wall(self.some).1 / DAY * DAY;
            wall.saturating_sub(midnight)
        } else {
            wall
        }
    }

    /// The last time of a record that is not behind what the text says: 09:30, 09:30:00.5,
    /// 2026-11-17 09:30, or the number as records hold it.
    pub fn parse(&self, text: &str) -> Result<u64, Fault> {
        let parsed = if text.contains(':') {
            self.parse_wall(text)
        } else {
            text.parse().ok()
        };
        parsed.ok_or_else(|| {
            Fault::Usage(format!(
                "{text} is no time: as 09:30, 09:30:00.123456789 or 2026-11-17 09:30"
            ))
        })
    }

    fn parse_wall(&self, text: &str) -> Option<u64> {
        let (day, time) = match text.split_once([' ', 'T']) {
            Some((day, time)) => (Some(day_of_date(day)?), time),
            None => (None, text),
        };
        let time = nanoseconds_of_day(time)?;
        let (has_date, some) = self.wall(self.some);
        let wall = match (has_date, day) {
            (false, None) => return u64::try_from(time / self.unit).ok(),
            (false, Some(_)) => return None,
            (true, None) => some / DAY * DAY + time,
            (true, Some(day)) => u128::try_from(day).ok()? * DAY + time,
        };
        let zone = i128::from(self.zone) * SECOND as i128;
        u64::try_from(wall.checked_add_signed(-zone)? / self.unit).ok()
    }
}

fn time_of_day(nanoseconds: u128) -> String {
    let seconds = nanoseconds / SECOND;
    format!(
        "{:02}:{:02}:{:02}.{:09}",
        seconds / 3600,
        seconds / 60 % 60,
        seconds % 60,
        nanoseconds % SECOND
    )
}

/// Of hours, minutes, and perhaps seconds with up to nine decimals.
fn nanoseconds_of_day(text: &str) -> Option<u128> {
    let mut parts = text.split(':');
    let hours: u128 = digits(parts.next()?)?;
    let minutes: u128 = digits(parts.next()?).filter(|&minutes| minutes < 60)?;
    let (seconds, decimals) = match parts.next() {
        None => (0, 0),
        Some(seconds) => {
            let (whole, decimals) = seconds.split_once('.').unwrap_or((seconds, "0"));
            if decimals.len() > 9 {
                return None;
            }
            let whole = digits(whole).filter(|&seconds| seconds < 60)?;
            (whole, digits(&format!("{decimals:0<9}"))?)
        }
    };
    let is_all = parts.next().is_none();
    (is_all && hours < 1000).then(|| ((hours * 60 + minutes) * 60 + seconds) * SECOND + decimals)
}

fn digits(text: &str) -> Option<u128> {
    let is_number = text.bytes().all(|byte| byte.is_ascii_digit());
    is_number.then(|| text.parse().ok()).flatten()
}

fn seconds_of_zone(text: &str) -> Option<i64> {
    let (sign, rest) = match text.split_at_checked(1)? {
        ("-", rest) => (-1, rest),
        ("+", rest) => (1, rest),
        _ => return None,
    };
    let (hours, minutes) = rest.split_once(':').unwrap_or((rest, "0"));
    let (hours, minutes) = (digits(hours)?, digits(minutes)?);
    (hours < 15 && minutes < 60).then(|| sign * (hours * 3600 + minutes * 60) as i64)
}

/// Year, month and day of a day counted from 1970-01-01, by the calendar of 400 years.
fn date(days: i64) -> (i64, i64, i64) {
    let days = days + 719_468;
    let era = days.div_euclid(146_097);
    let of_era = days.rem_euclid(146_097);
    let year = (of_era - of_era / 1460 + of_era / 36_524 - of_era / 146_096) / 365;
    let of_year = of_era - (365 * year + year / 4 - year / 100);
    let month = (5 * of_year + 2) / 153;
    let day = of_year - (153 * month + 2) / 5 + 1;
    let month = if month < 10 { month + 3 } else { month - 9 };
    (year + era * 400 + i64::from(month <= 2), month, day)
}

/// The day of a date such as 2026-11-17, counted from 1970-01-01.
fn day_of_date(text: &str) -> Option<i64> {
    let mut parts = text.split('-').map(digits);
    let (year, month, day) = (parts.next()??, parts.next()??, parts.next()??);
    let wanted = (year as i64, month as i64, day as i64);
    // No more than 366 days of a year are looked at.
    let first = (wanted.0 - 1970) * 365;
    let found = (first..first + 366 + (wanted.0 - 1970) / 4 + 1).find(|&days| date(days) == wanted);
    found.filter(|_| (1970..3000).contains(&wanted.0) && parts.next().is_none())
}

#[cfg(test)]
mod tests {
    use super::*;

    #[test]
    fn times_since_midnight() {
        let clock = Clock::new(None, None, 0).expect("a clock");
        let half_past_nine = 34_200_123_456_789;
        assert_eq!(clock.show(half_past_nine), "09:30:00.123456789");
        assert_eq!(clock.parse("09:30:00.123456789").ok(), Some(half_past_nine));
        assert_eq!(clock.parse("9:30").ok(), Some(34_200_000_000_000));
        assert_eq!(clock.parse("42").ok(), Some(42));
        for text in ["", "9:60", "9:30:60", "x:1", "2026-11-17 09:30", "1:2:3:4"] {
            assert!(clock.parse(text).is_err(), "{text}");
        }
    }

    #[test]
    fn times_since_1970() {
        let time = 1_794_925_800_000_000;
        let clock = Clock::new(Some("us"), Some("-05:00"), time).expect("a clock");
        assert_eq!(clock.show(time), "2026-11-17 09:30:00.000000000");
        for text in ["09:30", "2026-11-17 09:30:00", "2026-11-17T09:30"] {
            assert_eq!(clock.parse(text).ok(), Some(time), "{text}");
        }
        assert_eq!(clock.of_day(time), 34_200 * SECOND);
        for day in [0, 58, 59, 365, 11_016, 11_017, 20_774] {
            let (year, month, day_of_month) = date(day);
            let text = format!("{year}-{month:02}-{day_of_month:02}");
            assert_eq!(day_of_date(&text), Some(day), "{text}");
        }
        assert_eq!(date(20_774), (2026, 11, 17));
    }
}
