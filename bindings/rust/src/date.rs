//! When a volume was made: the stamp of its descriptor, and the date of a stamp. The library reads and writes stamps; the way from one to a date, and back, is Rust, tested and
//! not proved.
use std::fmt;
use std::str::FromStr;
use std::time::{SystemTime, UNIX_EPOCH};

/// When a volume was made: a count of 100 ns since the start of 1601, UTC. 0 is no date. As text it is its date as [`Date`] has it, or `no date`.
#[derive(Clone, Copy, Debug, PartialEq, Eq)]
pub struct Stamp(pub u64);

impl Stamp {
    /// The stamp of a volume without a date.
    pub const NO_DATE: Stamp = Stamp(0);
    const START_OF_1970: i128 = 116_444_736_000_000_000;
    const SECOND: u64 = 10_000_000;

    /// The stamp of a time; what is less than 100 ns is dropped. None where it would be 0 or less, as of a time that is not after the start of 1601, or past 2^64 - 1.
    pub fn from_system_time(time: SystemTime) -> Option<Stamp> {
        // a Duration has less than 2^94 ns
        let nanoseconds = match time.duration_since(UNIX_EPOCH) {
            Ok(after) => after.as_nanos() as i128,
            Err(before) => -(before.duration().as_nanos() as i128),
        };
        let stamp = Stamp::START_OF_1970 + nanoseconds.div_euclid(100);
        u64::try_from(stamp).ok().map(Stamp).filter(|&stamp| stamp != Stamp::NO_DATE)
    }

    /// The date; none where the stamp is 0.
    pub fn date(self) -> Option<Date> {
        (self != Stamp::NO_DATE).then(|| Date::counted_to(self.0))
    }
}

impl fmt::Display for Stamp {
    fn fmt(&self, f: &mut fmt::Formatter<'_>) -> fmt::Result {
        match self.date() {
            Some(date) => date.fmt(f),
            None => f.write_str("no date"),
        }
    }
}

/// From a date as [`Date`] has it as text, in which a fraction may have less than seven digits. `no date` is none, and no text gives [`Stamp::NO_DATE`].
impl FromStr for Stamp {
    type Err = BadDate;

    fn from_str(text: &str) -> Result<Stamp, BadDate> {
        let date = Date::read(text).ok_or(BadDate::Form)?;
        if !date.is_in_calendar() {
            return Err(BadDate::Calendar);
        }
        date.count().map(Stamp).filter(|&stamp| stamp != Stamp::NO_DATE).ok_or(BadDate::Range)
    }
}

/// Why a text is not the date of a stamp.
#[derive(Clone, Copy, Debug, PartialEq, Eq)]
pub enum BadDate {
    /// It is not written as [`Date`] has it.
    Form,
    /// There is no such day or no such time of day, as on 2026-02-29 or at 24:00:00.
    Calendar,
    /// It is before the first date that a stamp has, 1601-01-01T00:00:00.0000001Z, or past the last, +60056-05-28T05:36:10.9551615Z.
    Range,
}

impl fmt::Display for BadDate {
    fn fmt(&self, f: &mut fmt::Formatter<'_>) -> fmt::Result {
        f.write_str(match self {
            BadDate::Form => "the date is not written like 2026-11-16T12:00:00Z",
            BadDate::Calendar => "there is no such day or no such time of day",
            BadDate::Range => "no stamp has that date: the first is 1601-01-01T00:00:00.0000001Z, the last +60056-05-28T05:36:10.9551615Z",
        })
    }
}

impl std::error::Error for BadDate {}

/// A date of the Gregorian calendar with a time of day, UTC. As text it is as ISO 8601 has it, like `1970-01-01T00:00:00Z`. Where it is no whole second, a fraction of seven
/// digits comes after the seconds, like `1601-01-01T00:00:00.0000001Z`; a year from 10,000 on has a plus sign and all its digits, like `+10000-01-01T00:00:00Z`.
#[derive(Clone, Copy, Debug, PartialEq, Eq)]
pub struct Date {
    /// 1601 to 60,056.
    pub year: u32,
    /// From 1 on.
    pub month: u32,
    /// From 1 on.
    pub day: u32,
    pub hour: u32,
    pub minute: u32,
    pub second: u32,
    /// Of the second, in units of 100 ns.
    pub fraction: u32,
}

impl Date {
    /// Each 400 years from 1601 on have 146,097 days. Their centuries have 36,524 days, the last of them one more; each four years have 1,461 days, at the end of a century
    /// perhaps one less; their years 365, the last of them perhaps one more.
    fn counted_to(stamp: u64) -> Date {
        let seconds = stamp / Stamp::SECOND;
        let (mut days, of_day) = ((seconds / 86_400) as u32, (seconds % 86_400) as u32);
        let cycles = take_runs(&mut days, 146_097, u32::MAX);
        let centuries = take_runs(&mut days, 36_524, 3);
        let fours = take_runs(&mut days, 1_461, 24);
        let years = take_runs(&mut days, 365, 3);
        let leap_day = years == 3 && (fours != 24 || centuries == 3);
        let month = take_months(&mut days, leap_day);
        Date {
            year: 1601 + 400 * cycles + 100 * centuries + 4 * fours + years,
            month: month + 1,
            day: days + 1,
            hour: of_day / 3600,
            minute: of_day / 60 % 60,
            second: of_day % 60,
            fraction: (stamp % Stamp::SECOND) as u32,
        }
    }

    /// The numbers of a date as text has them, whatever they are; none where the text has another form.
    fn read(text: &str) -> Option<Date> {
        let text = text.strip_suffix('Z')?;
        let (whole, fraction) = match text.split_once('.') {
            Some((whole, digits)) => (whole, read_fraction(digits)?),
            None => (text, 0),
        };
        let (year, rest) = match whole.strip_prefix('+') {
            Some(rest) => take_digits(rest, 5).filter(|&(year, _)| year > 9999)?,
            None => take_digits(whole, 4)?,
        };
        let (month, rest) = take_digits(rest.strip_prefix('-')?, 2)?;
        let (day, rest) = take_digits(rest.strip_prefix('-')?, 2)?;
        let (hour, rest) = take_digits(rest.strip_prefix('T')?, 2)?;
        let (minute, rest) = take_digits(rest.strip_prefix(':')?, 2)?;
        let (second, rest) = take_digits(rest.strip_prefix(':')?, 2)?;
        rest.is_empty().then_some(Date { year, month, day, hour, minute, second, fraction })
    }

    /// Whether there is such a day and such a time of day.
    fn is_in_calendar(&self) -> bool {
        let Some(month) = self.month.checked_sub(1) else {
            return false;
        };
        let length = month_lengths(self.is_in_leap_year()).get(month as usize).copied().unwrap_or(0);
        (1..=length).contains(&self.day) && self.hour < 24 && self.minute < 60 && self.second < 60
    }

    fn is_in_leap_year(&self) -> bool {
        leap_years(self.year) != leap_years(self.year.saturating_sub(1))
    }

    /// Of a date of the calendar, how many times 100 ns the start of 1601 is ago; none where it is still to come, or they are more than 2^64 - 1.
    fn count(&self) -> Option<u64> {
        let years = self.year.checked_sub(1601)?;
        let leap_days = leap_years(self.year - 1) - leap_years(1600);
        let months: u32 = month_lengths(self.is_in_leap_year()).iter().take(self.month as usize - 1).sum();
        let days = 365 * years + leap_days + months + self.day - 1;
        let of_day = 3600 * self.hour + 60 * self.minute + self.second;
        // a year has at most five digits: these are less than 2^26 days and 2^42 seconds
        let seconds = 86_400 * u64::from(days) + u64::from(of_day);
        seconds.checked_mul(Stamp::SECOND)?.checked_add(self.fraction.into())
    }
}

/// The number that a text begins with, of so many digits, and what comes after them.
fn take_digits(text: &str, many: usize) -> Option<(u32, &str)> {
    let (digits, rest) = (text.get(..many)?, text.get(many..)?);
    digits.bytes().all(|b| b.is_ascii_digit()).then_some((digits.parse().ok()?, rest))
}

/// One to seven digits behind the point of a second, in units of 100 ns.
fn read_fraction(digits: &str) -> Option<u32> {
    let missing = 7usize.checked_sub(digits.len())?;
    let (number, _) = take_digits(digits, digits.len())?;
    Some(number * 10u32.pow(missing as u32))
}

/// How many whole runs of so many days there are, but at most `most`; they are taken off.
fn take_runs(days: &mut u32, run: u32, most: u32) -> u32 {
    let runs = (*days / run).min(most);
    *days -= runs * run;
    runs
}

/// How many leap years there are up to this year, from the year 1 on.
fn leap_years(year: u32) -> u32 {
    year / 4 - year / 100 + year / 400
}

/// How many days each month of a year has.
fn month_lengths(leap_day: bool) -> [u32; 12] {
    [31, if leap_day { 29 } else { 28 }, 31, 30, 31, 30, 31, 31, 30, 31, 30, 31]
}

/// How many whole months of a year there are; they are taken off.
fn take_months(days: &mut u32, leap_day: bool) -> u32 {
    let lengths = month_lengths(leap_day);
    let mut months = 0;
    while *days >= lengths[months] {
        *days -= lengths[months];
        months += 1;
    }
    months as u32
}

impl fmt::Display for Date {
    fn fmt(&self, f: &mut fmt::Formatter<'_>) -> fmt::Result {
        let plus = if self.year > 9999 { "+" } else { "" };
        write!(f, "{plus}{:04}-{:02}-{:02}", self.year, self.month, self.day)?;
        write!(f, "T{:02}:{:02}:{:02}", self.hour, self.minute, self.second)?;
        if self.fraction != 0 {
            write!(f, ".{:07}", self.fraction)?;
        }
        f.write_str("Z")
    }
}
