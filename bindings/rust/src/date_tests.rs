//! The dates of stamps: known ones, and every day that a stamp reaches beside a calendar that goes from day to day. And the stamps of dates, read from text.
use crate::{BadDate, Date, Stamp};
use std::time::{Duration, SystemTime, UNIX_EPOCH};

const DAY: u64 = 864_000_000_000;

#[test]
fn known_dates() {
    for (stamp, text) in [
        (0, "no date"),
        (1, "1601-01-01T00:00:00.0000001Z"),
        (DAY - 1, "1601-01-01T23:59:59.9999999Z"),
        (DAY, "1601-01-02T00:00:00Z"),
        (95_667_264_000_000_000, "1904-02-29T00:00:00Z"),
        (0x019d_b1de_d53e_8000, "1970-01-01T00:00:00Z"),
        (125_911_583_999_999_999, "1999-12-31T23:59:59.9999999Z"),
        (125_911_584_000_000_000, "2000-01-01T00:00:00Z"),
        (125_962_560_000_000_000, "2000-02-29T00:00:00Z"),
        (0x01c1_6d68_77fa_4000, "2001-11-15T00:00:00Z"),
        (0x01dd_75c2_017c_2000, "2026-11-16T12:00:00Z"),
        (157_520_159_999_999_999, "2100-02-28T23:59:59.9999999Z"),
        (157_520_160_000_000_000, "2100-03-01T00:00:00Z"),
        (2_650_467_743_999_999_999, "9999-12-31T23:59:59.9999999Z"),
        (2_650_467_744_000_000_000, "+10000-01-01T00:00:00Z"),
        (1 << 63, "+30828-09-14T02:48:05.4775808Z"),
        (u64::MAX, "+60056-05-28T05:36:10.9551615Z"),
    ] {
        assert_eq!(Stamp(stamp).to_string(), text, "{stamp}");
        assert_eq!(Stamp(stamp).date().map_or("no date".to_owned(), |d| d.to_string()), text, "{stamp}");
    }
}

fn is_leap(year: u32) -> bool {
    match (year % 4, year % 100, year % 400) {
        (_, _, 0) => true,
        (of_four, of_hundred, _) => of_four == 0 && of_hundred != 0,
    }
}

/// A calendar that knows how long a month is and which years are leap years, and nothing of stamps.
struct Calendar {
    year: u32,
    month: u32,
    day: u32,
}

impl Calendar {
    fn month_length(&self) -> u32 {
        match self.month {
            4 | 6 | 9 | 11 => 30,
            2 if is_leap(self.year) => 29,
            2 => 28,
            _ => 31,
        }
    }

    fn next_day(&mut self) {
        self.day += 1;
        if self.day > self.month_length() {
            (self.month, self.day) = (self.month + 1, 1);
        }
        if self.month > 12 {
            (self.year, self.month) = (self.year + 1, 1);
        }
    }

    fn is(&self, date: Date) -> bool {
        date.year == self.year && date.month == self.month && date.day == self.day
    }
}

/// The first and the last 100 ns of each day, but that no stamp is 0 and none past 2^64 - 1.
#[test]
fn every_day_is_that_of_a_calendar() {
    let mut calendar = Calendar { year: 1601, month: 1, day: 1 };
    for day in 0..=u64::MAX / DAY {
        let first = day * DAY;
        let last = first.saturating_add(DAY - 1);
        for stamp in [first.max(1), last] {
            let date = Stamp(stamp).date().unwrap();
            assert!(calendar.is(date), "{stamp} is {date}");
        }
        calendar.next_day();
    }
    assert_eq!((calendar.year, calendar.month, calendar.day), (60_056, 5, 29));
}

/// Each second of a day, and fractions of one.
#[test]
fn every_time_of_day() {
    let mut stamp = Stamp::from_system_time(UNIX_EPOCH).unwrap().0;
    for (hour, minute, second) in (0..24).flat_map(|h| (0..60).flat_map(move |m| (0..60).map(move |s| (h, m, s)))) {
        for fraction in [0, 1, 9_999_999] {
            let date = Date { year: 1970, month: 1, day: 1, hour, minute, second, fraction };
            assert_eq!(Stamp(stamp + u64::from(fraction)).date(), Some(date));
        }
        stamp += 10_000_000;
    }
}

#[test]
fn stamps_of_times() {
    let after = |seconds, nanoseconds| UNIX_EPOCH + Duration::new(seconds, nanoseconds);
    let before = |seconds, nanoseconds| UNIX_EPOCH - Duration::new(seconds, nanoseconds);
    let stamp = |time: SystemTime| Stamp::from_system_time(time).map(|s| s.0);
    let start_of_1970 = 0x019d_b1de_d53e_8000;
    assert_eq!(stamp(UNIX_EPOCH), Some(start_of_1970));
    assert_eq!(stamp(after(1_794_830_400, 0)), Some(0x01dd_75c2_017c_2000));
    // less than 100 ns is dropped, before 1970 too
    assert_eq!([99, 100, 199].map(|n| stamp(after(0, n))), [0, 1, 1].map(|n| Some(start_of_1970 + n)));
    assert_eq!([1, 100, 101].map(|n| stamp(before(0, n))), [1, 1, 2].map(|n| Some(start_of_1970 - n)));
    // the start of 1601, and 100 ns, 99 ns and 1 ns around it
    let start_of_1601 = 11_644_473_600;
    assert_eq!(stamp(before(start_of_1601 - 1, 999_999_900)), Some(1));
    assert_eq!(stamp(before(start_of_1601 - 1, 999_999_901)), None);
    assert_eq!(stamp(before(start_of_1601, 0)), None);
    assert_eq!(stamp(before(start_of_1601, 1)), None);
    assert_eq!(stamp(before(1 << 40, 0)), None);
    // the last 100 ns that have a stamp, and the next
    assert_eq!(stamp(after(1_833_029_933_770, 955_161_599)), Some(u64::MAX));
    assert_eq!(stamp(after(1_833_029_933_770, 955_161_600)), None);
    assert_eq!(stamp(after(1 << 62, 0)), None);
}

/// What is printed of a stamp is read as that stamp: the first and the last 100 ns, and some between them, of every 97th day and of the last.
#[test]
fn what_is_printed_is_read() {
    let last_day = u64::MAX / DAY;
    for day in (0..=last_day).step_by(97).chain([last_day]) {
        let first = day * DAY;
        let last = first.saturating_add(DAY - 1);
        for stamp in [first.max(1), first + 1, first + 10_000_000, first + 7 * day + 1, last - 1, last].map(Stamp) {
            assert_eq!(stamp.to_string().parse(), Ok(stamp), "{stamp}");
        }
    }
}

#[test]
fn known_stamps() {
    for (text, stamp) in [
        ("1601-01-01T00:00:00.0000001Z", 1),
        ("1601-01-01T00:00:01Z", 10_000_000),
        ("1904-02-29T00:00:00Z", 95_667_264_000_000_000),
        ("1970-01-01T00:00:00Z", 0x019d_b1de_d53e_8000),
        ("2000-02-29T00:00:00Z", 125_962_560_000_000_000),
        ("2026-11-16T12:00:00Z", 0x01dd_75c2_017c_2000),
        ("2100-02-28T23:59:59.9999999Z", 157_520_159_999_999_999),
        ("9999-12-31T23:59:59.9999999Z", 2_650_467_743_999_999_999),
        ("+10000-01-01T00:00:00Z", 2_650_467_744_000_000_000),
        ("+60056-05-28T05:36:10.9551615Z", u64::MAX),
    ] {
        assert_eq!(text.parse(), Ok(Stamp(stamp)), "{text}");
    }
    // a fraction of one to seven digits
    for (fraction, units) in
        [("5", 5_000_000), ("05", 500_000), ("0000001", 1), ("1234567", 1_234_567), ("0", 0), ("0000000", 0), ("120", 1_200_000)]
    {
        let text = format!("2026-11-16T12:00:00.{fraction}Z");
        assert_eq!(text.parse(), Ok(Stamp(0x01dd_75c2_017c_2000 + units)), "{text}");
    }
}

#[test]
fn dates_refused() {
    for text in [
        "",
        "no date",
        "0",
        "2026-11-16",
        "2026-11-16T12:00Z",
        "2026-11-16T12:00:00",
        "2026-11-16T12:00:00z",
        "2026-11-16t12:00:00Z",
        "2026-11-16 12:00:00Z",
        "2026-11-16T12:00:00+00:00",
        "2026-11-16T12:00:00ZZ",
        " 2026-11-16T12:00:00Z",
        "2026-11-16T12:00:00Z ",
        "2026-11-16T12:00:00Z\n",
        "2026-11-16T12:00:00.Z",
        "2026-11-16T12:00:00.12345678Z",
        "2026-11-16T12:00:00.1.2Z",
        "2026-11-16T12:00:00.+1Z",
        "2026-11-16T12:00:00,5Z",
        "2026-11-16T12:00:0Z",
        "2026-11-16T12:00:000Z",
        "2026-11-16T12-00-00Z",
        "2026-11-16T+2:00:00Z",
        "2026/11/16T12:00:00Z",
        "2026-1-16T12:00:00Z",
        "26-11-16T12:00:00Z",
        "+2026-11-16T12:00:00Z",
        "+02026-11-16T12:00:00Z",
        "+09999-11-16T12:00:00Z",
        "12026-11-16T12:00:00Z",
        "+100000-01-01T00:00:00Z",
        "-2026-11-16T12:00:00Z",
        "\u{662}026-11-16T12:00:00Z",
        "202\u{e9}-11-16T12:00:00Z",
        "2026-11-16T12:00:00.\u{661}Z",
    ] {
        assert_eq!(text.parse::<Stamp>(), Err(BadDate::Form), "{text}");
    }
    for day in [
        "2026-00-16",
        "2026-13-16",
        "2026-99-16",
        "2026-11-00",
        "2026-11-31",
        "2026-01-32",
        "2026-02-29",
        "2000-02-30",
        "2100-02-29",
        "1900-02-29",
        "2026-04-31",
        "2026-06-31",
        "2026-09-31",
        "2026-12-32",
        "1600-02-30",
    ] {
        assert_eq!(format!("{day}T12:00:00Z").parse::<Stamp>(), Err(BadDate::Calendar), "{day}");
    }
    for time in ["24:00:00", "23:60:00", "23:59:60", "99:99:99"] {
        assert_eq!(format!("2026-11-16T{time}Z").parse::<Stamp>(), Err(BadDate::Calendar), "{time}");
    }
    for text in [
        "1601-01-01T00:00:00Z",
        "1601-01-01T00:00:00.0Z",
        "1600-12-31T23:59:59.9999999Z",
        "0000-01-01T00:00:00Z",
        "+60056-05-28T05:36:10.9551616Z",
        "+60056-05-28T05:36:11Z",
        "+60056-05-29T00:00:00Z",
        "+60057-01-01T00:00:00Z",
        "+99999-12-31T23:59:59.9999999Z",
    ] {
        assert_eq!(text.parse::<Stamp>(), Err(BadDate::Range), "{text}");
    }
}

/// Each day of a calendar is read, and the day after the last of each month is not: leap years of every kind, and the years beside them.
#[test]
fn days_of_a_calendar() {
    for year in [1601, 1604, 1700, 1896, 1900, 1904, 1999, 2000, 2001, 2024, 2026, 2100, 2400, 9999, 10_000, 59_999, 60_000] {
        for month in 1..=12 {
            let length = Calendar { year, month, day: 1 }.month_length();
            for day in 1..=length + 1 {
                let date = Date { year, month, day, hour: 23, minute: 59, second: 59, fraction: 9_999_999 };
                let read = date.to_string().parse::<Stamp>();
                assert_eq!(read.map(|stamp| stamp.date()), if day > length { Err(BadDate::Calendar) } else { Ok(Some(date)) }, "{date}");
            }
        }
    }
}
