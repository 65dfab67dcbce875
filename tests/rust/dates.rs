//! A model of the rules for dates, and of their moments.

use std::sync::OnceLock;

/// Minutes of a day.
pub const DAY: i32 = 24 * 60;

/// Takes bytes from the left of a string.
struct Cursor<'a> {
    rest: &'a [u8],
}

impl Cursor<'_> {
    fn one_of(&mut self, allowed: &[u8]) -> Option<u8> {
        let (&first, rest) = self.rest.split_first()?;
        self.rest = rest;
        allowed.contains(&first).then_some(first)
    }

    fn number(&mut self, digits: usize) -> Option<i32> {
        let mut number = 0;
        for _ in 0..digits {
            number = number * 10 + i32::from(self.one_of(b"0123456789")? - b'0');
        }
        Some(number)
    }

    /// A number of two digits that is at most so much.
    fn at_most(&mut self, most: i32) -> Option<i32> {
        self.number(2).filter(|number| *number <= most)
    }
}

/// The seconds from 1970-01-01T00:00:00Z to a date; none of a string that is no date.
pub fn moment(characters: &str) -> Option<i64> {
    let mut cursor = Cursor { rest: characters.as_bytes() };
    whole_date(&mut cursor).filter(|_| cursor.rest.is_empty())
}

fn whole_date(cursor: &mut Cursor) -> Option<i64> {
    let (year, month, day) = calendar_day(cursor)?;
    cursor.one_of(b"Tt")?;
    let time = minutes(cursor)?;
    cursor.one_of(b":")?;
    let second = cursor.at_most(60)?;
    fraction(cursor)?;
    let utc = minutes_before(year, month) + (day - 1) * DAY + time - offset(cursor)?;
    let moment = first_day(year) * i64::from(DAY) * 60 + i64::from(utc) * 60 + i64::from(second);
    (second < 60 || has_leap_second(year, utc)).then_some(moment)
}

fn calendar_day(cursor: &mut Cursor) -> Option<(i32, i32, i32)> {
    let year = cursor.number(4)?;
    cursor.one_of(b"-")?;
    let month = cursor.number(2)?;
    cursor.one_of(b"-")?;
    let day = cursor.number(2)?;
    (1 <= day && day <= days_in_month(year, month)).then_some((year, month, day))
}

/// Hours and minutes, as minutes.
fn minutes(cursor: &mut Cursor) -> Option<i32> {
    let hours = cursor.at_most(23)?;
    cursor.one_of(b":")?;
    Some(hours * 60 + cursor.at_most(59)?)
}

/// Perhaps a dot and one digit or more.
fn fraction(cursor: &mut Cursor) -> Option<()> {
    if !cursor.rest.starts_with(b".") {
        return Some(());
    }
    cursor.one_of(b".")?;
    cursor.number(1)?;
    while cursor.rest.first().is_some_and(u8::is_ascii_digit) {
        cursor.number(1)?;
    }
    Some(())
}

fn offset(cursor: &mut Cursor) -> Option<i32> {
    match cursor.one_of(b"Zz+-")? {
        b'+' => minutes(cursor),
        b'-' => minutes(cursor).map(|offset| -offset),
        _ => Some(0),
    }
}

/// No days in a month that is none.
fn days_in_month(year: i32, month: i32) -> i32 {
    let leap = year % 4 == 0 && year % 100 != 0 || year % 400 == 0;
    match month {
        2 if leap => 29,
        2 => 28,
        4 | 6 | 9 | 11 => 30,
        1..=12 => 31,
        _ => 0,
    }
}

/// From the beginning of the year to that of a month; the thirteenth is the next January.
fn minutes_before(year: i32, month: i32) -> i32 {
    (1..month).map(|earlier| days_in_month(year, earlier) * DAY).sum()
}

/// The day of a 1 January, counted from 1970-01-01, year by year.
fn first_day(year: i32) -> i64 {
    static DAYS: OnceLock<Vec<i64>> = OnceLock::new();
    let days = DAYS.get_or_init(|| {
        let mut days = vec![0];
        for year in 0..9999 {
            days.push(days[year as usize] + i64::from(minutes_before(year, 13) / DAY));
        }
        days
    });
    days[year as usize] - days[1970]
}

/// Whether a minute of UTC, counted from the beginning of the written year, is the last before a January or a July. It may
/// lie in the year before.
fn has_leap_second(year: i32, utc: i32) -> bool {
    [1, 7, 13].iter().any(|month| utc + 1 == minutes_before(year, *month))
}
