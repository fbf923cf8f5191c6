//! Dates of comments: as they are given on the command line (2024-02-29, 2024-02-29T18:30) and as they are told. What a
//! date may be is the library's to judge.

use crate::times::number;
use jangqeruz::{DateError, Stamp, date_fault};
use std::str::FromStr;

/// A date and minute that a window may start or end with.
#[derive(Clone, Copy, Debug, PartialEq, Eq)]
pub struct Date(pub Stamp);

const EXPECTED: &str = "a date as 2024-02-29, or with a time as 2024-02-29T18:30";

impl FromStr for Date {
    type Err = String;

    fn from_str(text: &str) -> Result<Date, String> {
        let stamp = read(text).ok_or_else(|| format!("not {EXPECTED}"))?;
        match date_fault(stamp) {
            Ok(()) => Ok(Date(stamp)),
            Err(DateError::Refused(refusal)) => Err(format!("{refusal}\n  remedy: {}", refusal.remedy())),
            Err(error) => Err(error.to_string()),
        }
    }
}

/// The numbers of a date, and of the time behind a `T` or a space; without one, 0 and 0.
fn read(text: &str) -> Option<Stamp> {
    let (date, time) = text.split_once(['T', ' ']).unwrap_or((text, "00:00"));
    let (year, rest) = date.split_once('-')?;
    let (month, day) = rest.split_once('-')?;
    let (hour, minutes) = time.split_once(':')?;
    Some(Stamp {
        year: number(year).filter(|_| year.len() >= 4)?,
        month: two_digits(month)?,
        day: two_digits(day)?,
        hour: two_digits(hour)?,
        minutes: two_digits(minutes)?,
    })
}

fn two_digits(text: &str) -> Option<u32> {
    number(text).filter(|_| text.len() == 2)
}

/// Date and time of a comment of a file.
pub fn of(comment: &walk::Comment) -> Stamp {
    let walk::Comment { year, month, day, hour, minutes, .. } = *comment;
    Stamp { year: year.into(), month: month.into(), day: day.into(), hour: hour.into(), minutes: minutes.into() }
}

/// As 2024-02-29 18:30, whatever the numbers are.
pub fn words(stamp: Stamp) -> String {
    let Stamp { year, month, day, hour, minutes } = stamp;
    format!("{year:04}-{month:02}-{day:02} {hour:02}:{minutes:02}")
}

#[cfg(test)]
mod tests {
    use super::{Date, words};

    #[test]
    fn dates_are_read_and_told() {
        let told = |text: &str| text.parse::<Date>().map(|Date(stamp)| words(stamp));
        for (text, wanted) in [
            ("2024-02-29", "2024-02-29 00:00"),
            ("2024-02-29T18:30", "2024-02-29 18:30"),
            ("2024-02-29 18:30", "2024-02-29 18:30"),
            ("0001-01-01", "0001-01-01 00:00"),
            ("65535-12-31T23:59", "65535-12-31 23:59"),
            ("002024-02-29", "2024-02-29 00:00"),
        ] {
            assert_eq!(told(text).as_deref(), Ok(wanted), "{text}");
        }
        for wrong in [
            "",
            "2024",
            "2024-02",
            "24-02-29",
            "2024-2-29",
            "2024-02-9",
            "2024-02-029",
            "2024-02-29-01",
            "2024/02/29",
            "29.02.2024",
            "+2024-02-29",
            "-2024-02-29",
            "2024-02-29T",
            "2024-02-29T18",
            "2024-02-29T1830",
            "2024-02-29T18:3",
            "2024-02-29T18:30:00",
            "2024-02-29t18:30",
            "2024-02-29  18:30",
            " 2024-02-29",
            "2024-02-29 ",
            "2024-02-29T18:30Z",
            "4294967296-01-01",
            "٢٠٢٤-02-29",
        ] {
            assert!(told(wrong).is_err_and(|words| words.starts_with("not a date as 2024-02-29, or ")), "{wrong}");
        }
        for (refused, number) in [
            ("2024-13-01", 34),
            ("2024-01-32", 34),
            ("2024-01-01T24:00", 34),
            ("2024-01-01T00:60", 34),
            ("65536-01-01", 34),
            ("2023-02-29", 46),
            ("2024-04-31", 46),
            ("0000-01-01", 46),
            ("2024-00-00", 46),
            ("2024-01-00", 46),
        ] {
            let words = told(refused).unwrap_err();
            assert!(words.starts_with(&format!("refused ({number}): ")) && words.contains("\n  remedy: "), "{words}");
        }
    }
}
