//! Times, as a number of frames ("750") or as hh:mm:ss:ff, 75 frames a second.

use serde::de::{self, Deserialize, Deserializer, Visitor};
use std::fmt;
use std::str::FromStr;

/// A number of frames.
#[derive(Clone, Copy, Debug, PartialEq, Eq, PartialOrd, Ord)]
pub struct Time(pub u32);

/// How many frames one unit of each part has, and one past the part's last value (none for hours).
const PARTS: [(u32, Option<u32>); 4] = [(270_000, None), (4_500, Some(60)), (75, Some(60)), (1, Some(75))];

const EXPECTED: &str = "a time: a number of frames, or hh:mm:ss:ff with mm and ss 0 to 59 and ff 0 to 74";

impl FromStr for Time {
    type Err = String;

    fn from_str(text: &str) -> Result<Time, String> {
        let wrong = || format!("`{text}` is not {EXPECTED}");
        let parts: Vec<&str> = text.split(':').collect();
        match parts.as_slice() {
            [frames] => number(frames).map(Time).ok_or_else(wrong),
            [_, _, _, _] => {
                let mut frames = 0u32;
                for (part, (unit, limit)) in parts.iter().zip(PARTS) {
                    let digits = if limit.is_some() { part.len() == 2 } else { part.len() >= 2 };
                    let value = number(part)
                        .filter(|value| digits && limit.is_none_or(|limit| *value < limit))
                        .and_then(|value| value.checked_mul(unit))
                        .ok_or_else(wrong)?;
                    frames = frames.checked_add(value).ok_or_else(wrong)?;
                }
                Ok(Time(frames))
            }
            _ => Err(wrong()),
        }
    }
}

/// Decimal digits only: no sign, no space.
pub fn number(text: &str) -> Option<u32> {
    if text.bytes().all(|byte| byte.is_ascii_digit()) { text.parse().ok() } else { None }
}

impl fmt::Display for Time {
    fn fmt(&self, f: &mut fmt::Formatter<'_>) -> fmt::Result {
        let Time(frames) = *self;
        let (hours, minutes) = (frames / 270_000, frames / 4_500 % 60);
        write!(f, "{hours:02}:{minutes:02}:{:02}:{:02}", frames / 75 % 60, frames % 75)
    }
}

impl<'de> Deserialize<'de> for Time {
    fn deserialize<D: Deserializer<'de>>(deserializer: D) -> Result<Time, D::Error> {
        deserializer.deserialize_any(TimeVisitor)
    }
}

struct TimeVisitor;

impl Visitor<'_> for TimeVisitor {
    type Value = Time;

    fn expecting(&self, f: &mut fmt::Formatter<'_>) -> fmt::Result {
        f.write_str(EXPECTED)
    }

    fn visit_u64<E: de::Error>(self, value: u64) -> Result<Time, E> {
        let frames = u32::try_from(value);
        frames.map(Time).map_err(|_| E::invalid_value(de::Unexpected::Unsigned(value), &self))
    }

    fn visit_i64<E: de::Error>(self, value: i64) -> Result<Time, E> {
        let frames = u32::try_from(value);
        frames.map(Time).map_err(|_| E::invalid_value(de::Unexpected::Signed(value), &self))
    }

    fn visit_str<E: de::Error>(self, text: &str) -> Result<Time, E> {
        text.parse().map_err(E::custom)
    }
}

/// "1 frame", "2 frames".
pub fn counted(frames: u32) -> String {
    if frames == 1 { "1 frame".to_string() } else { format!("{frames} frames") }
}

#[cfg(test)]
mod tests {
    use super::Time;

    #[test]
    fn times_are_read_and_shown() {
        let read = |text: &str| text.parse::<Time>().ok().map(|time| time.0);
        assert_eq!(read("750"), Some(750));
        assert_eq!(read("0"), Some(0));
        assert_eq!(read("4294967295"), Some(u32::MAX));
        assert_eq!(read("4294967296"), None);
        assert_eq!(read("00:00:10:00"), Some(750));
        assert_eq!(read("01:00:00:00"), Some(270_000));
        assert_eq!(read("23:59:59:74"), Some(6_479_999));
        assert_eq!(read("100:00:00:00"), Some(27_000_000));
        for wrong in [
            "",
            ":",
            ":::",
            "+1",
            "-1",
            "1.5",
            " 1",
            "00:10:00",
            "00:60:00:00",
            "00:00:60:00",
            "00:00:00:75",
            "0:00:00:00",
            "00:0:00:00",
            "00:00:00:0",
            "00:00:00:000",
            "00:00:00:00:00",
            "99999:00:00:00",
            "15907:17:10:46",
            "٠",
        ] {
            assert_eq!(read(wrong), None, "{wrong}");
        }
        for frames in [0, 1, 74, 75, 4_499, 4_500, 269_999, 270_000, 6_479_999, u32::MAX] {
            assert_eq!(read(&Time(frames).to_string()), Some(frames));
        }
    }
}
