//! Sizes: a number of bytes ("65536"), or of units of 1,024 bytes and more ("512MiB").

use std::fmt;
use std::str::FromStr;

/// A number of bytes.
#[derive(Clone, Copy, Debug, PartialEq, Eq, PartialOrd, Ord)]
pub struct Size(pub u64);

/// The units, largest first, and how many bytes each has.
const UNITS: [(&str, u64); 4] = [("TiB", 1 << 40), ("GiB", 1 << 30), ("MiB", 1 << 20), ("KiB", 1 << 10)];

const EXPECTED: &str = "a size: a whole number of bytes below 2^64, or of KiB, MiB, GiB or TiB as in 512MiB";

impl FromStr for Size {
    type Err = String;

    fn from_str(text: &str) -> Result<Size, String> {
        let found = UNITS.iter().find_map(|(unit, bytes)| Some((text.strip_suffix(unit)?, *bytes)));
        let (digits, unit) = found.unwrap_or((text, 1));
        let is_number = digits.bytes().all(|byte| byte.is_ascii_digit());
        let number = digits.parse::<u64>().ok().filter(|_| is_number);
        let bytes = number.and_then(|number| number.checked_mul(unit));
        bytes.map(Size).ok_or_else(|| format!("not {EXPECTED}"))
    }
}

impl fmt::Display for Size {
    fn fmt(&self, f: &mut fmt::Formatter<'_>) -> fmt::Result {
        let Size(bytes) = *self;
        match UNITS.iter().find(|(_, unit)| bytes > 0 && bytes.is_multiple_of(*unit)) {
            Some((name, unit)) => write!(f, "{}{name}", bytes / unit),
            None => write!(f, "{bytes}"),
        }
    }
}

#[cfg(test)]
mod tests {
    use super::Size;

    #[test]
    fn sizes_are_read_and_shown() {
        let read = |text: &str| text.parse::<Size>().ok().map(|size| size.0);
        for (text, bytes) in [
            ("0", 0),
            ("1", 1),
            ("1023", 1_023),
            ("1KiB", 1_024),
            ("1025", 1_025),
            ("1536KiB", 1_572_864),
            ("1MiB", 1_048_576),
            ("1GiB", 1_073_741_824),
            ("3GiB", 3_221_225_472),
            ("1TiB", 1_099_511_627_776),
            ("16777215TiB", 18_446_742_974_197_923_840),
            ("18446744073709551615", u64::MAX),
        ] {
            assert_eq!(read(text), Some(bytes), "{text}");
            assert_eq!(Size(bytes).to_string(), text);
        }
        assert_eq!((read("0GiB"), read("007"), read("1024MiB")), (Some(0), Some(7), Some(1 << 30)));
        for wrong in [
            "",
            " ",
            "-1",
            "+1",
            "1.5GiB",
            "1,024",
            "1_024",
            "1gib",
            "1GB",
            "1G",
            "1 GiB",
            "1GiB ",
            " 1",
            "GiB",
            "-1GiB",
            "+1GiB",
            "1KiBKiB",
            "1e9",
            "0x10",
            "٣",
            "16777216TiB",
            "99999999999TiB",
            "18446744073709551616",
        ] {
            assert_eq!(read(wrong), None, "{wrong}");
        }
    }
}
