//! The layout that channel names tell.

use jangqeruz::Layout;
use walk::Name;

const STEREO: [&[u8; 4]; 2] = [b"SLFT", b"SRGT"];
const THREE_TWO: [&[u8; 4]; 5] = [b"MLFT", b"MRGT", b"C   ", b"LS  ", b"RS  "];
const FIVE_POINT_ONE: [&[u8; 4]; 6] = [b"MLFT", b"MRGT", b"C   ", b"LFE ", b"LS  ", b"RS  "];

/// A layout, and of an unspecified one the numbers of its channels, where they are told.
pub type Numbered = (Layout, Option<Vec<u32>>);

/// The layout whose channels have these names; none if there is no such layout.
pub fn layout_of(names: &[Name]) -> Option<Numbered> {
    let are = |layout: &[&[u8; 4]]| names.iter().map(|name| &name.0).eq(layout.iter().copied());
    if are(&STEREO) {
        Some((Layout::Stereo, None))
    } else if are(&THREE_TWO) {
        Some((Layout::ThreeTwo, None))
    } else if are(&FIVE_POINT_ONE) {
        Some((Layout::FivePointOne, None))
    } else {
        let numbers: Option<Vec<u32>> = names.iter().map(number).collect();
        numbers.map(|numbers| (Layout::Unspecified, Some(numbers)))
    }
}

/// That there is no such layout.
pub fn no_layout(names: &[Name]) -> String {
    let names: Vec<String> = names.iter().map(|name| format!("\"{name}\"")).collect();
    format!("channels named {} are no layout that can be written", names.join(" "))
}

/// The number of a channel named C and three digits.
fn number(name: &Name) -> Option<u32> {
    let [b'C', digits @ ..] = name.0 else { return None };
    digits.iter().try_fold(0, |number, digit| match digit {
        b'0'..=b'9' => Some(number * 10 + u32::from(digit - b'0')),
        _ => None,
    })
}

/// What LSCO has for a layout.
pub fn speaker_code(layout: Layout) -> u16 {
    match layout {
        Layout::Stereo => 0,
        Layout::ThreeTwo => 3,
        Layout::FivePointOne => 4,
        Layout::Unspecified => 65_535,
    }
}
