//! Tables whose unknown keys are told with their own place, which the parser gives of a table's header only; and a
//! limit to how deep tables and lists stand in each other, since the parser calls itself for each.

use serde::de::value::{MapAccessDeserializer, StrDeserializer};
use serde::de::{Deserialize, DeserializeSeed, Deserializer, Error, MapAccess, Visitor};
use std::fmt;
use std::marker::PhantomData;
use toml::Spanned;

/// A table. An error about one of its keys has the key's place in it, for [`take_place`].
pub struct Table<T>(pub T);

impl<'de, T: Deserialize<'de>> Deserialize<'de> for Table<T> {
    fn deserialize<D: Deserializer<'de>>(deserializer: D) -> Result<Table<T>, D::Error> {
        deserializer.deserialize_map(TableVisitor(PhantomData))
    }
}

struct TableVisitor<T>(PhantomData<T>);

impl<'de, T: Deserialize<'de>> Visitor<'de> for TableVisitor<T> {
    type Value = Table<T>;

    fn expecting(&self, f: &mut fmt::Formatter<'_>) -> fmt::Result {
        f.write_str("a table")
    }

    fn visit_map<A: MapAccess<'de>>(self, map: A) -> Result<Table<T>, A::Error> {
        T::deserialize(MapAccessDeserializer::new(Keys(map))).map(Table)
    }
}

/// The map, each key taken with its place first.
struct Keys<A>(A);

impl<'de, A: MapAccess<'de>> MapAccess<'de> for Keys<A> {
    type Error = A::Error;

    fn next_key_seed<K: DeserializeSeed<'de>>(&mut self, seed: K) -> Result<Option<K::Value>, A::Error> {
        let Some(key) = self.0.next_key::<Spanned<String>>()? else {
            return Ok(None);
        };
        let known = seed.deserialize(StrDeserializer::<A::Error>::new(key.get_ref()));
        known.map(Some).map_err(|error| A::Error::custom(placed(key.start(), &error.to_string())))
    }

    fn next_value_seed<V: DeserializeSeed<'de>>(&mut self, seed: V) -> Result<V::Value, A::Error> {
        self.0.next_value_seed(seed)
    }
}

/// Stands before and after a place in an error's text.
const MARK: char = '\u{1}';

/// An error's text with a place in it.
pub fn placed(place: usize, text: &str) -> String {
    format!("{text}{MARK}{place}{MARK}")
}

/// Takes the place out of an error's text, if there is one.
pub fn take_place(text: &mut String) -> Option<usize> {
    let (before, rest) = text.split_once(MARK)?;
    let (place, after) = rest.split_once(MARK)?;
    let place = place.parse().ok()?;
    *text = format!("{before}{after}");
    Some(place)
}

/// A manifest needs a list of tables with a list in a table, and two names in a dotted key; this is plenty.
const DEEPEST: usize = 32;

/// The first place at which brackets stand deeper in each other, or a line has more dots, than `DEEPEST`. Strings and
/// comments don't count. Up to the first mistake in the text, this takes strings as the parser does.
pub fn too_deep(text: &str) -> Option<usize> {
    let (mut depth, mut dots) = (0usize, 0usize);
    let mut place = 0;
    while let Some(rest) = text.get(place..).filter(|rest| !rest.is_empty()) {
        let mut step = 1;
        match rest.as_bytes().first() {
            Some(b'[' | b'{') => depth += 1,
            Some(b']' | b'}') => depth = depth.saturating_sub(1),
            Some(b'.') => dots += 1,
            Some(b'\n') => dots = 0,
            Some(b'#') => step = rest.find('\n').unwrap_or(rest.len()),
            Some(b'"' | b'\'') => step = string(rest),
            _ => step = rest.chars().next().map_or(1, char::len_utf8),
        }
        if depth > DEEPEST || dots > DEEPEST {
            return Some(place);
        }
        place += step;
    }
    None
}

/// How long the string is that the text begins with.
fn string(text: &str) -> usize {
    let quote = text.get(..1).unwrap_or("");
    let long = [quote; 3].concat();
    let (open, close): (usize, &str) = if text.starts_with(&long) { (3, &long) } else { (1, quote) };
    let mut place = open;
    while let Some(rest) = text.get(place..).filter(|rest| !rest.is_empty()) {
        if rest.starts_with(close) {
            return place + open;
        }
        let mut characters = rest.chars();
        match characters.next() {
            Some('\n') if open == 1 => return place,
            Some('\\') if quote == "\"" => place += 1 + characters.next().map_or(0, char::len_utf8),
            Some(character) => place += character.len_utf8(),
            None => return place,
        }
    }
    text.len()
}
