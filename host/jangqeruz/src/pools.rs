//! The pools that texts and data stand in, and the rows that name their stretches.

use crate::errors::BuildError;

/// Start and length of a stretch of a pool.
pub(crate) type Stretch = [u32; 2];

/// Values joined; each stretch is told by where it starts.
#[derive(Default)]
pub(crate) struct Pool<T>(Vec<T>);

impl<T> Pool<T> {
    /// So many more values.
    fn add(&mut self, count: usize, values: impl Iterator<Item = T>) -> Result<Stretch, BuildError> {
        let start = self.0.len();
        let end = start.checked_add(count).and_then(|end| u32::try_from(end).ok());
        let (Ok(start), Some(_)) = (u32::try_from(start), end) else { return Err(BuildError::TooLarge) };
        let length = u32::try_from(count).map_err(|_| BuildError::TooLarge)?;
        reserve(&mut self.0, count)?;
        self.0.extend(values.take(count));
        Ok([start, length])
    }

    pub(crate) fn values(&self) -> &[T] {
        &self.0
    }
}

impl Pool<u32> {
    /// A text, a value for each character.
    pub(crate) fn text(&mut self, text: &str) -> Result<Stretch, BuildError> {
        self.add(text.chars().count(), text.chars().map(u32::from))
    }
}

impl Pool<u8> {
    pub(crate) fn bytes(&mut self, bytes: &[u8]) -> Result<Stretch, BuildError> {
        self.add(bytes.len(), bytes.iter().copied())
    }
}

/// Room for so many more values.
pub(crate) fn reserve<T>(values: &mut Vec<T>, count: usize) -> Result<(), BuildError> {
    let bytes = (count as u64).saturating_mul(size_of::<T>() as u64);
    values.try_reserve(count).map_err(|_| BuildError::Memory { bytes })
}

/// A row of words for each item.
pub(crate) fn rows<T, const N: usize>(
    items: &[T],
    mut row: impl FnMut(&T) -> Result<[u32; N], BuildError>,
) -> Result<Vec<u32>, BuildError> {
    let mut words = Vec::new();
    reserve(&mut words, items.len().saturating_mul(N))?;
    for item in items {
        words.extend(row(item)?);
    }
    Ok(words)
}

#[cfg(test)]
mod tests {
    use super::*;

    const MOST: usize = u32::MAX as usize;

    #[test]
    fn a_pool_has_no_more_than_a_word_can_tell() {
        let none = || std::iter::repeat(());
        assert_eq!(Pool::default().add(MOST + 1, none()), Err(BuildError::TooLarge));
        assert_eq!(Pool::default().add(usize::MAX, none()), Err(BuildError::TooLarge));
        let mut pool = Pool(vec![(); MOST - 2]);
        assert_eq!(pool.add(2, none()), Ok([u32::MAX - 2, 2]));
        assert_eq!(pool.add(0, none()), Ok([u32::MAX, 0]));
        assert_eq!(pool.add(1, none()), Err(BuildError::TooLarge));
        assert_eq!(pool.add(usize::MAX, none()), Err(BuildError::TooLarge));
        assert_eq!(pool.values().len(), MOST);
    }

    #[test]
    fn stretches_stand_behind_each_other() {
        let mut texts = Pool::default();
        assert_eq!(texts.text("Größe").unwrap(), [0, 5]);
        assert_eq!(texts.text("").unwrap(), [5, 0]);
        assert_eq!(texts.text("語").unwrap(), [5, 1]);
        assert_eq!(texts.values(), ['G', 'r', 'ö', 'ß', 'e', '語'].map(u32::from));
    }
}
