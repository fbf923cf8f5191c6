//! Buffers that are kept from read to read.

use crate::errors::ReadError;

/// What a source fills for a read. Handed to one read after the other, it takes memory only where one needs more than
/// those before.
#[derive(Debug, Default)]
pub struct Scratch {
    coded: Vec<u8>,
    plain: Vec<u8>,
}

impl Scratch {
    /// Two slices of so many bytes, with whatever bytes are in them.
    pub(crate) fn slices(&mut self, coded: u64, plain: u64) -> Result<(&mut [u8], &mut [u8]), ReadError> {
        Ok((slice(&mut self.coded, coded)?, slice(&mut self.plain, plain)?))
    }
}

fn slice(buffer: &mut Vec<u8>, bytes: u64) -> Result<&mut [u8], ReadError> {
    let memory = || ReadError::Memory { bytes };
    let wanted = usize::try_from(bytes).map_err(|_| memory())?;
    let more = wanted.saturating_sub(buffer.len());
    if more > 0 {
        buffer.try_reserve(more).map_err(|_| memory())?;
        buffer.resize(wanted, 0);
    }
    buffer.get_mut(..wanted).ok_or_else(memory)
}

#[cfg(test)]
mod tests {
    use super::*;

    #[test]
    fn buffers_only_grow() {
        let mut scratch = Scratch::default();
        scratch.slices(3, 0).unwrap().0.fill(7);
        let (coded, plain) = scratch.slices(5, 2).unwrap();
        assert_eq!((&*coded, &*plain), (&[7, 7, 7, 0, 0][..], &[0, 0][..]));
        assert_eq!(scratch.slices(1, 0).unwrap().0, [7]);
        assert_eq!(scratch.slices(5, 0).unwrap().0, [7, 7, 7, 0, 0]);
    }

    #[test]
    fn memory_that_is_not_there_is_told() {
        let mut scratch = Scratch::default();
        assert!(matches!(scratch.slices(u64::MAX, 0), Err(ReadError::Memory { bytes: u64::MAX })));
        assert!(matches!(scratch.slices(0, u64::MAX / 2), Err(ReadError::Memory { .. })));
        assert!(scratch.slices(1, 1).is_ok());
    }
}
