//! The verdict on a build.

use library::checks;

use crate::area::Area;
use crate::errors::BuildError;
use crate::options::Options;
use crate::words::Inputs;

/// Whether [`File::build`](crate::File::build) would build a file, without building it: the first refusal of the area,
/// the options and the lengths, or none.
pub fn verdict(area: &Area, options: &Options, lengths: &[u32]) -> Result<(), BuildError> {
    let inputs = Inputs::new(area, options)?;
    let verdict = checks::verdict(&inputs.words, inputs.lent(lengths));
    match verdict.number {
        0 => Ok(()),
        number => Err(BuildError::of(number.into(), verdict.detail.into())),
    }
}
