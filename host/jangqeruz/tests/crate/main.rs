//! Tests of the crate over the compiled library.

mod dates;
mod draw;
mod draws;
mod figures;
mod index;
mod limit;
mod long_texts;
mod random;
mod reads;
mod recording;
mod refused;
mod sources;
mod table;
mod tracks;
