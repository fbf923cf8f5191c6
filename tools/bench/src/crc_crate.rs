//! The CRC by the crate `crc` that Debian packages, if the program is built with it.

/// What is said where it is not.
pub const MISSING: &str = "no crate `crc` 1.8.1 in /usr/share/cargo/registry: Debian 12 has it in librust-crc-dev";

#[cfg(not(feature = "crc_crate"))]
pub enum CrcCrate {}

#[cfg(not(feature = "crc_crate"))]
impl CrcCrate {
    pub fn new() -> Option<CrcCrate> {
        None
    }

    pub fn crc(&self, _: &[u8]) -> u32 {
        match *self {}
    }
}

/// The table that the crate's loop takes.
#[cfg(feature = "crc_crate")]
pub struct CrcCrate([u32; 256]);

/// This version of the crate has one loop, for CRCs whose least significant bit is the first one, inverted before and after.
/// With the bytes of each of the table's numbers swapped, the same loop works out a CRC whose most significant bit is the
/// first one, with swapped bytes.
#[cfg(feature = "crc_crate")]
impl CrcCrate {
    pub fn new() -> Option<CrcCrate> {
        let reflected = crc::crc32::make_table(0x8000_0011_u32.reverse_bits());
        let entry = |byte: u8| reflected[usize::from(byte.reverse_bits())].reverse_bits().swap_bytes();
        Some(CrcCrate(std::array::from_fn(|byte| entry(byte as u8))))
    }

    pub fn crc(&self, content: &[u8]) -> u32 {
        let CrcCrate(table) = self;
        (!crc::crc32::update(!0, table, content)).swap_bytes()
    }
}
