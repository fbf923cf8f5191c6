//! The CRC of a position's content as the original works it out. Its function is private there, so build.rs cuts its text
//! out of the original's file.

#![forbid(unsafe_code)]

mod original {
    include!(concat!(env!("OUT_DIR"), "/crc.rs"));
}

pub fn crc(content: &[u8]) -> u32 {
    original::crc(content)
}
