//! A small ID3v2.3 tag: title and artist, ASCII in ISO 8859-1.

pub fn tag(title: &str, artist: &str) -> Vec<u8> {
    let frames = [frame(b"TIT2", title), frame(b"TPE1", artist)].concat();
    [b"ID3\x03\x00\x00", &size(frames.len())[..], &frames].concat()
}

fn frame(name: &[u8; 4], text: &str) -> Vec<u8> {
    let data = [&[0], text.as_bytes()].concat();
    [&name[..], &(data.len() as u32).to_be_bytes(), &[0, 0], &data].concat()
}

/// The whole tag's size, seven bits in each byte.
fn size(bytes: usize) -> [u8; 4] {
    [21, 14, 7, 0].map(|shift| (bytes >> shift) as u8 & 0x7F)
}
