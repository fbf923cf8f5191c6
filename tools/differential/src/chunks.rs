//! Taking the original's bytes apart. An error says what is not as a file of this kind has it.

use crate::hex;

#[derive(Clone, Copy)]
pub struct Chunk<'a> {
    pub name: [u8; 4],
    /// Name, size, data and pad.
    pub whole: &'a [u8],
    pub data: &'a [u8],
}

/// The first `count` bytes, and the rest.
fn split(bytes: &[u8], count: u64) -> Result<(&[u8], &[u8]), String> {
    usize::try_from(count)
        .ok()
        .and_then(|count| bytes.split_at_checked(count))
        .ok_or_else(|| format!("{count} bytes expected, {} are left", bytes.len()))
}

fn array<const N: usize>(bytes: &[u8]) -> Result<([u8; N], &[u8]), String> {
    let (front, rest) = split(bytes, N as u64)?;
    Ok((front.try_into().map_err(|_| "a short front")?, rest))
}

/// The chunk at the front, and what follows it.
fn first(bytes: &[u8]) -> Result<(Chunk<'_>, &[u8]), String> {
    let (name, rest) = array::<4>(bytes)?;
    let (size, rest) = array::<8>(rest)?;
    let size = u64::from_be_bytes(size);
    let (data, rest) = split(rest, size)?;
    let (_, rest) = split(rest, size % 2)?;
    let whole = &bytes[..bytes.len() - rest.len()];
    Ok((Chunk { name, whole, data }, rest))
}

/// The chunks that fill `bytes`.
pub fn all(mut bytes: &[u8]) -> Result<Vec<Chunk<'_>>, String> {
    let mut chunks = Vec::new();
    while !bytes.is_empty() {
        let (chunk, rest) = first(bytes)?;
        chunks.push(chunk);
        bytes = rest;
    }
    Ok(chunks)
}

/// The chunks of FRM8 that are in a header: those before the sound.
pub fn before_sound(header: &[u8]) -> Result<Vec<Chunk<'_>>, String> {
    let (name, rest) = array::<4>(header)?;
    let (_, rest) = array::<8>(rest)?;
    let (form, mut rest) = array::<4>(rest)?;
    if &name != b"FRM8" || &form != b"DSD " {
        return Err(format!("a header that begins {} {}", hex(&name), hex(&form)));
    }
    let mut chunks = Vec::new();
    while !rest.starts_with(b"DSD ") && !rest.starts_with(b"DST ") {
        let (chunk, after) = first(rest)?;
        chunks.push(chunk);
        rest = after;
    }
    Ok(chunks)
}

/// The chunk of this name, if there is one; there may not be two.
pub fn only<'a>(chunks: &[Chunk<'a>], name: &[u8; 4]) -> Result<Option<Chunk<'a>>, String> {
    let mut named = chunks.iter().filter(|chunk| &chunk.name == name);
    match (named.next(), named.next()) {
        (found, None) => Ok(found.copied()),
        _ => Err(format!("two chunks {}", name.escape_ascii())),
    }
}

/// The text of DIAR's or DITI's data: a count, the text, and a pad if it is counted.
pub fn counted_text(data: &[u8]) -> Result<&[u8], String> {
    let (count, rest) = array::<4>(data)?;
    let (text, pad) = split(rest, u64::from(u32::from_be_bytes(count)))?;
    match (text.len() % 2, pad) {
        (_, []) | (1, [0]) => Ok(text),
        _ => Err(format!("after a counted text: {}", hex(pad))),
    }
}

/// The texts of COMT's data.
pub fn comment_texts(data: &[u8]) -> Result<Vec<&[u8]>, String> {
    let (count, mut rest) = array::<2>(data)?;
    let mut texts = Vec::new();
    for _ in 0..u16::from_be_bytes(count) {
        let (_, after) = split(rest, 10)?;
        let (length, after) = array::<4>(after)?;
        let length = u64::from(u32::from_be_bytes(length));
        let (text, after) = split(after, length)?;
        (_, rest) = split(after, length % 2)?;
        texts.push(text);
    }
    if rest.is_empty() {
        Ok(texts)
    } else {
        Err(format!("after the last comment: {}", hex(rest)))
    }
}
