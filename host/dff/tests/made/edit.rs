//! Files taken apart into chunks and put together again, to damage them in one place.

/// A chunk with its data, or with chunks after the first bytes of its data.
#[derive(Clone, Debug, PartialEq)]
pub struct Part {
    pub name: [u8; 4],
    /// The data, or what comes before the chunks.
    pub data: Vec<u8>,
    pub chunks: Vec<Part>,
}

impl Part {
    pub fn leaf(name: &[u8; 4], data: &[u8]) -> Part {
        Part { name: *name, data: data.to_vec(), chunks: vec![] }
    }

    pub fn bytes(&self) -> Vec<u8> {
        let data = [self.data.clone(), self.chunks.iter().flat_map(Part::bytes).collect()].concat();
        let mut bytes = [self.name.as_slice(), &(data.len() as u64).to_be_bytes(), &data].concat();
        if data.len() % 2 == 1 {
            bytes.push(0);
        }
        bytes
    }

    /// Which of its chunks has this name.
    pub fn find(&self, name: &[u8; 4]) -> usize {
        self.chunks.iter().position(|part| part.name == *name).unwrap()
    }

    pub fn at(&mut self, name: &[u8; 4]) -> &mut Part {
        let place = self.find(name);
        &mut self.chunks[place]
    }
}

/// A right file in parts.
pub fn parts(bytes: &[u8]) -> Part {
    let (part, rest) = part(bytes);
    assert!(rest.is_empty());
    part
}

fn part(bytes: &[u8]) -> (Part, &[u8]) {
    let (name, size) = (bytes[..4].try_into().unwrap(), u64::from_be_bytes(bytes[4..12].try_into().unwrap()) as usize);
    let (data, rest) = (&bytes[12..12 + size], &bytes[12 + size + size % 2..]);
    let before = match &name {
        b"FRM8" | b"PROP" => 4,
        b"DIIN" | b"DST " => 0,
        _ => size,
    };
    let mut found = Part { name, data: data[..before].to_vec(), chunks: vec![] };
    let mut left = &data[before..];
    while !left.is_empty() {
        let (inner, next) = part(left);
        found.chunks.push(inner);
        left = next;
    }
    (found, rest)
}
