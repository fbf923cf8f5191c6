//! Texts of a file: titles of tracks, artist and title, and comments, of characters that look random. Most are written as
//! they are, the others become the replacement.

use std::iter;

use library::checks::Comment;
use library::markers::{Text, Track};
use original::TitledTrack;

use crate::random::Random;

/// Characters of a track's title, of the artist and of the title.
const TITLE: usize = 40;

/// The characters that become the replacement. On average one of so many is one of them.
const REPLACED: [char; 6] = ['\n', 'é', 'ß', '–', '語', '𝄞'];
const ONE_OF: u32 = 32;

/// The texts of a file, as each side is given them.
pub struct Texts {
    /// What the file is called.
    pub name: &'static str,
    /// The positions that its tracks fill.
    pub positions: usize,
    pub original: original::Texts,
    pub ours: Rows,
}

/// What our build is lent: the characters of all texts, one text behind the other, and rows that say where each one is.
#[derive(Default)]
pub struct Rows {
    pub pool: Vec<u32>,
    pub tracks: Vec<Track>,
    pub comments: Vec<Comment>,
    pub artist: Text,
    pub title: Text,
}

impl Texts {
    /// The texts of a file of so many positions: of tracks, each starting where the one before ends, and comments of so
    /// many characters each.
    pub fn new(name: &'static str, positions: usize, tracks: usize, comments: usize, characters: usize) -> Texts {
        let mut random = Random(19_991_231);
        let mut text = |characters: usize| iter::repeat_with(|| character(&mut random)).take(characters).collect();
        let duration = positions / tracks;
        let starts = (0..tracks).map(|number| (number * duration) as u32);
        let original = original::Texts {
            tracks: starts.map(|start| TitledTrack { start, duration: duration as u32, title: text(TITLE) }).collect(),
            artist: text(TITLE),
            title: text(TITLE),
            comments: (0..comments).map(|_| text(characters)).collect(),
        };
        Texts { name, positions, ours: Rows::new(&original), original }
    }

    /// How many characters all texts have.
    pub fn characters(&self) -> usize {
        self.ours.pool.len()
    }
}

pub fn character(random: &mut Random) -> char {
    if random.word().is_multiple_of(ONE_OF) {
        return REPLACED[random.word() as usize % REPLACED.len()];
    }
    let letters = b' '..=b'~';
    (letters.start() + (random.word() % letters.len() as u32) as u8).into()
}

impl Rows {
    fn new(texts: &original::Texts) -> Rows {
        let mut rows = Rows::default();
        for TitledTrack { start, duration, title } in &texts.tracks {
            let [place, length] = rows.add(title);
            rows.tracks.push([*start, *duration, place, length]);
        }
        for text in &texts.comments {
            let [place, length] = rows.add(text);
            rows.comments.push([0, 0, 0, 0, 0, 0, 0, place, length]);
        }
        rows.artist = rows.add_given(&texts.artist);
        rows.title = rows.add_given(&texts.title);
        rows
    }

    /// A text's place in the pool, and its length.
    fn add(&mut self, text: &str) -> [u32; 2] {
        let place = self.pool.len();
        self.pool.extend(text.chars().map(u32::from));
        [place, self.pool.len() - place].map(|number| number as u32)
    }

    /// The same for a text that could be missing.
    fn add_given(&mut self, text: &str) -> Text {
        let [place, length] = self.add(text);
        [1, place, length]
    }
}
