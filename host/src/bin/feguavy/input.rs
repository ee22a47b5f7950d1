//! Terms from files, from standard input and from text.

use feguavy::LONGEST;
use std::fs::File;
use std::io::{self, ErrorKind, Read};
use std::path::PathBuf;

#[derive(Debug)]
pub enum Input {
    File(PathBuf),
    /// The bytes of standard input.
    Standard,
    Words(Vec<u16>),
    /// The text of standard input.
    StandardWords,
}

/// What an input holds.
pub enum Held<'a> {
    Words(&'a [u16]),
    /// Bytes that are no list of 0 to 1,024 words, which is refusal 4; why they are none.
    NoList(&'static str),
}

/// What inputs are read into, one after another.
pub struct Room {
    /// Those of the longest term, and one more to see that there are more.
    bytes: [u8; 2 * LONGEST + 1],
    words: Vec<u16>,
}

impl Default for Room {
    fn default() -> Room {
        Room { bytes: [0; 2 * LONGEST + 1], words: Vec::with_capacity(LONGEST) }
    }
}

impl Input {
    /// What it is called in answers.
    pub fn name(&self) -> String {
        match self {
            Input::File(path) => path.to_string_lossy().into_owned(),
            Input::Standard | Input::StandardWords => "-".to_string(),
            Input::Words(words) => words.iter().map(|word| word.to_string()).collect::<Vec<_>>().join(" "),
        }
    }

    pub fn read<'a>(&'a self, room: &'a mut Room) -> Result<Held<'a>, String> {
        let count = match self {
            Input::Words(words) => return Ok(Held::Words(words)),
            Input::StandardWords => {
                let mut text = String::new();
                io::stdin().lock().read_to_string(&mut text).map_err(|error| error.to_string())?;
                room.words = words(&text)?;
                return Ok(Held::Words(&room.words));
            }
            Input::File(path) => File::open(path).and_then(|file| fill(file, &mut room.bytes)),
            Input::Standard => fill(io::stdin().lock(), &mut room.bytes),
        };
        let bytes = &room.bytes[..count.map_err(|error| error.to_string())?];
        Ok(match bytes.len() {
            count if count > 2 * LONGEST => Held::NoList("over 2,048 bytes, which are over 1,024 words (refusal 4)"),
            count if count % 2 == 1 => Held::NoList("an odd number of bytes, which are no words (refusal 4)"),
            _ => {
                room.words.clear();
                room.words.extend(bytes.chunks_exact(2).map(|pair| u16::from_le_bytes([pair[0], pair[1]])));
                Held::Words(&room.words)
            }
        })
    }
}

/// Reads until the end or until the room is full, and answers how many bytes.
fn fill(mut source: impl Read, room: &mut [u8]) -> io::Result<usize> {
    let mut count = 0;
    while count < room.len() {
        match source.read(&mut room[count..]) {
            Ok(0) => break,
            Ok(more) => count += more,
            Err(error) if error.kind() == ErrorKind::Interrupted => {}
            Err(error) => return Err(error),
        }
    }
    Ok(count)
}

/// Words in decimal, parted by white space.
pub fn words(text: &str) -> Result<Vec<u16>, String> {
    let word = |word: &str| {
        let number = crate::options::number(word).and_then(|number| u16::try_from(number).ok());
        number.ok_or(format!("a word is a number from 0 to 65535, and not {word}"))
    };
    text.split_ascii_whitespace().map(word).collect()
}
