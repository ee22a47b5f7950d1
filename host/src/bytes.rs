//! Words as bytes, as `report` reads them: two bytes a word, low byte first.

/// The words of a list of bytes, low byte first; none where the number of bytes is odd.
///
/// ```
/// assert_eq!(feguavy::words_from_bytes(&[4, 0, 0, 0, 16, 0]), Some(vec![4, 0, 16]));
/// assert_eq!(feguavy::words_from_bytes(&[4, 0, 0]), None);
/// ```
pub fn words_from_bytes(bytes: &[u8]) -> Option<Vec<u16>> {
    let pairs = bytes.chunks_exact(2);
    pairs.remainder().is_empty().then(|| pairs.map(|pair| u16::from_le_bytes([pair[0], pair[1]])).collect())
}

/// The bytes of a list of words, low byte first.
///
/// ```
/// assert_eq!(feguavy::bytes_from_words(&[4, 0, 16]), [4, 0, 0, 0, 16, 0]);
/// ```
pub fn bytes_from_words(words: &[u16]) -> Vec<u8> {
    words.iter().flat_map(|word| word.to_le_bytes()).collect()
}
