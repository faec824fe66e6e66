//! Lists and sets, laid out by hand.

fn laid_out(head: &[u8], words: &[u32]) -> Vec<u8> {
    head.iter().copied().chain(words.iter().flat_map(|word| word.to_le_bytes())).collect()
}

/// Of at most 255 words.
pub fn list(lg_k: u8, words: &[u32]) -> Vec<u8> {
    laid_out(&[2, 1, 7, lg_k, 3, 8, words.len() as u8, 8], words)
}

pub fn set(lg_k: u8, words: &[u32]) -> Vec<u8> {
    let [a, b, c, d] = (words.len() as u32).to_le_bytes();
    laid_out(&[3, 1, 7, lg_k, 5, 8, 0, 9, a, b, c, d], words)
}
