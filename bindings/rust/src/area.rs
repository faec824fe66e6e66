//! How kind 4's exception area grows, so that its owner never runs out of room.

/// Makes the area at least twice as long. Words past the exception table have to be zero, so the sketch in it stays in good order.
///
/// It starts at an eighth of the register bytes, which holds the exceptions of hashed input many times over, and ends at 2k words, which
/// are always enough: that is proved (`twice_is_room`).
pub fn grow(aux: &mut Vec<u32>, k: usize) {
    assert!(aux.len() < 2 * k, "no room in 2k words");
    let words = (2 * aux.len()).max(k / 64).max(16);
    aux.resize(words, 0);
}

#[cfg(test)]
mod tests {
    use super::*;

    #[test]
    fn ends_at_2k_words_after_few_steps() {
        for lg_k in 4..=21 {
            let k = 1 << lg_k;
            let (mut aux, mut steps) = (Vec::new(), 0);
            while aux.len() < 2 * k {
                let before = aux.len();
                grow(&mut aux, k);
                assert!(aux.len() >= 2 * before);
                steps += 1;
                assert!(steps <= 8, "{steps} steps at lg_k {lg_k}");
            }
            assert_eq!(aux.len(), 2 * k);
        }
    }
}
