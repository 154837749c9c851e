//! The paper's order of words: shorter first, then lower letters first.

use std::cmp::Ordering;

/// Compares two words in the paper's order.
pub fn compare(left: &[u8], right: &[u8]) -> Ordering {
    left.len().cmp(&right.len()).then_with(|| left.cmp(right))
}

/// The word that follows in the order, over the letters 0 to k-1.
pub fn following(word: &[u8], k: usize) -> Vec<u8> {
    let mut next = word.to_vec();
    for letter in next.iter_mut().rev() {
        if usize::from(*letter) + 1 < k {
            *letter += 1;
            return next;
        }
        *letter = 0;
    }
    // Every letter was the last one: the next word is the first of the next length.
    next.push(0);
    next
}

/// Two words written one after the other.
pub fn joined(first: &[u8], second: &[u8]) -> Vec<u8> {
    [first, second].concat()
}

#[cfg(test)]
mod tests {
    use super::*;

    #[test]
    fn following_words_rise_without_a_gap() {
        for k in 1..=3 {
            let mut word = Vec::new();
            let mut met = 1;
            while word.len() < 5 {
                let next = following(&word, k);
                assert_eq!(compare(&word, &next), Ordering::Less);
                word = next;
                met += 1;
            }
            let shorter: usize = (0..5).map(|length| k.pow(length)).sum();
            assert_eq!(met, shorter + 1);
        }
    }
}
