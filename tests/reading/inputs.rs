//! What the makers of test inputs share.

use crate::random::Random;

/// The first, a middle and the last position of so many from a start on.
pub fn positions(start: usize, count: usize) -> [usize; 3] {
    [start, start + count / 2, start + count - 1]
}

/// Every length up to 130, then those about and between powers of two.
pub fn lengths() -> Vec<usize> {
    let about = |k: usize| [(3_usize << k) / 4, (1 << k) - 1, 1 << k, (1 << k) + 1];
    (0..=130).chain((8..=14).flat_map(about)).collect()
}

/// Each of them several times, and permitted ones more often.
pub fn lengths_often() -> Vec<usize> {
    let permitted = (0..=13).flat_map(|n| [1 << n; 60]);
    let each = lengths().into_iter().flat_map(|length| [length; 6]);
    each.chain(permitted).collect()
}

/// A length that is not the right one, near it or far off.
pub fn wrong_length(right: usize, random: &mut Random) -> usize {
    let mut lengths = vec![
        0,
        1,
        right / 2,
        right.saturating_sub(1),
        right + 1,
        2 * right,
    ];
    lengths.push(random.place(5000));
    lengths.retain(|&length| length != right);
    random.one_of(&lengths)
}
