//! Tables in fixed point to be lent in tests: our own, others that are
//! accepted, and such at which a rule fails.

use crate::fixed::{difference_at, fixed_accept, fixed_fill};
use crate::random::Random;
use crate::reading::{refused, Answer, DONE};

pub type Table = Vec<i32>;

const MIN: i32 = i32::MIN;
const MAX: i32 = i32::MAX;

/// Pairs to be put anywhere: wrong first pairs, sizes that sum to 23,171 and
/// to more, and the ends of the range.
const PAIRS: [(i32, i32); 28] = [
    (16384, 0),
    (16383, 0),
    (16385, 0),
    (16384, 1),
    (-16384, 0),
    (0, 16384),
    (0, 0),
    (11585, 11586),
    (11586, 11585),
    (11586, 11586),
    (-11585, 11586),
    (-11586, 11585),
    (-11586, 11586),
    (23171, 0),
    (23172, 0),
    (0, 23171),
    (0, 23172),
    (-23171, 0),
    (-23172, 0),
    (MIN, 0),
    (MAX, 0),
    (0, MIN),
    (0, MAX),
    (MIN, MIN),
    (MIN, MAX),
    (MAX, MIN),
    (MAX, MAX),
    (MAX, 1),
];

/// Our own table for 2^n points.
pub fn sines(n: usize) -> Table {
    let mut table = vec![0; 1 << n];
    assert_eq!(fixed_fill(&mut table), DONE);
    table
}

fn with_pair(table: &[i32], place: usize, pair: (i32, i32)) -> Table {
    let mut table = table.to_vec();
    (table[2 * place], table[2 * place + 1]) = pair;
    table
}

/// The table with one part moved.
pub fn with_part_moved(mut table: Table, index: usize, by: i32) -> Table {
    table[index] += by;
    table
}

/// Our own table with one part a unit off, each part in turn.
pub fn one_off(n: usize) -> Vec<Table> {
    let places = (0..1 << n).flat_map(|index| [(index, -1), (index, 1)]);
    let moved = |(index, by)| with_part_moved(sines(n), index, by);
    places.map(moved).collect()
}

/// For N = 4, every second pair within three units of (0, 16,384).
pub fn second_pairs() -> Vec<Table> {
    let pairs = (-3..=3).flat_map(|re| (16381..=16387).map(move |im| (re, im)));
    pairs.map(|pair| with_pair(&sines(2), 1, pair)).collect()
}

/// The first, second, middle and last pair of our own table replaced.
pub fn replaced(n: usize) -> Vec<Table> {
    let (table, half) = (sines(n), 1 << (n - 1));
    let mut places = vec![0, 1, half / 2, half - 1];
    places.retain(|&place| place < half);
    places.dedup();
    let mut tables = Vec::new();
    for place in places {
        let (re, im) = (table[2 * place], table[2 * place + 1]);
        let negative = [
            (re, -1),
            (re, -im),
            (re, MIN),
            (MIN, im),
            (MAX, im),
            (-re, im),
        ];
        for &pair in PAIRS.iter().chain(&negative) {
            tables.push(with_pair(&table, place, pair));
        }
    }
    tables
}

/// Two pairs at fault: one that does not follow, one with a negative part.
pub fn two_faults() -> Vec<Table> {
    let mut tables = Vec::new();
    for (first, second) in (0..4).flat_map(|i| (0..4).map(move |j| (i, j))) {
        let table = with_part_moved(sines(3), 2 * first, 40);
        tables.push(with_pair(&table, second, (table[2 * second], -1)));
        tables.push(with_pair(&table, second, (MIN, MAX)));
    }
    tables
}

/// "Taking a table's beginning for the shorter table."
pub fn beginnings() -> Vec<Table> {
    let both = (2..=6).flat_map(|short| (short + 1..=6).map(move |long| (short, long)));
    let cut = |(short, long): (usize, usize)| sines(long)[..1 << short].to_vec();
    both.chain([(10, 12)]).map(cut).collect()
}

/// An accepted table that turns away from our own by a unit with each pair
/// until the middle, and back again.
pub fn drifting(n: usize) -> Table {
    let half = 1 << (n - 1);
    let pair = |i: usize| {
        let units = i.min(half - i).saturating_sub(1) as f64;
        let angle = std::f64::consts::PI * i as f64 / half as f64 + units / 16384.0;
        [angle.cos(), angle.sin()].map(|v| (16384.0 * v).round() as i32)
    };
    (0..half).flat_map(pair).collect()
}

/// Our own table with all parts behind the first pair moved, by at most two
/// units.
pub fn moved(n: usize, random: &mut Random) -> Table {
    let reach = 1 + random.below(2);
    let mut table = sines(n);
    for part in &mut table[2..] {
        *part += random.below(2 * reach + 1) as i32 - reach as i32;
    }
    table
}

/// Moved tables that are as wanted; fewer than so many if they are rare.
fn searched(
    n: usize,
    count: usize,
    random: &mut Random,
    wanted: impl Fn(&Table) -> bool,
) -> Vec<Table> {
    let tries = (0..200_000).map(|_| moved(n, random));
    tries.filter(wanted).take(count).collect()
}

/// Accepted, and not our own.
pub fn others(n: usize, random: &mut Random) -> Vec<Table> {
    let sizes = |pair: &[i32]| pair[0].abs() + pair[1].abs();
    let full = |t: &Table| t.chunks(2).any(|pair| sizes(pair) == 23171);
    let other = |t: &Table| fixed_accept(t) == DONE && *t != sines(n);
    let mut tables = searched(n, 6, random, other);
    tables.extend(searched(n, 6, random, |t| other(t) && full(t)));
    tables
}

/// Accepted with a difference of just 32,768.
pub fn at_the_bound(n: usize, random: &mut Random) -> Vec<Table> {
    let reached = |t: &Table| (1..=t.len() / 2).any(|i| difference_at(t, i) == 32768);
    searched(n, 4, random, |t| fixed_accept(t) == DONE && reached(t))
}

/// Refused at a difference of just 32,769.
pub fn beyond_the_bound(n: usize, random: &mut Random) -> Vec<Table> {
    let beyond = |t: &Table| match fixed_accept(t) {
        Answer { number: 4, place } => place > 0 && difference_at(t, place) == 32769,
        _ => false,
    };
    searched(n, 4, random, beyond)
}

/// Refused by the closing rule alone.
pub fn not_closing(n: usize, random: &mut Random) -> Vec<Table> {
    let closing = refused(4, 1 << (n - 1));
    searched(n, 4, random, |t| fixed_accept(t) == closing)
}
