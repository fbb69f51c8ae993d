//! The fixed-point calls of document 01, and its steps without rounding.

use crate::reading::{log, perform, refused, reversed, stages, Answer, DONE};

/// "Numbers are pairs (real, imaginary), interleaved".
pub type Pair = (i128, i128);

const UNIT: i128 = 16384;

pub fn pairs(numbers: &[i32]) -> Vec<Pair> {
    let pair = |p: &[i32]| (i128::from(p[0]), i128::from(p[1]));
    numbers.chunks_exact(2).map(pair).collect()
}

fn write(numbers: &mut [i32], pairs: &[Pair]) {
    for (place, pair) in numbers.chunks_exact_mut(2).zip(pairs) {
        place[0] = pair.0 as i32;
        place[1] = pair.1 as i32;
    }
}

fn times(a: Pair, b: Pair) -> Pair {
    (a.0 * b.0 - a.1 * b.1, a.0 * b.1 + a.1 * b.0)
}

/// "v/D becomes the floor of (v + D/2)/D, so a half goes up, for negative v
/// too." (div_euclid is the floor, D being positive.)
fn rounded(v: i128, d: i128) -> i128 {
    (v + d / 2).div_euclid(d)
}

/// The pairs of a table; "T[N/2] stands for (-16,384, 0)".
fn closed(table: &[i32]) -> Vec<Pair> {
    let mut t = pairs(table);
    t.push((-UNIT, 0));
    t
}

/// By how much "T[i-1] times T[1] differs from 16,384 T[i]" in one part, the
/// larger one.
fn difference(t: &[Pair], i: usize) -> i128 {
    let (re, im) = times(t[i - 1], t[1]);
    let parts = (re - UNIT * t[i].0, im - UNIT * t[i].1);
    parts.0.abs().max(parts.1.abs())
}

/// The same for a table's pair i, from 1 to N/2.
pub fn difference_at(table: &[i32], i: usize) -> i128 {
    difference(&closed(table), i)
}

/// "T[0] is (16,384, 0)"; "the imaginary part is at least 0, and the sizes of
/// both parts sum to at most 23,171"; "for i from 1 to N/2, T[i-1] times T[1]
/// differs from 16,384 T[i] by at most 32,768 in each part".
fn first_failing_pair(table: &[i32]) -> Option<usize> {
    let t = closed(table);
    let half = t.len() - 1;
    let alone = |i: usize| {
        let (re, im) = t[i];
        (i > 0 || t[0] == (UNIT, 0)) && im >= 0 && re.abs() + im.abs() <= 23171
    };
    let follows = |i: usize| difference(&t, i) <= 32768;
    (0..=half).find(|&i| (i < half && !alone(i)) || (i > 0 && !follows(i)))
}

/// Acceptance alone: 3, 4.
pub fn fixed_accept(table: &[i32]) -> Answer {
    if log(table.len()).is_none() {
        return refused(3, 0);
    }
    match first_failing_pair(table) {
        Some(place) => refused(4, place),
        None => DONE,
    }
}

/// "a buffer of N points has 2N numbers": the n of a permitted N.
fn points_log(numbers: &[i32]) -> Option<usize> {
    log(numbers.len() / 2).filter(|_| numbers.len() % 2 == 0)
}

/// "A stage replaces a, b by (a + b)/2 and T(a - b)/32,768, where T is the
/// table's pair at the exponent. Each part is worked out whole and rounded
/// once".
fn rounded_step(a: Pair, b: Pair, t: Pair) -> (Pair, Pair) {
    let sum = (rounded(a.0 + b.0, 2), rounded(a.1 + b.1, 2));
    let product = times(t, (a.0 - b.0, a.1 - b.1));
    (
        sum,
        (rounded(product.0, 2 * UNIT), rounded(product.1, 2 * UNIT)),
    )
}

/// "Only schedules 1, 2 and 3 exist here.": 7, 1, 6, 3, 4, 5.
pub fn fixed_transform(
    schedule: u32,
    buf: &mut [i32],
    table: &[i32],
    scratch: &mut [i32],
) -> Answer {
    if !(1..=3).contains(&schedule) {
        return refused(7, 0);
    }
    let Some(n) = points_log(buf) else {
        return refused(1, 0);
    };
    if schedule == 2 && scratch.len() != buf.len() {
        return refused(6, 0);
    }
    if table.len() != buf.len() / 2 {
        return refused(3, 0);
    }
    if let Some(place) = first_failing_pair(table) {
        return refused(4, place);
    }
    // "A sample part lies from -32,767 to 32,767."
    if let Some(place) = buf.iter().position(|part| !(-32767..=32767).contains(part)) {
        return refused(5, place);
    }
    let (t, mut values) = (pairs(table), pairs(buf));
    for stage in stages(schedule, n) {
        perform(&stage, &mut values, |a, b, e| rounded_step(a, b, t[e]));
    }
    write(buf, &values);
    if schedule == 2 {
        scratch.fill(0);
    }
    DONE
}

/// Bit reversal of pairs: 1.
pub fn fixed_reverse(buf: &mut [i32]) -> Answer {
    let Some(n) = points_log(buf) else {
        return refused(1, 0);
    };
    let values = reversed(&pairs(buf), n);
    write(buf, &values);
    DONE
}

/// "the nearest whole numbers to 16,384 times cosine and sine", pair i of
/// 4,096 points.
fn sine_pair(i: usize) -> Pair {
    let angle = std::f64::consts::TAU * i as f64 / 4096.0;
    let nearest = |v: f64| (UNIT as f64 * v).round() as i128;
    (nearest(angle.cos()), nearest(angle.sin()))
}

/// "Every (4,096/N)-th pair is the table for N."; "Filling in fixed point
/// knows 3 only."
pub fn fixed_fill(table: &mut [i32]) -> Answer {
    let length = table.len();
    if log(length).is_none() {
        return refused(3, 0);
    }
    let chosen: Vec<Pair> = (0..length / 2)
        .map(|i| sine_pair(i * (4096 / length)))
        .collect();
    write(table, &chosen);
    DONE
}

/// A whole number of 256 bits, low word first, in two's complement.
#[derive(Clone, Copy, Debug, PartialEq, Eq)]
pub struct Wide([u64; 4]);

impl Wide {
    pub fn new(v: i128) -> Wide {
        let sign = (v >> 127) as u64;
        Wide([v as u64, (v >> 64) as u64, sign, sign])
    }

    pub fn plus(self, other: Wide) -> Wide {
        let (mut words, mut carry) = ([0; 4], 0);
        for i in 0..4 {
            let total = u128::from(self.0[i]) + u128::from(other.0[i]) + carry;
            words[i] = total as u64;
            carry = total >> 64;
        }
        Wide(words)
    }

    fn negated(self) -> Wide {
        Wide(self.0.map(|word| !word)).plus(Wide::new(1))
    }

    pub fn minus(self, other: Wide) -> Wide {
        self.plus(other.negated())
    }

    pub fn times(self, factor: i64) -> Wide {
        let (mut words, mut carry) = ([0; 4], 0);
        for i in 0..4 {
            let total = u128::from(self.0[i]) * u128::from(factor.unsigned_abs()) + carry;
            words[i] = total as u64;
            carry = total >> 64;
        }
        let size = Wide(words);
        if factor < 0 {
            size.negated()
        } else {
            size
        }
    }

    fn is_negative(self) -> bool {
        self.0[3] >> 63 == 1
    }

    pub fn size(self) -> Wide {
        if self.is_negative() {
            self.negated()
        } else {
            self
        }
    }

    pub fn at_most(self, other: Wide) -> bool {
        !other.minus(self).is_negative()
    }

    /// 2^k times this.
    pub fn shifted(self, k: usize) -> Wide {
        (0..k).fold(self, |v, _| v.times(2))
    }
}

type WidePair = (Wide, Wide);

/// "A stage replaces a, b by 16,384(a + b) and T(a - b), whole numbers of any
/// size."
fn unrounded_step(a: WidePair, b: WidePair, t: Pair) -> (WidePair, WidePair) {
    let (re, im) = (t.0 as i64, t.1 as i64);
    let sum = |a: Wide, b: Wide| a.plus(b).times(UNIT as i64);
    let d = (a.0.minus(b.0), a.1.minus(b.1));
    let product = (
        d.0.times(re).minus(d.1.times(im)),
        d.1.times(re).plus(d.0.times(im)),
    );
    ((sum(a.0, b.0), sum(a.1, b.1)), product)
}

/// "The same steps without rounding", for an accepted table; the parts in
/// buffer order.
pub fn unrounded(schedule: u32, buf: &[i32], table: &[i32]) -> Vec<Wide> {
    let t = pairs(table);
    let widened = |p: Pair| (Wide::new(p.0), Wide::new(p.1));
    let mut values: Vec<WidePair> = pairs(buf).into_iter().map(widened).collect();
    let n = log(values.len()).expect("a permitted length");
    for stage in stages(schedule, n) {
        perform(&stage, &mut values, |a, b, e| unrounded_step(a, b, t[e]));
    }
    values.into_iter().flat_map(|(re, im)| [re, im]).collect()
}

/// "e(0) = 0 and e(s+1) = 46,342 e(s) + 2^(15s+14)".
pub fn distance(n: usize) -> Wide {
    let next = |e: Wide, s: usize| e.times(46342).plus(Wide::new(1).shifted(15 * s + 14));
    (0..n).fold(Wide::new(0), next)
}
