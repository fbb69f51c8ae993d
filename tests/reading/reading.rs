//! A second reading of document 01: what the calls over residues answer and
//! leave behind. Plain and slow. Quoted sentences are document 01's.

/// "Each call answers a number and a place."
#[derive(Clone, Copy, Debug, PartialEq, Eq)]
pub struct Answer {
    pub number: u32,
    pub place: usize,
}

pub const DONE: Answer = refused(0, 0);

pub const fn refused(number: u32, place: usize) -> Answer {
    Answer { number, place }
}

/// "N = 2^n, from 2 to 4,096": the n of a permitted N.
pub fn log(length: usize) -> Option<usize> {
    (1..=12).find(|&n| length == 1 << n)
}

/// "rev(j) is j with its n bits reversed."
pub fn rev(j: usize, n: usize) -> usize {
    (0..n).map(|bit| ((j >> bit) & 1) << (n - 1 - bit)).sum()
}

/// What stands at place j afterwards stood at place rev(j) before.
pub fn reversed<T: Copy>(values: &[T], n: usize) -> Vec<T> {
    (0..values.len()).map(|j| values[rev(j, n)]).collect()
}

/// A step reads two places, looks up one exponent and writes two places.
pub struct Step {
    first: usize,
    second: usize,
    exponent: usize,
    sum: usize,
    difference: usize,
}

pub type Stage = Vec<Step>;

/// A step that writes where it reads.
fn staying(first: usize, second: usize, exponent: usize) -> Step {
    let (sum, difference) = (first, second);
    Step {
        first,
        second,
        exponent,
        sum,
        difference,
    }
}

/// Schedule 1: "Stage s works on N/2^s rows (call it r) and c = 2^s columns,
/// r' = r/2. Places rj + i and rj + i + r' with j < c, i < r' receive the
/// sum, and x^(c i) times the difference."
fn by_columns(n: usize, s: usize) -> Stage {
    let (r, c) = ((1 << n) / (1 << s), 1 << s);
    let mut stage = Stage::new();
    for j in 0..c {
        for i in 0..r / 2 {
            stage.push(staying(r * j + i, r * j + i + r / 2, c * i));
        }
    }
    stage
}

/// Schedule 2: "Places k and k + N/2 give places 2k (sum) and 2k + 1 (x^e
/// times the difference), for k below N/2, e = k - (k mod 2^s)."
fn perfect_shuffle(n: usize, s: usize) -> Stage {
    let half = (1 << n) / 2;
    let step = |k| Step {
        first: k,
        second: k + half,
        exponent: k - k % (1 << s),
        sum: 2 * k,
        difference: 2 * k + 1,
    };
    (0..half).map(step).collect()
}

/// Schedule 3: "The first stage of schedule 1, then the same on each half of
/// the buffer [...]; the root of a half is x squared, so its exponents count
/// double in the lent table."
fn by_halves(start: usize, length: usize, stride: usize, stages: &mut Vec<Stage>) {
    if length == 1 {
        return;
    }
    let half = length / 2;
    let step = |i| staying(start + i, start + i + half, stride * i);
    stages.push((0..half).map(step).collect());
    by_halves(start, half, 2 * stride, stages);
    by_halves(start + half, half, 2 * stride, stages);
}

/// Schedule 4: "Stage t from 1 to n pairs l and l + 2^(t-1), where bit t - 1
/// of l is 0. [...] e = (N/2^t)(l mod 2^(t-1)); then sum and difference stay
/// at the two places."
fn thong(n: usize, t: usize) -> Stage {
    let (length, apart) = (1 << n, 1 << (t - 1));
    let pairs = (0..length).filter(|l| l & apart == 0);
    let step = |l| staying(l, l + apart, (length >> t) * (l % apart));
    pairs.map(step).collect()
}

/// Schedule 5: "Stage t from 1 to n takes l and l + N/2, multiplies the
/// second by x^e, and puts sum and difference at 2l and 2l + 1. e is N/2^t
/// times the reversal of the low t - 1 bits of l."
pub fn pease(n: usize, t: usize) -> Stage {
    let length = 1 << n;
    let step = |l| Step {
        first: l,
        second: l + length / 2,
        exponent: (length >> t) * rev(l % (1 << (t - 1)), t - 1),
        sum: 2 * l,
        difference: 2 * l + 1,
    };
    (0..length / 2).map(step).collect()
}

/// The stages of schedule 1 to 5, in the order in which they are done.
pub fn stages(schedule: u32, n: usize) -> Vec<Stage> {
    match schedule {
        1 => (0..n).map(|s| by_columns(n, s)).collect(),
        2 => (0..n).map(|s| perfect_shuffle(n, s)).collect(),
        3 => {
            let mut stages = Vec::new();
            by_halves(0, 1 << n, 1, &mut stages);
            stages
        }
        4 => (1..=n).map(|t| thong(n, t)).collect(),
        _ => (1..=n).map(|t| pease(n, t)).collect(),
    }
}

/// Does one stage: every step reads what stood before the stage.
pub fn perform<T: Copy>(stage: &Stage, values: &mut [T], pair: impl Fn(T, T, usize) -> (T, T)) {
    let step = |s: &Step| pair(values[s.first], values[s.second], s.exponent);
    let results: Vec<(T, T)> = stage.iter().map(step).collect();
    for (step, (sum, difference)) in stage.iter().zip(results) {
        values[step.sum] = sum;
        values[step.difference] = difference;
    }
}

/// Does stages over residues. Schedules 1 to 3 multiply the difference by
/// x^e; in 4 and 5 "the second is first multiplied by x^e".
pub fn run(schedule: u32, stages: &[Stage], buf: &mut [u32], m: u32, table: &[u32]) {
    let modulus = u64::from(m);
    let early = schedule >= 4;
    let mut values: Vec<u64> = buf.iter().map(|&v| u64::from(v)).collect();
    for stage in stages {
        perform(stage, &mut values, |a, b, e| {
            let factor = entry(e, m, table);
            let b = if early { factor * b % modulus } else { b };
            let difference = (a + modulus - b) % modulus;
            let late = if early { 1 } else { factor };
            ((a + b) % modulus, late * difference % modulus)
        });
    }
    write(buf, &values);
}

fn write(buf: &mut [u32], values: &[u64]) {
    for (place, &value) in buf.iter_mut().zip(values) {
        *place = value as u32;
    }
}

/// "An exponent e from N/2 to N - 1 means minus the entry at e - N/2."
pub fn entry(e: usize, m: u32, table: &[u32]) -> u64 {
    let half = table.len();
    if e < half {
        u64::from(table[e])
    } else {
        u64::from(m - table[e - half])
    }
}

/// base^exponent modulo m.
pub fn power(base: u32, exponent: usize, m: u32) -> u32 {
    let m = u64::from(m);
    let (mut square, mut left, mut result) = (u64::from(base) % m, exponent, 1);
    while left > 0 {
        if left % 2 == 1 {
            result = result * square % m;
        }
        square = square * square % m;
        left /= 2;
    }
    result as u32
}

/// "f(j) = sum over k of A(k) x^(jk) modulo m", in order.
pub fn sums(samples: &[u32], m: u32, table: &[u32]) -> Vec<u32> {
    let length = samples.len();
    let sum = |j| {
        let term = |k| u64::from(samples[k]) * entry(j * k % length, m, table) % u64::from(m);
        (0..length).map(term).sum::<u64>() % u64::from(m)
    };
    (0..length).map(|j| sum(j) as u32).collect()
}

/// 2: "m even, below 3, or above 2^31 - 1".
fn bad_modulus(m: u32) -> bool {
    m % 2 == 0 || m < 3 || m > (1 << 31) - 1
}

/// "Its root x is its second entry, or m - 1 when N = 2. It is accepted when
/// entry 0 is 1, every entry is below m, each entry from place 1 is the one
/// before it times x modulo m, and the last entry times x is m - 1."
fn first_failing_entry(m: u32, table: &[u32]) -> Option<usize> {
    let half = table.len();
    let x = if half == 1 { m - 1 } else { table[1] };
    let wanted = |i: usize| match i {
        0 => 1,
        _ => u64::from(table[i - 1]) * u64::from(x) % u64::from(m),
    };
    (0..=half).find(|&i| {
        if i < half {
            table[i] >= m || u64::from(table[i]) != wanted(i)
        } else {
            wanted(i) != u64::from(m - 1)
        }
    })
}

/// 2, 6, 3, 4 and 5 in this order; the length of the data is permitted.
/// The scratch's length is given where scratch counts.
fn judge(buf: &[u32], m: u32, table: &[u32], scratch: Option<usize>) -> Answer {
    if bad_modulus(m) {
        return refused(2, 0);
    }
    if scratch.is_some_and(|length| length != buf.len()) {
        return refused(6, 0);
    }
    if table.len() != buf.len() / 2 {
        return refused(3, 0);
    }
    if let Some(place) = first_failing_entry(m, table) {
        return refused(4, place);
    }
    match buf.iter().position(|&sample| sample >= m) {
        Some(place) => refused(5, place),
        None => DONE,
    }
}

/// "Scratch counts only for schedules 2 and 5, whole or single stage".
pub fn scratch_counts(schedule: u32) -> bool {
    schedule == 2 || schedule == 5
}

/// The common end of a whole transform and of a single stage: the judgement
/// from 2 on, the stages, and scratch "all zeros after success".
fn judge_and_run(
    schedule: u32,
    stages: &[Stage],
    buf: &mut [u32],
    m: u32,
    table: &[u32],
    scratch: &mut [u32],
) -> Answer {
    let counts = scratch_counts(schedule);
    let answer = judge(buf, m, table, counts.then_some(scratch.len()));
    if answer == DONE {
        run(schedule, stages, buf, m, table);
        if counts {
            scratch.fill(0);
        }
    }
    answer
}

/// "Acceptance is also a call alone: N follows from the table's length, and
/// 2, 3 and 4 apply".
pub fn accept(m: u32, table: &[u32]) -> Answer {
    if bad_modulus(m) {
        return refused(2, 0);
    }
    if log(2 * table.len()).is_none() {
        return refused(3, 0);
    }
    match first_failing_entry(m, table) {
        Some(place) => refused(4, place),
        None => DONE,
    }
}

/// A whole transform: 7, 1, 2, 6, 3, 4, 5.
pub fn transform(
    schedule: u32,
    buf: &mut [u32],
    m: u32,
    table: &[u32],
    scratch: &mut [u32],
) -> Answer {
    if !(1..=5).contains(&schedule) {
        return refused(7, 0);
    }
    let Some(n) = log(buf.len()) else {
        return refused(1, 0);
    };
    judge_and_run(schedule, &stages(schedule, n), buf, m, table, scratch)
}

/// "a single stage may be asked for by number s, 0 to n - 1, of schedules 1
/// and 2": 7, 1, 8, 2, 6, 3, 4, 5.
pub fn stage(
    schedule: u32,
    s: usize,
    buf: &mut [u32],
    m: u32,
    table: &[u32],
    scratch: &mut [u32],
) -> Answer {
    if schedule != 1 && schedule != 2 {
        return refused(7, 0);
    }
    let Some(n) = log(buf.len()) else {
        return refused(1, 0);
    };
    if s >= n {
        return refused(8, 0);
    }
    let only = &stages(schedule, n)[s..=s];
    judge_and_run(schedule, only, buf, m, table, scratch)
}

/// "The inverse takes what schedules 1, 2, 3 and 5 leave, together with the
/// forward table, and leaves the samples in order." By its meaning: A(k) is
/// 1/N times the sum over j of f(j) x^(-jk). 1, 2, 3, 4, 5.
pub fn inverse(buf: &mut [u32], m: u32, table: &[u32]) -> Answer {
    let length = buf.len();
    let Some(n) = log(length) else {
        return refused(1, 0);
    };
    let answer = judge(buf, m, table, None);
    if answer != DONE {
        return answer;
    }
    let modulus = u64::from(m);
    let f = reversed(buf, n);
    // "The factor 1/N is ((m + 1)/2)^n modulo m."
    let factor = u64::from(power((m + 1) / 2, n, m));
    let sample = |k| {
        let term = |j| u64::from(f[j]) * entry((length - j * k % length) % length, m, table);
        (0..length).map(|j| term(j) % modulus).sum::<u64>() % modulus * factor % modulus
    };
    write(buf, &(0..length).map(sample).collect::<Vec<u64>>());
    DONE
}

/// "bit reversal, of residues or of pairs, is judged by 1 alone".
pub fn reverse(buf: &mut [u32]) -> Answer {
    let Some(n) = log(buf.len()) else {
        return refused(1, 0);
    };
    buf.copy_from_slice(&reversed(buf, n));
    DONE
}

/// "the modulus together with its twelve roots, one per length": roots[n - 1]
/// is for length 2^n.
#[derive(Clone, Copy, Debug, Default, PartialEq, Eq)]
pub struct Setting {
    pub modulus: u32,
    pub roots: [u32; 12],
}

pub const HOUSE_MODULI: [u32; 3] = [998244353, 469762049, 167772161];

/// "The root for length 2^n is 3^((m-1)/2^n) modulo m, n from 1 to 12." A
/// refusal "gives one of all zeros".
pub fn house_row(row: usize) -> (Answer, Setting) {
    let mut setting = Setting::default();
    if row > 2 {
        return (refused(9, 0), setting);
    }
    let m = HOUSE_MODULI[row];
    setting.modulus = m;
    for n in 1..=12 {
        setting.roots[n - 1] = power(3, (m as usize - 1) >> n, m);
    }
    (DONE, setting)
}

/// "From a setting a lent table is filled; the setting may come from anyone
/// and is tested by 2, 3 and 4."
pub fn fill(setting: &Setting, table: &mut [u32]) -> Answer {
    let m = setting.modulus;
    let half = table.len();
    if bad_modulus(m) {
        return refused(2, 0);
    }
    let Some(n) = log(2 * half) else {
        return refused(3, 0);
    };
    // "the setting's root for N is not below m, or its power N/2 isn't m - 1;
    // place N/2"
    let root = setting.roots[n - 1];
    if root >= m || power(root, half, m) != m - 1 {
        return refused(4, half);
    }
    for (i, place) in table.iter_mut().enumerate() {
        *place = power(root, i, m);
    }
    DONE
}
