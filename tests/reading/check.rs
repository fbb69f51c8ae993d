//! Self-checks: document 01's bench values, and the reading against itself.

use crate::fixed::*;
use crate::program::dft;
use crate::random::Random;
use crate::reading::*;
use crate::roots::{least_root, powers};
use crate::tables::*;

struct Checks {
    count: usize,
}

impl Checks {
    fn good(&mut self, what: &str, condition: bool) {
        self.count += 1;
        if !condition {
            eprintln!("check {} fails: {what}", self.count);
            std::process::exit(1);
        }
    }

    fn same<T: PartialEq + std::fmt::Debug>(&mut self, what: &str, found: T, wanted: T) {
        if found != wanted {
            eprintln!("found {found:?}\nwanted {wanted:?}");
        }
        self.good(what, found == wanted);
    }
}

/// Runs all checks and says how many there were.
pub fn all() -> usize {
    let mut checks = Checks { count: 0 };
    bench_residues(&mut checks);
    bench_fixed(&mut checks);
    house(&mut checks);
    for row in 0..3 {
        let setting = house_row(row).1;
        for n in 1..=if row == 0 { 12 } else { 8 } {
            residues(&mut checks, setting.modulus, setting.roots[n - 1], n);
        }
    }
    // m = 15, 65, 25, 17 * 97 and 12289 * 40961 are composite.
    for (m, n) in [(3, 1), (15, 1), (65, 2), (25, 2), (1649, 4), (503369729, 8)] {
        residues(&mut checks, m, least_root(m, n), n);
    }
    residues(&mut checks, i32::MAX as u32, i32::MAX as u32 - 1, 1);
    residue_refusals(&mut checks);
    for n in 1..=12 {
        fixed_length(&mut checks, n);
    }
    fixed_refusals(&mut checks);
    program(&mut checks);
    lent_tables(&mut checks);
    checks.count
}

/// A transform of a copy, its scratch judged too: "all zeros after success",
/// "Elsewhere it is neither tested nor touched."
fn transformed(checks: &mut Checks, schedule: u32, data: &[u32], m: u32, t: &[u32]) -> Vec<u32> {
    let mut buf = data.to_vec();
    let mut scratch = vec![7; data.len()];
    let answer = transform(schedule, &mut buf, m, t, &mut scratch);
    checks.same("a transform is done", answer, DONE);
    let left = if scratch_counts(schedule) { 0 } else { 7 };
    checks.good("scratch after", scratch.iter().all(|&v| v == left));
    buf
}

fn bench_residues(checks: &mut Checks) {
    let (table, samples) = ([1, 2], [1, 2, 3, 4]);
    checks.same("sums", sums(&samples, 5, &table), vec![0, 4, 3, 2]);
    for schedule in [1, 2, 3, 5] {
        let left = transformed(checks, schedule, &samples, 5, &table);
        checks.same("bench transform", left, vec![0, 3, 4, 2]);
    }
    let left = transformed(checks, 4, &[1, 3, 2, 4], 5, &table);
    checks.same("bench T1", left, vec![0, 4, 3, 2]);
    for (schedule, wanted) in [(1, [4, 1, 3, 1]), (2, [4, 3, 1, 1])] {
        let mut buf = samples;
        let answer = stage(schedule, 0, &mut buf, 5, &table, &mut [9; 4]);
        checks.same("bench stage 0", (answer, buf), (DONE, wanted));
    }
    let mut buf = samples;
    run(5, &[pease(2, 1)], &mut buf, 5, &table);
    checks.same("bench Pease", buf, [4, 3, 1, 3]);
    let mut buf = [0, 3, 4, 2];
    checks.same("inverse done", inverse(&mut buf, 5, &table), DONE);
    checks.same("bench inverse", buf, samples);
    let left = transformed(checks, 1, &[2, 1], 3, &[1]);
    checks.same("bench m = 3", left, vec![0, 1]);
    checks.same("bench refusal", accept(5, &[1, 4]), refused(4, 2));
    let mut buf = [0, 1, 2, 3, 4, 5, 6, 7];
    checks.same("reversal done", reverse(&mut buf), DONE);
    checks.same("bench reversal", buf, [0, 4, 2, 6, 1, 5, 3, 7]);
}

fn bench_fixed(checks: &mut Checks) {
    let samples = [3, -1, 2, 0];
    for schedule in 1..=3 {
        let mut buf = samples;
        let answer = fixed_transform(schedule, &mut buf, &[16384, 0], &mut [9; 4]);
        checks.same("bench fixed", (answer, buf), (DONE, [3, 0, 1, 0]));
        let u = unrounded(schedule, &samples, &[16384, 0]);
        let wanted = [81920, -16384].map(Wide::new);
        checks.same("bench unrounded", [u[0], u[1]], wanted);
        let reached = Wide::new(3).shifted(15).minus(u[0]);
        checks.same("distance reached", reached, distance(1));
    }
    for ((re, im), wanted) in [
        ((0, 16383), DONE),
        ((1, 16384), DONE),
        ((0, 16385), refused(4, 2)),
        ((2, 16384), refused(4, 2)),
        ((0, -16384), refused(4, 1)),
        ((i32::MIN, i32::MIN), refused(4, 1)),
    ] {
        checks.same("second pair", fixed_accept(&[16384, 0, re, im]), wanted);
    }
    for (part, wanted) in [
        (32767, DONE),
        (32768, refused(5, 2)),
        (-32768, refused(5, 2)),
    ] {
        let mut buf = [0, 0, part, 0];
        let answer = fixed_transform(1, &mut buf, &[16384, 0], &mut []);
        checks.same("range", answer, wanted);
    }
    checks.same("e(1)", distance(1), Wide::new(16384));
    checks.same("e(2)", distance(2), Wide::new(1_296_138_240));
    for (n, units) in [(10, 38), (12, 77)] {
        let above = Wide::new(units).shifted(15 * n);
        checks.good("e in units", !above.at_most(distance(n)));
    }
}

/// "the root for 2 is m - 1, and each root squared is the one for half its
/// length"
fn house(checks: &mut Checks) {
    for row in 0..3 {
        let (answer, setting) = house_row(row);
        let (m, roots) = (setting.modulus, setting.roots);
        checks.same("house row", answer, DONE);
        checks.same("root for 2", roots[0], m - 1);
        for n in 1..12 {
            checks.same("root squared", power(roots[n], 2, m), roots[n - 1]);
        }
        for n in 1..=12 {
            let mut table = vec![0; 1 << (n - 1)];
            checks.same("filled", fill(&setting, &mut table), DONE);
            checks.same("accepted", accept(m, &table), DONE);
            checks.good("powers", table == powers(m, roots[n - 1], n));
        }
    }
    for row in [3, usize::MAX] {
        let zeros = Setting::default();
        checks.same("no such row", house_row(row), (refused(9, 0), zeros));
    }
}

/// At one modulus and length: five schedules against the sums, the inverse,
/// and the single stages.
fn residues(checks: &mut Checks, m: u32, x: u32, n: usize) {
    let table = powers(m, x, n);
    checks.same("accepted", accept(m, &table), DONE);
    let all_powers = (0..1 << n).all(|e| entry(e, m, &table) == u64::from(power(x, e, m)));
    checks.good("an exponent means a power", all_powers);
    let mut random = Random::new(1 + u64::from(m) * n as u64);
    let samples = random.residues(1 << n, m);
    let wanted = sums(&samples, m, &table);
    for schedule in [1, 2, 3, 5] {
        let left = transformed(checks, schedule, &samples, m, &table);
        checks.good("f(rev(j)) at place j", left == reversed(&wanted, n));
    }
    let left = transformed(checks, 4, &reversed(&samples, n), m, &table);
    checks.good("f(j) at place j", left == wanted);
    let mut buf = reversed(&wanted, n);
    checks.same("inverse done", inverse(&mut buf, m, &table), DONE);
    checks.good("the samples in order", buf == samples);
    single_stages(checks, &samples, m, &table, n);
    checks.same("reversal done", reverse(&mut buf), DONE);
    checks.good("reversal", buf == reversed(&samples, n));
}

/// "Dijkstra's two-dimensional array after that step, by columns or by rows"
fn single_stages(checks: &mut Checks, samples: &[u32], m: u32, table: &[u32], n: usize) {
    let (mut columns, mut rows) = (samples.to_vec(), samples.to_vec());
    for s in 0..n {
        let mut scratch = vec![7; 1 << n];
        let answer = stage(1, s, &mut columns, m, table, &mut scratch);
        checks.same("stage by columns", answer, DONE);
        checks.good("scratch untouched", scratch.iter().all(|&v| v == 7));
        let answer = stage(2, s, &mut rows, m, table, &mut scratch);
        checks.same("stage by shuffle", answer, DONE);
        checks.good("scratch zero", scratch.iter().all(|&v| v == 0));
        let (r, c) = (1 << (n - s - 1), 2 << s);
        let one_array = (0..r).all(|i| (0..c).all(|j| columns[r * j + i] == rows[c * i + j]));
        checks.good("one array, two ways", one_array);
    }
    let whole = transformed(checks, 1, samples, m, table);
    checks.good("by columns", columns == whole);
    checks.good("by rows", rows == whole);
}

/// The lent things of one question: schedule, data, m, table, and the length
/// of the scratch.
type Lent<'a> = (u32, &'a [u32], u32, &'a [u32], usize);

/// Asks transform, stage 1, inverse and accept, and compares the numbers that
/// come back, 4 and 5 with the place; nothing lent may change.
fn refusals(checks: &mut Checks, lent: Lent, numbers: [u32; 4], place: usize) {
    let (schedule, data, m, table, scratch_length) = lent;
    let mut buf = data.to_vec();
    let mut scratch = vec![7; scratch_length];
    let answers = [
        transform(schedule, &mut buf, m, table, &mut scratch),
        stage(schedule, 1, &mut buf, m, table, &mut scratch),
        inverse(&mut buf, m, table),
        accept(m, table),
    ];
    let placed = |number| refused(number, if [4, 5].contains(&number) { place } else { 0 });
    checks.same("answers", answers, numbers.map(placed));
    let unchanged = buf == data && scratch.iter().all(|&v| v == 7);
    checks.good("a refusal changes nothing", unchanged);
}

fn residue_refusals(checks: &mut Checks) {
    let (bad, fine): (&[u32], &[u32]) = (&[1, 4], &[1, 2]);
    let data = [1, 5, 3, 9];
    for (lent, numbers, place) in [
        ((6, &data[..3], 4, bad, 0), [7, 7, 1, 2], 0),
        ((2, &data[..3], 4, bad, 0), [1, 1, 1, 2], 0),
        ((2, &[9, 9], 4, bad, 0), [2, 8, 2, 2], 0),
        ((2, &data, 5, &[], 3), [6, 6, 3, 3], 0),
        ((1, &data, 5, &[], 3), [3; 4], 0),
        ((1, &data, 5, &[1, 2, 4], 3), [3; 4], 0),
        ((1, &[0], 5, &[1; 4096], 3), [1, 1, 1, 3], 0),
        ((1, &[0; 8192], 5, &[0], 3), [1, 1, 1, 4], 0),
        ((2, &data, 5, bad, 4), [4; 4], 2),
        ((1, &data, 5, &[6, 2], 0), [4; 4], 0),
        ((1, &data, 5, &[1, 7], 0), [4; 4], 1),
        ((1, &data, 5, &[1, u32::MAX], 0), [4; 4], 1),
        ((1, &data, 5, &[1, 1], 0), [4; 4], 2),
        ((1, &[9; 2], 5, &[6], 0), [4, 8, 4, 4], 0),
        ((2, &data, 5, fine, 4), [5, 5, 5, 0], 1),
        ((3, &data, 5, fine, 0), [5, 7, 5, 0], 1),
        ((4, &data, 5, fine, 0), [5, 7, 5, 0], 1),
        ((5, &data, 5, fine, 4), [5, 7, 5, 0], 1),
        ((5, &data, 5, fine, 5), [6, 7, 5, 0], 1),
    ] {
        refusals(checks, lent, numbers, place);
    }
    for m in [0, 1, 2, 4, 6, (1 << 31) - 2, 1 << 31, (1 << 31) + 1, u32::MAX] {
        refusals(checks, (2, &data, m, &[9], 0), [2; 4], 0);
    }
    for length in [0, 1, 3, 8192] {
        let answer = reverse(&mut vec![0; length]);
        checks.same("reversal refused", answer, refused(1, 0));
    }
    fill_refusals(checks);
}

fn fill_refusals(checks: &mut Checks) {
    let setting = |modulus, root| Setting {
        modulus,
        roots: [root; 12],
    };
    for (setting, length, wanted) in [
        (setting(4, 9), 3, refused(2, 0)),
        (setting(5, 9), 3, refused(3, 0)),
        (setting(5, 9), 4096, refused(3, 0)),
        (setting(5, 9), 2, refused(4, 2)),
        (setting(5, 7), 2, refused(4, 2)),
        (setting(5, 4), 2, refused(4, 2)),
        (setting(5, 2), 1, refused(4, 1)),
        (setting(5, 2), 2, DONE),
        (setting(5, 4), 1, DONE),
    ] {
        let mut table = vec![7; length];
        checks.same("filling", fill(&setting, &mut table), wanted);
        let untouched = table.iter().all(|&v| v == 7);
        checks.good("filled or not", untouched == (wanted != DONE));
    }
}

/// At one length: the sine table is accepted, three schedules agree, stay
/// within the distance, and come near to the sum in floating point.
fn fixed_length(checks: &mut Checks, n: usize) {
    let table = sines(n);
    checks.same("sines accepted", fixed_accept(&table), DONE);
    let samples = Random::new(n as u64).parts(2 << n);
    let mut outcomes = Vec::new();
    for schedule in 1..=3 {
        let (mut buf, mut scratch) = (samples.clone(), vec![7; 2 << n]);
        let answer = fixed_transform(schedule, &mut buf, &table, &mut scratch);
        checks.same("fixed done", answer, DONE);
        let left = if schedule == 2 { 0 } else { 7 };
        checks.good("fixed scratch", scratch.iter().all(|&v| v == left));
        outcomes.push((buf, unrounded(schedule, &samples, &table)));
    }
    checks.good("schedules 1 and 2 agree", outcomes[0] == outcomes[1]);
    checks.good("schedules 1 and 3 agree", outcomes[0] == outcomes[2]);
    let (result, whole) = &outcomes[0];
    let within = |(&r, &u): (&i32, &Wide)| {
        let scaled = Wide::new(i128::from(r)).shifted(15 * n);
        scaled.minus(u).size().at_most(distance(n))
    };
    checks.good("within e(n)", result.iter().zip(whole).all(within));
    checks.good("near the sum", off_by(&samples, result, n) < 4.0);
    let mut turned = result.clone();
    checks.same("fixed reversal", fixed_reverse(&mut turned), DONE);
    let wanted = reversed(&pairs(result), n);
    checks.good("pairs reversed", pairs(&turned) == wanted);
}

/// The largest distance of a part from the sum divided by N.
fn off_by(samples: &[i32], result: &[i32], n: usize) -> f64 {
    let length = 1 << n;
    let angle = |e: usize| std::f64::consts::TAU * e as f64 / length as f64;
    let root = |e| (angle(e).cos(), angle(e).sin());
    let roots: Vec<(f64, f64)> = (0..length).map(root).collect();
    let mut largest: f64 = 0.0;
    for j in 0..length {
        let (mut re, mut im) = (0.0, 0.0);
        for k in 0..length {
            let (c, s) = roots[rev(j, n) * k % length];
            let (a, b) = (f64::from(samples[2 * k]), f64::from(samples[2 * k + 1]));
            re += a * c - b * s;
            im += a * s + b * c;
        }
        for (sum, part) in [(re, result[2 * j]), (im, result[2 * j + 1])] {
            largest = largest.max((sum / length as f64 - f64::from(part)).abs());
        }
    }
    largest
}

fn fixed_refusals(checks: &mut Checks) {
    let (bad, fine) = ([16384, 0, 2, 16384], [16384, 0, 0, 16384]);
    let data = [0, 0, 0, 0, 0, 40000, 0, i32::MIN];
    for (schedule, length, table, scratch, wanted) in [
        (0, 7, &bad[..3], 7, refused(7, 0)),
        (4, 7, &bad[..3], 7, refused(7, 0)),
        (2, 7, &bad[..3], 7, refused(1, 0)),
        (2, 2, &bad[..3], 7, refused(1, 0)),
        (2, 8, &bad[..3], 7, refused(6, 0)),
        (2, 8, &bad[..3], 8, refused(3, 0)),
        (1, 8, &bad[..2], 7, refused(3, 0)),
        (3, 8, &bad, 7, refused(4, 2)),
        (3, 8, &fine, 7, refused(5, 5)),
    ] {
        let mut buf = data[..length].to_vec();
        let mut lent = vec![7; scratch];
        let answer = fixed_transform(schedule, &mut buf, table, &mut lent);
        checks.same("fixed refusal", answer, wanted);
        let unchanged = buf == data[..length] && lent.iter().all(|&v| v == 7);
        checks.good("nothing changed", unchanged);
    }
    for (table, wanted) in [
        (&[][..], refused(3, 0)),
        (&[16384, 0, 0], refused(3, 0)),
        (&[16384, 0], DONE),
        (&[16384, 1], refused(4, 0)),
        (&[16384, 0, 0, -1], refused(4, 1)),
        (&[16384, 0, 16384, 6788], refused(4, 1)),
        (&[16384, 0, i32::MAX, i32::MAX], refused(4, 1)),
    ] {
        checks.same("fixed acceptance", fixed_accept(table), wanted);
    }
    checks.same("fill 8192", fixed_fill(&mut [0; 8192]), refused(3, 0));
    for length in [0, 2, 5, 6, 16384] {
        let answer = fixed_reverse(&mut vec![0; length]);
        checks.same("fixed reversal refused", answer, refused(1, 0));
    }
}

fn program(checks: &mut Checks) {
    for (input, wanted) in [
        (&[5, 1, 4, 1, 2, 1, 2, 3, 4][..], "0 0 0 3 4 2\n"),
        (&[5, 4, 4, 1, 2, 1, 3, 2, 4], "0 0 0 4 3 2\n"),
        (&[3, 2, 2, 1, 2, 1], "0 0 0 1\n"),
        (&[], "10 0\n"),
        (&[5, 9], "10 2\n"),
        (&[5, 9, 0x80], "10 3\n"),
        (&[5, 9, 0x80, 0], "10 2\n"),
        (&[5, 9, 3], "7 0\n"),
        (&[5, 1, 3, 0x80], "1 0\n"),
        (&[5, 1, 1], "1 0\n"),
        (&[5, 1, 0x80, 0x40], "1 0\n"),
        (&[0x80, 0x80, 0x80, 0x80, 0x10, 1, 4], "10 0\n"),
        (&[5, 0xff, 0xff, 0xff, 0xff, 0x8f], "10 1\n"),
        (&[5, 0xff, 0xff, 0xff, 0xff, 0x0f, 4], "7 0\n"),
        (&[4, 1, 4, 1, 2, 1, 2, 3], "10 8\n"),
        (&[4, 1, 4, 1, 2, 1, 2, 3, 4, 0x80], "10 9\n"),
        (&[4, 1, 4, 9, 9, 9, 9, 9, 9], "2 0\n"),
        (&[5, 1, 4, 1, 4, 9, 9, 9, 9], "4 2\n"),
        (&[5, 1, 4, 1, 2, 1, 2, 3, 5], "5 3\n"),
    ] {
        checks.same("dft", dft(input).as_str(), wanted);
    }
}

/// The searches find something, and what is lent as accepted is.
fn lent_tables(checks: &mut Checks) {
    let mut random = Random::new(5);
    for n in [6, 8] {
        checks.same("drifting", fixed_accept(&drifting(n)), DONE);
        checks.good("drifting far", drifting(n)[1 << (n - 1)] < -(1 << (n - 3)));
    }
    for n in [3, 4] {
        checks.same("others", others(n, &mut random).len(), 12);
        checks.same("at the bound", at_the_bound(n, &mut random).len(), 4);
    }
    for n in [3, 4, 5] {
        checks.same("closing", not_closing(n, &mut random).len(), 4);
    }
    checks.same("beyond", beyond_the_bound(3, &mut random).len(), 4);
    for (second, difference) in [((1, 16383), 32768), ((0, 16385), 32769)] {
        let table = [16384, 0, second.0, second.1];
        checks.same("difference", difference_at(&table, 2), difference);
    }
}
