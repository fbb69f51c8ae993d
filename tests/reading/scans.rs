//! Calls in fixed point, right and damaged.

use crate::calls::{parts, words, Call, Function, Function::*};
use crate::fixed::fixed_accept;
use crate::inputs::*;
use crate::random::Random;
use crate::tables::*;

/// One call and all that is lent to it.
#[derive(Clone, Default)]
struct Scan {
    function: Function,
    schedule: u32,
    buf: Vec<i32>,
    table: Vec<i32>,
    scratch: Vec<i32>,
}

impl From<Scan> for Call {
    fn from(scan: Scan) -> Call {
        Call {
            function: scan.function,
            schedule: scan.schedule,
            buf: words(&scan.buf),
            table: words(&scan.table),
            scratch: words(&scan.scratch),
            ..Call::default()
        }
    }
}

const MIN: i32 = i32::MIN;
const MAX: i32 = i32::MAX;

/// The largest sample part.
const FULL: i32 = 32767;

struct Scans {
    calls: Vec<Call>,
    random: Random,
}

pub fn all(random: Random) -> Vec<Call> {
    let mut scans = Scans {
        calls: Vec::new(),
        random,
    };
    scans.lengths();
    scans.extremes();
    scans.own_tables();
    scans.other_tables();
    scans.refused_tables();
    scans.refused_schedules_and_lengths();
    scans.refused_lengths_of_the_rest();
    scans.refused_samples();
    scans.several_faults();
    scans.any_tables();
    scans.reversals_and_fillings();
    scans.calls
}

/// Samples at the ends of the range, alternating, alone, or none.
fn extreme_scans(n: usize) -> Vec<Vec<i32>> {
    let length = 2 << n;
    let made = |part: &dyn Fn(usize) -> i32| (0..length).map(part).collect::<Vec<i32>>();
    let ends = |upper| if upper { FULL } else { -FULL };
    let mut scans = vec![
        made(&|_| FULL),
        made(&|_| -FULL),
        made(&|_| 0),
        made(&|i| ends(i % 2 == 0)),
        made(&|i| ends(i / 2 % 2 == 0)),
        made(&|i| ends(i < length / 2)),
        made(&|i| if i % 2 == 0 { FULL } else { 0 }),
        made(&|i| if i % 2 == 0 { 0 } else { -1 }),
    ];
    for place in positions(0, length) {
        scans.push(made(&|i| if i == place { FULL } else { 0 }));
        scans.push(made(&|i| if i == place { -FULL } else { 0 }));
    }
    scans
}

/// The ends of the range, with the signs that make the sum at j large.
fn resonant_scan(n: usize, j: usize) -> Vec<i32> {
    let part = |i: usize| {
        let turn = (j * (i / 2) % (1 << n)) as f64 / (1 << n) as f64;
        // With a tenth of a turn no part is near 0.
        let angle = std::f64::consts::TAU * (0.1 - turn);
        let size = if i % 2 == 0 { angle.cos() } else { angle.sin() };
        if size >= 0.0 {
            FULL
        } else {
            -FULL
        }
    };
    (0..2 << n).map(part).collect()
}

/// Numbers that are all different, the ends of the range among them.
fn distinct(count: usize) -> Vec<i32> {
    let mut numbers: Vec<i32> = (0..count as i32).map(|i| i - 50).collect();
    for (place, value) in positions(0, count.max(1)).into_iter().zip([MIN, MAX, -MAX]) {
        if place < count {
            numbers[place] = value;
        }
    }
    numbers
}

impl Scans {
    fn add(&mut self, scan: Scan) {
        self.calls.push(scan.into());
    }

    fn any(&mut self, count: usize) -> Vec<i32> {
        parts(&self.random.words(count))
    }

    /// Small numbers.
    fn garbage(&mut self, count: usize) -> Vec<i32> {
        let number = |_| self.random.below(10) as i32 - 5;
        (0..count).map(number).collect()
    }

    /// A transform with any numbers in the scratch, which is of the right
    /// length for schedule 2 and of any otherwise.
    fn transform(&mut self, schedule: u32, buf: &[i32], table: &[i32]) -> Scan {
        let length = match schedule {
            2 => buf.len(),
            _ => self.random.place(2 * buf.len() + 1),
        };
        Scan {
            function: FixedTransform,
            schedule,
            buf: buf.to_vec(),
            table: table.to_vec(),
            scratch: self.any(length),
        }
    }

    /// A transform of a random scan with our own table.
    fn right(&mut self, schedule: u32, n: usize) -> Scan {
        let buf = self.random.parts(2 << n);
        self.transform(schedule, &buf, &sines(n))
    }

    /// The same scan by all three schedules.
    fn by_all(&mut self, buf: &[i32], table: &[i32]) {
        for schedule in 1..=3 {
            let scan = self.transform(schedule, buf, table);
            self.add(scan);
        }
    }

    fn accept(&mut self, table: &[i32]) {
        self.add(Scan {
            function: FixedAccept,
            table: table.to_vec(),
            ..Scan::default()
        });
    }

    /// Every length by all three schedules.
    fn lengths(&mut self) {
        for n in 1..=12 {
            for _ in 0..if n < 7 { 100 } else { 30 } {
                let buf = self.random.parts(2 << n);
                self.by_all(&buf, &sines(n));
            }
        }
        // "Elsewhere it is neither tested nor touched."
        for (schedule, length) in [(1, 0), (1, 15), (1, 16), (3, 0), (3, 16), (3, 17)] {
            let scan = self.right(schedule, 3);
            let scratch = distinct(length);
            self.add(Scan { scratch, ..scan });
        }
        let scan = self.right(2, 3);
        let scratch = distinct(16);
        self.add(Scan { scratch, ..scan });
    }

    fn extremes(&mut self) {
        for n in 1..=12 {
            let mut scans = extreme_scans(n);
            scans.extend((0..8.min(1 << n)).map(|j| resonant_scan(n, j)));
            for (buf, schedule) in scans.iter().zip([1, 2, 3].into_iter().cycle()) {
                if n < 4 {
                    self.by_all(buf, &sines(n));
                } else {
                    let scan = self.transform(schedule, buf, &sines(n));
                    self.add(scan);
                }
            }
        }
        self.by_all(&resonant_scan(9, 333), &sines(9));
    }

    /// Acceptance alone, our own table and lengths that are none.
    fn own_tables(&mut self) {
        for n in 1..=12 {
            self.accept(&sines(n));
        }
        let longer = [sines(12), vec![0; 16384]].concat();
        for length in lengths() {
            self.accept(&longer[..length]);
        }
    }

    /// Accepted tables that are not our own.
    fn other_tables(&mut self) {
        let mut tables = second_pairs();
        for n in [3, 4] {
            tables.extend(one_off(n));
            tables.extend(others(n, &mut self.random));
            tables.extend(at_the_bound(n, &mut self.random));
        }
        tables.retain(|table| fixed_accept(table).number == 0);
        tables.extend([6, 8].map(drifting));
        for table in tables {
            self.accept(&table);
            let buf = self.random.parts(2 * table.len());
            self.by_all(&buf, &table);
            let n = table.len().ilog2() as usize;
            let schedule = 1 + self.random.below(3);
            let buf = resonant_scan(n, self.random.below(1 << n) as usize);
            let scan = self.transform(schedule, &buf, &table);
            self.add(scan);
        }
    }

    /// 4 at the first, a middle and the last pair, and at the closing rule.
    fn refused_tables(&mut self) {
        let mut tables = second_pairs();
        tables.extend(beyond_the_bound(3, &mut self.random));
        for n in [3, 4, 5] {
            tables.extend(not_closing(n, &mut self.random));
        }
        for n in 1..=4 {
            tables.extend(replaced(n));
        }
        tables.extend([one_off(3), one_off(4), two_faults(), beginnings()].concat());
        tables.push(with_part_moved(sines(10), 1023, 40));
        for table in tables {
            self.accept(&table);
            let schedule = 1 + self.random.below(3);
            let buf = self.garbage(2 * table.len());
            let scan = self.transform(schedule, &buf, &table);
            self.add(scan);
        }
        for index in positions(0, 1024) {
            self.accept(&with_part_moved(sines(10), index, -40));
        }
        self.accept(&with_part_moved(sines(12), 4095, 40));
    }

    /// 7 and 1.
    fn refused_schedules_and_lengths(&mut self) {
        for schedule in [0, 4, 5, 6, 8, 257, 65538, 1 << 31, 1 << 31 | 1, u32::MAX] {
            for n in [1, 3] {
                let scan = self.right(schedule, n);
                let scratch = self.garbage(2 << n);
                self.add(Scan { scratch, ..scan });
            }
        }
        for length in [0, 1, 2, 3, 5, 6, 7, 9, 10, 12, 15, 17, 24, 8193, 8200, 16384] {
            for schedule in 1..=if length < 8000 { 3 } else { 1 } {
                let buf = self.garbage(length);
                let mut table = sines(12);
                table.truncate(if length < 8000 { length / 2 } else { 2 });
                let scan = self.transform(schedule, &buf, &table);
                self.add(scan);
            }
        }
    }

    /// 6 and 3.
    fn refused_lengths_of_the_rest(&mut self) {
        for n in 1..=4 {
            let length = 2 << n;
            for wrong in [0, 1, length / 2, length - 1, length + 1, 2 * length] {
                let scan = self.right(2, n);
                let scratch = self.garbage(wrong);
                self.add(Scan { scratch, ..scan });
            }
            let longer = [sines(n), sines(n), sines(n)].concat();
            let points = length / 2;
            for wrong in [0, 1, points / 2, points - 1, points + 1, 2 * points] {
                for schedule in 1..=3 {
                    let scan = self.right(schedule, n);
                    let table = longer[..wrong].to_vec();
                    self.add(Scan { table, ..scan });
                }
            }
            let scan = self.right(1 + n as u32 % 3, n);
            let table = sines(n + 1);
            self.add(Scan { table, ..scan });
        }
    }

    /// 5 at the first, a middle and the last index, and at two of them.
    fn refused_samples(&mut self) {
        for n in [1, 2, 4, 6] {
            let reals = positions(0, 1 << n).map(|point| 2 * point);
            let indices = reals.iter().flat_map(|&re| [re, re + 1]);
            for (round, index) in (0..).zip(indices) {
                let beyond = [FULL + 1, -FULL - 1, MAX, MIN];
                for value in &beyond[..if n < 6 { 4 } else { 1 }] {
                    let mut scan = self.right(1 + round % 3, n);
                    scan.buf[index] = *value;
                    self.add(scan.clone());
                    scan.buf[2 * (1 << n) - 1] = -FULL - 1;
                    self.add(scan);
                }
            }
        }
    }

    /// Brings in the faults of a set, any of 5, 4, 3, 6, 1 and 7.
    fn damage(&mut self, scan: &mut Scan, set: u32) {
        let random = &mut self.random;
        if set & 1 != 0 {
            let place = random.place(scan.buf.len());
            scan.buf[place] = random.one_of(&[FULL + 1, -FULL - 1, MAX, MIN]);
        }
        if set & 2 != 0 {
            let place = random.place(scan.table.len());
            scan.table[place] = random.one_of(&[-1, -40, 16383, 23172, MAX, MIN]);
        }
        if set & 4 != 0 {
            scan.table.resize(wrong_length(scan.table.len(), random), 0);
        }
        if set & 8 != 0 {
            scan.scratch.resize(wrong_length(scan.buf.len(), random), 9);
        }
        if set & 16 != 0 {
            scan.buf.resize(random.one_of(&lengths()), -9);
        }
        if set & 32 != 0 {
            scan.schedule = random.one_of(&[0, 4, 5, 6, 257, 1 << 31, 1 << 31 | 1, u32::MAX]);
        }
    }

    /// Any of six faults together, so that their order shows.
    fn several_faults(&mut self) {
        for (set, n) in (0..64).flat_map(|set| (1..=12).map(move |n| (set, n))) {
            for schedule in 1..=3 {
                let mut scan = self.right(schedule, n);
                self.damage(&mut scan, set);
                self.add(scan);
            }
        }
    }

    /// Tables with a few parts a little or anyhow off, at every length.
    fn any_tables(&mut self) {
        for (n, round) in (1..=12).flat_map(|n| (0..150).map(move |round| (n, round))) {
            let random = &mut self.random;
            let mut table = match round % 3 {
                0 => moved(n, random),
                _ => sines(n),
            };
            let index = random.place(table.len());
            table[index] = match round % 4 {
                0 => random.words(1)[0] as i32,
                _ => table[index] + random.below(7) as i32 - 3,
            };
            self.accept(&table);
            let buf = self.random.parts(2 * table.len());
            let scan = self.transform(1 + round % 3, &buf, &table);
            self.add(scan);
        }
    }

    /// Numbers that are all different, the ends of the range, and any.
    fn reversals_and_fillings(&mut self) {
        let mut lent: Vec<Vec<i32>> = lengths().into_iter().map(distinct).collect();
        lent.extend((1..=5).map(|n| (0..1 << n).flat_map(|i| [MIN + i, MAX - i]).collect()));
        lent.extend(lengths_often().into_iter().map(|length| self.any(length)));
        for numbers in lent {
            self.add(Scan {
                function: FixedReverse,
                buf: numbers.clone(),
                ..Scan::default()
            });
            self.add(Scan {
                function: FixedFill,
                table: numbers,
                ..Scan::default()
            });
        }
    }
}
