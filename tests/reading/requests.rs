//! Requests of `dft`, right and broken.

use crate::inputs::positions;
use crate::program::seven_bit_groups;
use crate::random::Random;
use crate::reading::power;
use crate::roots::*;

/// The bytes of each number of an input: m, schedule, N, table, samples.
type Words = Vec<Vec<u8>>;

/// Spellings of no number: not shortest, not below 2^32, or with the top bit
/// still set in the fifth byte.
const BROKEN: [&[u8]; 11] = [
    &[0x80, 0x00],
    &[0x81, 0x00],
    &[0x80, 0x80, 0x00],
    &[0x85, 0x80, 0x80, 0x00],
    &[0xff, 0xff, 0xff, 0xff, 0x00],
    &[0x80, 0x80, 0x80, 0x80, 0x80, 0x00],
    &[0x80, 0x80, 0x80, 0x80, 0x10],
    &[0xff, 0xff, 0xff, 0xff, 0x1f],
    &[0xff, 0xff, 0xff, 0xff, 0x7f],
    &[0xff, 0xff, 0xff, 0xff, 0x8f],
    &[0xff, 0xff, 0xff, 0xff, 0xff],
];

struct Requests {
    inputs: Vec<Vec<u8>>,
    random: Random,
}

pub fn all(random: Random) -> Vec<Vec<u8>> {
    let mut requests = Requests {
        inputs: Vec::new(),
        random,
    };
    requests.lengths();
    requests.moduli();
    requests.broken_numbers();
    requests.cut_and_surplus();
    requests.refused_at_once();
    requests.refused_moduli();
    requests.refused_tables();
    requests.refused_samples();
    requests.two_faults();
    requests.long();
    requests.altered();
    requests.inputs
}

fn number(value: u32) -> Vec<u8> {
    seven_bit_groups(u64::from(value))
}

/// The words with some of them spelt otherwise.
fn changed(words: &[Vec<u8>], changes: &[(usize, &[u8])]) -> Vec<u8> {
    let mut words = words.to_vec();
    for (position, spelling) in changes {
        words[*position] = spelling.to_vec();
    }
    words.concat()
}

fn table_positions(n: usize) -> [usize; 3] {
    positions(3, 1 << (n - 1))
}

fn sample_positions(n: usize) -> [usize; 3] {
    positions(3 + (1 << (n - 1)), 1 << n)
}

fn spelt(schedule: u32, m: u32, table: &[u32], samples: &[u32]) -> Words {
    let head = [m, schedule, samples.len() as u32];
    let numbers = head.iter().chain(table).chain(samples);
    numbers.map(|&v| number(v)).collect()
}

impl Requests {
    /// Each input stands once.
    fn add(&mut self, input: impl Into<Vec<u8>>) {
        let input = input.into();
        if !self.inputs.contains(&input) {
            self.inputs.push(input);
        }
    }

    /// An input in which everything is right, with random samples.
    fn words(&mut self, schedule: u32, (m, x, n): Root) -> Words {
        let samples = self.random.residues(1 << n, m);
        spelt(schedule, m, &powers(m, x, n), &samples)
    }

    /// All five schedules at every length.
    fn lengths(&mut self) {
        for n in 1..12 {
            for schedule in 1..=5 {
                let root = match n {
                    10.. => searched_root(40961, n),
                    _ => house_root((n + schedule as usize) % 3, n),
                };
                let words = self.words(schedule, root);
                self.add(words.concat());
            }
        }
        // 12289 * 40961 = 503369729.
        let longest = [
            house_root(0, 12),
            searched_root(12289, 12),
            near_largest(12),
            searched_root(503369729, 12),
            searched_root(12289, 12),
        ];
        for (schedule, root) in (1..).zip(longest) {
            let words = self.words(schedule, root);
            self.add(words.concat());
        }
    }

    /// Chosen moduli; samples all 0 and all m - 1 too.
    fn moduli(&mut self) {
        for (m, x, n) in chosen() {
            let table = powers(m, x, n);
            for schedule in 1..=5 {
                let words = self.words(schedule, (m, x, n));
                self.add(words.concat());
                let value = if schedule % 2 == 0 { 0 } else { m - 1 };
                let same = vec![value; 1 << n];
                self.add(spelt(schedule, m, &table, &same).concat());
            }
        }
    }

    /// Every broken spelling at every kind of place, and the largest number.
    fn broken_numbers(&mut self) {
        let words = self.words(2, house_root(0, 3));
        for position in 0..words.len() {
            for spelling in BROKEN {
                self.add(changed(&words, &[(position, spelling)]));
            }
            self.add(changed(&words, &[(position, &number(u32::MAX))]));
            // The input ends inside the number, or after its fifth byte.
            for spelling in [&BROKEN[8][..4], BROKEN[9]] {
                let start = words[..position].concat();
                self.add([start, spelling.to_vec()].concat());
            }
        }
    }

    /// Cut at every byte; and bytes after the end.
    fn cut_and_surplus(&mut self) {
        let example = vec![5, 1, 4, 1, 2, 1, 2, 3, 4];
        let longer = self.words(5, house_root(1, 2)).concat();
        for input in [example, longer] {
            for length in 0..=input.len() {
                self.add(&input[..length]);
            }
            let more: [&[u8]; 6] = [&[0], &[1], &[0x80], &[0xff; 7], &[1, 2, 3], &[0x80, 0]];
            for surplus in more {
                self.add([&input, surplus].concat());
            }
        }
    }

    /// 7 and 1, with a right rest, a broken rest and none.
    fn refused_at_once(&mut self) {
        let words = self.words(1, house_root(2, 2));
        let schedules = [0, 6, 7, 127, 128, 257, 65537, 2147483649, 4294967295];
        let lengths = [
            0, 1, 3, 5, 6, 7, 12, 255, 258, 4095, 4097, 8192, 65540, 2147483648, 4294967295,
        ];
        let schedules = schedules.iter().map(|&v| (1, v));
        for (position, value) in schedules.chain(lengths.iter().map(|&v| (2, v))) {
            let change: &[(usize, &[u8])] = &[(position, &number(value))];
            let head = changed(&words[..3], change);
            self.add([&head, BROKEN[0]].concat());
            self.add(head);
            self.add(changed(&words, change));
        }
        for length in [0, 3, 8192] {
            self.add(changed(&words, &[(1, &[6]), (2, &number(length))]));
        }
    }

    fn refused_moduli(&mut self) {
        let even = [0, 2, 4, 6, 998244352, (1 << 31) - 2, 1 << 31, u32::MAX - 1];
        let odd = [1, (1 << 31) + 1, (1 << 31) + 3, 3 << 30 | 1, u32::MAX];
        for m in even.into_iter().chain(odd) {
            for (schedule, n) in [(1, 1), (2, 2), (4, 3)] {
                let words = self.words(schedule, house_root(0, n));
                self.add(changed(&words, &[(0, &number(m))]));
            }
        }
    }

    /// 4 at the first, a middle and the last entry, and at the closing rule.
    fn refused_tables(&mut self) {
        for (root, schedule) in [
            (house_root(0, 1), 1),
            (house_root(1, 2), 2),
            (house_root(2, 4), 3),
            (near_largest(7), 4),
            (searched_root(12289, 12), 5),
        ] {
            let (m, x, n) = root;
            let words = self.words(schedule, root);
            let table = powers(m, x, n);
            for position in table_positions(n) {
                let right = table[position - 3];
                let wrong = [right + m, 0, right - 1, right + 1, m, m + 1, u32::MAX];
                for &value in &wrong[..if n < 12 { 7 } else { 1 }] {
                    self.add(changed(&words, &[(position, &number(value))]));
                }
            }
            // From N = 4 on, 1 and the root squared do not close.
            for base in [1, power(x, 2, m)] {
                let samples = self.random.residues(1 << n, m);
                self.add(spelt(schedule, m, &powers(m, base, n), &samples).concat());
            }
            if n > 1 {
                // The beginning of a table for the shorter table.
                let samples = self.random.residues(1 << (n - 1), m);
                let beginning = &table[..table.len() / 2];
                self.add(spelt(schedule, m, beginning, &samples).concat());
            }
        }
        for m in [15, 65] {
            for x in 0..=m {
                self.add(spelt(1, m, &[1, x], &[1, 2, 3, 4]).concat());
            }
        }
    }

    /// 5 at the first, a middle and the last sample, and at two of them.
    fn refused_samples(&mut self) {
        for (root, schedule) in [
            ((3, 2, 1), 1),
            (house_root(0, 2), 2),
            (near_largest(5), 3),
            (house_root(1, 7), 4),
            (searched_root(12289, 12), 5),
        ] {
            let (m, _, n) = root;
            let words = self.words(schedule, root);
            let [first, middle, last] = sample_positions(n);
            for position in [first, middle, last] {
                let large = [m, m + 1, 1 << 31, u32::MAX];
                for value in &large[..if n < 12 { 4 } else { 1 }] {
                    self.add(changed(&words, &[(position, &number(*value))]));
                }
            }
            self.add(changed(&words, &[(middle, &number(m)), (last, &number(m))]));
        }
    }

    /// Two or three faults at once, so that their order shows.
    fn two_faults(&mut self) {
        let words = self.words(3, house_root(0, 3));
        let (four, large, overlong) = (number(4), number(u32::MAX), BROKEN[1]);
        let pairs: [&[(usize, &[u8])]; 14] = [
            &[(0, &four), (4, &large), (9, &large)],
            &[(0, &four), (4, overlong)],
            &[(0, &four), (14, overlong)],
            &[(0, overlong), (1, &large)],
            &[(1, &large), (2, overlong)],
            &[(1, overlong), (2, &large)],
            &[(1, &large), (2, &large)],
            &[(0, &four), (1, &large)],
            &[(0, &four), (2, &large)],
            &[(2, &large), (3, overlong)],
            &[(3, &large), (7, &large)],
            &[(3, &large), (14, overlong)],
            &[(4, &large), (6, &large)],
            &[(5, overlong), (8, BROKEN[6])],
        ];
        for changes in pairs {
            let input = changed(&words, changes);
            self.add(&input[..input.len() - 1]);
            self.add([&input[..], &[0]].concat());
            self.add(input);
        }
    }

    /// As long as can be, one byte more, and much longer.
    fn long(&mut self) {
        let (m, x, n) = house_root(0, 12);
        let five_bytes = 1 << 28;
        let mut samples = self.random.residues(1 << n, m - five_bytes);
        samples.iter_mut().for_each(|v| *v += five_bytes);
        let table = vec![u32::MAX; 1 << (n - 1)];
        let longest = spelt(2, m, &table, &samples).concat();
        self.add([&longest[..], &[0x80]].concat());
        self.add(&longest[..longest.len() - 1]);
        self.add(longest);
        let words = spelt(2, m, &powers(m, x, n), &samples);
        for positions in [table_positions(n), sample_positions(n)] {
            self.add(changed(&words, &[(positions[1], BROKEN[0])]));
        }
        samples[1 << (n - 1)] = m;
        self.add(spelt(5, m, &powers(m, x, n), &samples).concat());
        let mut zeros = vec![5, 1, 4, 1, 2, 1, 2, 3, 4];
        zeros.resize(70_000, 0);
        self.add(zeros);
        let mut zeros = [number(5), number(5), number(4096)].concat();
        zeros.resize(70_000, 0);
        self.add(zeros);
        self.add([0; 700]);
        self.add([0x80; 700]);
    }

    /// A byte of a right input replaced, left out or put in, at random.
    fn altered(&mut self) {
        for round in 0..150 {
            let root = house_root(round % 3, 1 + round % 4);
            let schedule = 1 + self.random.below(5);
            let mut input = self.words(schedule, root).concat();
            let place = self.random.below(input.len() as u32) as usize;
            let byte = self.random.below(256) as u8;
            match self.random.below(3) {
                0 => input[place] = byte,
                1 => drop(input.remove(place)),
                _ => input.insert(place, byte),
            }
            self.add(input);
        }
    }
}
