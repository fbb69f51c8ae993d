//! Calls over residues and of house tables, right and damaged.

use crate::calls::{Call, Function, Function::*};
use crate::inputs::*;
use crate::random::Random;
use crate::reading::{house_row, power, scratch_counts};
use crate::roots::*;

/// The calls that judge a table, with the numbers of their refusals, in an
/// order in which faults can be brought in: entries before lengths.
const JUDGING: [(Function, &[u32]); 4] = [
    (ModularAccept, &[4, 3, 2]),
    (ModularTransform, &[5, 4, 3, 6, 2, 1, 7]),
    (ModularStage, &[5, 4, 3, 6, 2, 8, 1, 7]),
    (ModularInverse, &[5, 4, 3, 2, 1]),
];

/// No moduli.
const REFUSED_MODULI: [u32; 14] = [
    0,
    1,
    2,
    4,
    6,
    998244352,
    (1 << 31) - 2,
    1 << 31,
    (1 << 31) + 1,
    (1 << 31) + 3,
    3 << 30 | 1,
    u32::MAX - 2,
    u32::MAX - 1,
    u32::MAX,
];

struct Residues {
    calls: Vec<Call>,
    roots: Roots,
    random: Random,
}

pub fn all(random: Random) -> Vec<Call> {
    let mut residues = Residues {
        calls: Vec::new(),
        roots: Roots::new(),
        random,
    };
    residues.lengths();
    residues.chosen_moduli();
    residues.small_moduli();
    residues.faults_alone();
    residues.faults_together();
    residues.reversals();
    residues.rows();
    residues.fillings();
    residues.fillings_refused();
    residues.calls
}

/// Fewer where they are long.
fn rounds(n: usize, most: usize) -> usize {
    (most >> n.saturating_sub(6)).max(2)
}

impl Residues {
    fn any_root(&mut self, n: usize) -> Root {
        self.roots.any(n, &mut self.random)
    }

    /// A call in which everything is right, with random residues, at times the
    /// largest, and garbage in the scratch, of any length where it does not count.
    fn right(&mut self, function: Function, schedule: u32, stage: u32, (m, x, n): Root) -> Call {
        let random = &mut self.random;
        let mut call = Call {
            function,
            schedule,
            stage,
            modulus: m,
            table: powers(m, x, n),
            ..Call::default()
        };
        if function != ModularAccept {
            let least = random.one_of(&[0, 0, 0, m - 2]);
            call.buf = random.residues(1 << n, m - least);
            call.buf.iter_mut().for_each(|v| *v += least);
        }
        if function == ModularTransform || function == ModularStage {
            let length = match scratch_counts(schedule) {
                true => 1 << n,
                false => random.place(2 << n),
            };
            call.scratch = random.words(length);
        }
        call
    }

    /// The same with a schedule and a stage that the call offers.
    fn offered(&mut self, function: Function, root: Root) -> Call {
        let schedules = if function == ModularTransform { 5 } else { 2 };
        let schedule = 1 + self.random.below(schedules);
        let stage = self.random.below(root.2 as u32);
        self.right(function, schedule, stage, root)
    }

    /// Every call of a right table, by every schedule and stage.
    fn of_root(&mut self, root: Root) {
        for schedule in 1..=5 {
            let call = self.right(ModularTransform, schedule, 0, root);
            self.calls.push(call);
        }
        for (schedule, stage) in (1..=2).flat_map(|c| (0..root.2 as u32).map(move |s| (c, s))) {
            let call = self.right(ModularStage, schedule, stage, root);
            self.calls.push(call);
        }
        for function in [ModularInverse, ModularAccept] {
            let call = self.right(function, 0, 0, root);
            self.calls.push(call);
        }
    }

    fn lengths(&mut self) {
        for n in 1..=12 {
            for _ in 0..rounds(n, 160) {
                let root = self.any_root(n);
                self.of_root(root);
            }
        }
    }

    /// Samples all 0 and all m - 1 too.
    fn chosen_moduli(&mut self) {
        for root in chosen() {
            let from = self.calls.len();
            self.of_root(root);
            for place in from..self.calls.len() {
                for value in [0, root.0 - 1] {
                    let mut call = self.calls[place].clone();
                    call.buf.fill(value);
                    self.calls.push(call);
                }
            }
        }
    }

    /// The powers of every base, most of them no table.
    fn small_moduli(&mut self) {
        for m in (3..=33).step_by(2).chain([65, 85, 97]) {
            for (x, n) in (0..=m).flat_map(|x| (1..=4).map(move |n| (x, n))) {
                for (function, _) in JUDGING {
                    let call = self.offered(function, (m, x, n));
                    self.calls.push(call);
                }
            }
        }
    }

    fn faults_alone(&mut self) {
        for (function, faults) in JUDGING {
            for (n, &fault) in (1..=12).flat_map(|n| faults.iter().map(move |f| (n, f))) {
                for _ in 0..rounds(n, 64) {
                    self.with_faults(function, n, &[fault]);
                }
            }
        }
    }

    /// Every set of faults, so that their order shows.
    fn faults_together(&mut self) {
        for (function, faults) in JUDGING {
            for set in 0..1_u32 << faults.len() {
                let chosen = (0..faults.len()).filter(|i| set >> i & 1 == 1);
                let faults: Vec<u32> = chosen.map(|i| faults[i]).collect();
                for n in (1..=6).flat_map(|n| [n; 3]) {
                    self.with_faults(function, n, &faults);
                }
            }
        }
    }

    fn with_faults(&mut self, function: Function, n: usize, faults: &[u32]) {
        let root = self.any_root(n);
        let mut call = self.offered(function, root);
        for &fault in faults {
            self.damage(&mut call, fault, root);
        }
        self.calls.push(call);
    }

    /// Brings in the fault that is refused by a number.
    fn damage(&mut self, call: &mut Call, fault: u32, root: Root) {
        let random = &mut self.random;
        let (m, _, n) = root;
        match fault {
            1 => call.buf.resize(random.one_of(&lengths()), 1),
            2 => call.modulus = random.one_of(&REFUSED_MODULI),
            3 if call.buf.is_empty() => call.table.resize(random.one_of(&lengths()), 1),
            3 => call.table.resize(wrong_length(1 << (n - 1), random), 1),
            4 => self.damage_table(call, root),
            5 => {
                let place = random.place(1 << n);
                let place = random.one_of(&[positions(0, 1 << n), [place; 3]].concat());
                call.buf[place] = random.one_of(&[m, m + 1, 1 << 31, u32::MAX]);
            }
            6 => call.scratch.resize(wrong_length(1 << n, random), 9),
            7 => {
                let first = if call.function == ModularStage { 3 } else { 6 };
                let others = [0, 6, 257, 65537, 1 << 31, 1 << 31 | 1, u32::MAX];
                call.schedule =
                    random.one_of(&[&others, &[first, first + 1, first + 2][..]].concat());
            }
            _ => call.stage = random.one_of(&[n as u32, n as u32 + 1, 12, 32, 64, 256, u32::MAX]),
        }
    }

    /// An entry that is wrong, at the first, a middle, the last or any place,
    /// or the powers of another base.
    fn damage_table(&mut self, call: &mut Call, (m, x, n): Root) {
        let random = &mut self.random;
        let half = 1 << (n - 1);
        let place = [positions(0, half), [random.place(half); 3]].concat();
        let place = random.one_of(&place);
        let right = call.table[place];
        let wrong = [
            right + m,
            0,
            right - 1,
            right + 1,
            m - 1,
            m,
            m + 1,
            u32::MAX,
        ];
        let bases = [0, 1, power(x, 2, m), m - 1, random.below(m)];
        match random.below(4) {
            0 => call.table = powers(m, random.one_of(&bases), n),
            _ => call.table[place] = random.one_of(&wrong),
        }
    }

    /// Any numbers.
    fn reversals(&mut self) {
        for length in lengths_often() {
            let buf = self.random.words(length);
            self.calls.push(Call {
                function: ModularReverse,
                buf,
                ..Call::default()
            });
        }
    }

    fn rows(&mut self) {
        let ends = [1 << 8, 1 << 16, 1 << 31, (1 << 31) + 1, u32::MAX];
        let any = self.random.words(1000);
        for row in (0..1000).chain(ends).chain(any) {
            self.calls.push(Call {
                function: HouseRow,
                modulus: row,
                ..Call::default()
            });
        }
    }

    /// A filling of so many places, with garbage in them.
    fn fill(&mut self, modulus: u32, roots: [u32; 12], length: usize) {
        let table = self.random.words(length);
        self.calls.push(Call {
            function: ModularFill,
            modulus,
            roots,
            table,
            ..Call::default()
        });
    }

    /// House settings for every length, and other roots alone among any.
    fn fillings(&mut self) {
        for (row, length) in (0..3).flat_map(|row| lengths().into_iter().map(move |l| (row, l))) {
            let setting = house_row(row).1;
            self.fill(setting.modulus, setting.roots, length);
        }
        for n in 1..=12 {
            for _ in 0..rounds(n, 256) {
                let (m, roots) = self.setting(n);
                self.fill(m, roots, 1 << (n - 1));
            }
        }
    }

    /// A modulus with a root for 2^n and any numbers for the other lengths.
    fn setting(&mut self, n: usize) -> (u32, [u32; 12]) {
        let (m, x, _) = self.any_root(n);
        let others = self.random.words(12);
        let root = |i| if i == n - 1 { x } else { others[i] };
        (m, std::array::from_fn(root))
    }

    /// 2, 3 and 4, alone and together.
    fn fillings_refused(&mut self) {
        for (n, set) in (1..=12).flat_map(|n| (0..8).map(move |set| (n, set))) {
            for _ in 0..rounds(n, 64) {
                let (mut m, mut roots) = self.setting(n);
                let (random, x) = (&mut self.random, roots[n - 1]);
                let mut length = 1 << (n - 1);
                if set & 1 != 0 {
                    let wrong = [0, 1, x - 1, x + 1, x + m, m - 1, m, m + 1, u32::MAX];
                    let wrong = [&wrong[..], &[power(x, 2, m), random.below(m)]].concat();
                    roots[n - 1] = random.one_of(&wrong);
                }
                if set & 2 != 0 {
                    length = random.one_of(&lengths());
                }
                if set & 4 != 0 {
                    m = random.one_of(&REFUSED_MODULI);
                }
                self.fill(m, roots, length);
            }
        }
    }
}
