// Every schedule, modular and fixed, at 1,024 and 4,096 points, with its judgement and without it, against plain Rust of the same step,
// and beside libraries that a user would pick instead. Ratios come from one run: the contenders take turns, and the smallest time of many
// turns counts, which leaves the cold ones out. Prints two tables and exits with 1 where a bar is missed.
//     speed [TURNS]    turns in each of the twenty rounds
mod library;
mod plain;

use std::hint::black_box;
use std::time::Instant;

// At most so many times plain Rust: without the judgement, and with it.
const NEAR: (f64, f64) = (1.25, 1.5);
const FAR: (f64, f64) = (1.5, 1.75);

type Modular = (&'static str, (f64, f64), fn(&mut [u32], u32, &[u32], &mut [u32]));
type Fixed = (&'static str, (f64, f64), fn(&mut [i32], &[i32], &mut [i32]));

const MODULAR: [Modular; 5] = [
    ("1, by columns", NEAR, plain::modular::columns),
    ("2, perfect shuffle", FAR, plain::modular::shuffle),
    ("3, by halves", NEAR, plain::modular::halves),
    ("4, Thong T1", NEAR, plain::modular::thong),
    ("5, Pease", FAR, plain::modular::pease),
];

const FIXED: [Fixed; 3] = [
    ("1, by columns", NEAR, plain::fixed::columns),
    ("2, perfect shuffle", FAR, plain::fixed::shuffle),
    ("3, by halves", NEAR, plain::fixed::halves),
];

type Run<'a, T> = Box<dyn FnMut(&mut [T], &mut [T]) + 'a>;

// A transform with the buffers that it is given, and the smallest of its times so far, in microseconds.
struct Contender<'a, T> {
    run: Run<'a, T>,
    buf: Vec<T>,
    scratch: Vec<T>,
    smallest: f64,
}

impl<'a, T: Copy + Default> Contender<'a, T> {
    fn new(len: usize, run: Run<'a, T>) -> Self {
        Contender { run, buf: vec![T::default(); len], scratch: vec![T::default(); len], smallest: f64::MAX }
    }

    // One turn, on fresh samples.
    fn turn(&mut self, samples: &[T]) {
        self.buf.copy_from_slice(samples);
        let begun = Instant::now();
        (self.run)(black_box(&mut self.buf), &mut self.scratch);
        self.smallest = self.smallest.min(begun.elapsed().as_nanos() as f64 / 1000.0);
        black_box(&self.buf);
    }
}

// Plain Rust, the kernel and the call, on the same samples.
struct Race<'a, T> {
    kind: &'static str,
    n: u32,
    name: &'static str,
    bars: (f64, f64),
    samples: &'a [T],
    contenders: [Contender<'a, T>; 3],
}

impl<'a, T: Copy + Default + PartialEq> Race<'a, T> {
    fn new(kind: &'static str, n: u32, name: &'static str, bars: (f64, f64), samples: &'a [T], runs: [Run<'a, T>; 3]) -> Self {
        Race { kind, n, name, bars, samples, contenders: runs.map(|run| Contender::new(samples.len(), run)) }
    }

    fn turns(&mut self, turns: usize) {
        for _ in 0..turns {
            self.contenders.iter_mut().for_each(|c| c.turn(self.samples));
        }
    }

    // A row of the first table; whether the results are the same and both bars are held.
    fn row(&self) -> bool {
        let [plain, kernel, call] = &self.contenders;
        assert!(plain.buf == kernel.buf && plain.buf == call.buf, "{} {}: the results differ", self.kind, self.name);
        let (alone, judged) = (kernel.smallest / plain.smallest, call.smallest / plain.smallest);
        let held = alone <= self.bars.0 && judged <= self.bars.1;
        let mark = if held { "" } else { " MISSED" };
        let (kind, size, name) = (self.kind, 1 << self.n, self.name);
        println!("| {kind} | {size} | {name} | {:.1} | {alone:.2} | {:.2} | {judged:.2} | {:.2} |{mark}", plain.smallest, self.bars.0, self.bars.1);
        held
    }
}

// A turn of a call and of what stands beside it.
fn beside<T: Copy + Default>(samples: &[T], call: &mut Contender<T>, others: &mut [(&str, Contender<u8>)]) {
    call.turn(samples);
    others.iter_mut().for_each(|(_, other)| other.turn(&[]));
}

// Rows of the second table.
fn rows(title: &str, n: u32, ours: f64, others: &[(&str, Contender<u8>)]) {
    for (name, other) in others {
        println!("| {title} | {} | {ours:.1} | {name} | {:.1} | {:.2} |", 1 << n, other.smallest, ours / other.smallest);
    }
}

fn other(run: unsafe extern "C" fn(u32), n: u32) -> Contender<'static, u8> {
    Contender::new(0, Box::new(move |_, _| unsafe { run(n) }))
}

// Times are taken in so many rounds through all contenders, so that no one has the machine's slow moments to itself.
const ROUNDS: usize = 20;

fn main() {
    let turns: usize = std::env::args().nth(1).map_or(200, |w| w.parse().expect("a number of turns in each round"));
    assert!(turns > 0, "no turns, no times");
    let mut state = 1u64;
    let mut random = move || {
        state = state.wrapping_mul(6364136223846793005).wrapping_add(1442695040888963407);
        (state >> 33) as u32
    };
    let residues = [10, 12].map(|n| {
        let (m, table) = library::modular_table(1 << (n - 1));
        let samples: Vec<u32> = (0..1 << n).map(|_| random() % m).collect();
        (n, black_box(m), table, samples)
    });
    let points = [10, 12].map(|n| {
        let samples: Vec<i32> = (0..2 << n).map(|_| (random() % 65535) as i32 - 32767).collect();
        (n, library::fixed_table(1 << n), samples)
    });

    let mut modular = Vec::new();
    for (n, m, table, samples) in &residues {
        for (schedule, (name, bars, rust)) in (1..).zip(MODULAR) {
            modular.push(Race::new(
                "modular",
                *n,
                name,
                bars,
                samples,
                [
                    Box::new(move |buf, scratch| rust(buf, *m, table, scratch)),
                    Box::new(move |buf, scratch| library::modular_kernel(schedule, buf, *m, table, scratch)),
                    Box::new(move |buf, scratch| library::modular_call(schedule, buf, *m, table, scratch)),
                ],
            ));
        }
    }
    let mut fixed = Vec::new();
    for (n, table, samples) in &points {
        for (schedule, (name, bars, rust)) in (1..).zip(FIXED) {
            fixed.push(Race::new(
                "fixed",
                *n,
                name,
                bars,
                samples,
                [
                    Box::new(move |buf, scratch| rust(buf, table, scratch)),
                    Box::new(move |buf, scratch| library::fixed_kernel(schedule, buf, table, scratch)),
                    Box::new(move |buf, scratch| library::fixed_call(schedule, buf, table, scratch)),
                ],
            ));
        }
    }

    // What others wrote, and beside it the call by schedule 1, in fixed point with the reversal, since they leave the spectrum in order.
    let mut sums = Vec::new();
    for (n, m, table, samples) in &residues {
        unsafe { library::others_residues(*n, *m, samples.as_ptr()) };
        let call = Contender::new(samples.len(), Box::new(move |buf, scratch| library::modular_call(1, buf, *m, table, scratch)));
        sums.push((*n, samples, call, vec![("NTL", other(library::others_ntl, *n))]));
    }
    let mut spectra = Vec::new();
    for (n, table, samples) in &points {
        unsafe { library::others_points(*n, samples.as_ptr()) };
        let call = Contender::new(samples.len(), Box::new(move |buf, scratch| library::fixed_in_order(buf, table, scratch)));
        let others = vec![("FFTW, doubles", other(library::others_fftw, *n)), ("KissFFT, floats", other(library::others_kiss, *n))];
        spectra.push((*n, samples, call, others));
    }

    for _ in 0..ROUNDS {
        modular.iter_mut().for_each(|race| race.turns(turns));
        fixed.iter_mut().for_each(|race| race.turns(turns));
        for _ in 0..turns {
            sums.iter_mut().for_each(|(_, samples, call, others)| beside(samples, call, others));
            spectra.iter_mut().for_each(|(_, samples, call, others)| beside(samples, call, others));
        }
    }

    println!("| | N | schedule | plain Rust, µs | kernel | bar | call | bar |");
    println!("|---|---|---|---|---|---|---|---|");
    let held = modular.iter().map(Race::row).chain(fixed.iter().map(Race::row)).fold(true, |all, one| all && one);
    println!("\n| | N | ours, µs | beside | µs | ratio |");
    println!("|---|---|---|---|---|---|");
    sums.iter().for_each(|(n, _, call, others)| rows("modular, schedule 1", *n, call.smallest, others));
    spectra.iter().for_each(|(n, _, call, others)| rows("fixed, schedule 1 and reversal", *n, call.smallest, others));
    if !held {
        eprintln!("a bar was missed");
        std::process::exit(1);
    }
}
