//! Moduli with roots of -1, for tables to be lent in tests.

use crate::random::Random;
use crate::reading::{house_row, power};

/// A modulus, a root for N = 2^n, and n.
pub type Root = (u32, u32, usize);

pub const LARGEST: u32 = (1 << 31) - 1;

/// The least x whose power N/2 is -1.
pub fn least_root(m: u32, n: usize) -> u32 {
    let is_root = |&x: &u32| power(x, 1 << (n - 1), m) == m - 1;
    (1..m).find(is_root).expect("a root")
}

/// The powers of x below N/2.
pub fn powers(m: u32, x: u32, n: usize) -> Vec<u32> {
    (0..1 << (n - 1)).map(|e| power(x, e, m)).collect()
}

pub fn house_root(row: usize, n: usize) -> Root {
    let setting = house_row(row).1;
    (setting.modulus, setting.roots[n - 1], n)
}

pub fn searched_root(m: u32, n: usize) -> Root {
    (m, least_root(m, n), n)
}

/// The even a for which m = a^(N/2) + 1 is permitted; a is then a root.
fn even_bases(n: usize) -> Vec<u32> {
    let half = 1 << (n - 1);
    let fits = |a: &u32| a.checked_pow(half).is_some_and(|m| m < LARGEST);
    (2..).step_by(2).take_while(fits).collect()
}

fn power_and_one(a: u32, n: usize) -> Root {
    (a.pow(1 << (n - 1)) + 1, a, n)
}

/// The largest m = a^(N/2) + 1, n from 2 to 5.
pub fn largest_power_and_one(n: usize) -> Root {
    power_and_one(*even_bases(n).last().expect("an even a"), n)
}

/// A large m that is 1 modulo 4096, with a root among powers of 3.
pub fn near_largest(n: usize) -> Root {
    let found = |m: u32| {
        let x = power(3, (m as usize - 1) >> n, m);
        (power(x, 1 << (n - 1), m) == m - 1).then_some((m, x, n))
    };
    let mut moduli = (1..LARGEST).rev().filter(|m| m % 4096 == 1);
    moduli.find_map(found).expect("a modulus")
}

/// Small, composite and large moduli with their roots, up to N = 256.
pub fn chosen() -> Vec<Root> {
    let mut roots = vec![(3, 2, 1), (15, 14, 1), (5, 2, 2), (5, 3, 2)];
    roots.extend([LARGEST, LARGEST - 2].map(|m| (m, m - 1, 1)));
    let searched = [(25, 2), (65, 2), (1649, 4), (4369, 4), (289, 4), (257, 8)];
    roots.extend(searched.map(|(m, n)| searched_root(m, n)));
    roots.extend((2..=5).map(largest_power_and_one));
    roots.extend((2..=6).map(near_largest));
    roots
}

/// Roots for every length, to be drawn from.
pub struct Roots {
    known: Vec<Root>,
    bases: Vec<Vec<u32>>,
}

impl Roots {
    pub fn new() -> Roots {
        let mut known = chosen();
        // 12289 * 40961 = 503369729.
        let longest = [12289, 503369729].map(|m| searched_root(m, 12));
        for n in 1..=12 {
            known.extend((0..3).map(|row| house_root(row, n)));
            known.extend(longest.map(|(m, x, _)| (m, power(x, 1 << (12 - n), m), n)));
            known.push(near_largest(n));
        }
        let bases = (2..=5).map(even_bases).collect();
        Roots { known, bases }
    }

    /// A root for N = 2^n; its odd powers are roots too.
    pub fn any(&self, n: usize, random: &mut Random) -> Root {
        let of_length: Vec<Root> = self.known.iter().copied().filter(|r| r.2 == n).collect();
        let (m, x, _) = match (random.below(2), n) {
            (0, 1) => {
                let m = 3 + 2 * random.below(LARGEST / 2);
                (m, m - 1, n)
            }
            (0, 2..=5) => power_and_one(random.one_of(&self.bases[n - 2]), n),
            _ => random.one_of(&of_length),
        };
        let odd = 2 * random.place(1 << n) + 1;
        (m, power(x, odd, m), n)
    }
}
