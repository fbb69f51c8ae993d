//! A call of the header: its record for `tests/meter/calls.c`, and what the
//! reading makes of it.

use crate::fixed::{fixed_accept, fixed_fill, fixed_reverse, fixed_transform};
use crate::reading::*;
use std::fmt::{Display, Formatter, Result};

/// The calls, in the header's order.
#[derive(Clone, Copy, Debug, Default, PartialEq, Eq)]
pub enum Function {
    #[default]
    ModularAccept,
    ModularTransform,
    ModularStage,
    ModularInverse,
    ModularReverse,
    HouseRow,
    ModularFill,
    FixedAccept,
    FixedTransform,
    FixedReverse,
    FixedFill,
}
use Function::*;

/// Their names, and the numbers that each can answer.
pub const FUNCTIONS: [(&str, &[u32]); 11] = [
    ("fdr_modular_accept", &[0, 2, 3, 4]),
    ("fdr_modular_transform", &[0, 1, 2, 3, 4, 5, 6, 7]),
    ("fdr_modular_stage", &[0, 1, 2, 3, 4, 5, 6, 7, 8]),
    ("fdr_modular_inverse", &[0, 1, 2, 3, 4, 5]),
    ("fdr_modular_reverse", &[0, 1]),
    ("fdr_house_row", &[0, 9]),
    ("fdr_modular_fill", &[0, 2, 3, 4]),
    ("fdr_fixed_accept", &[0, 3, 4]),
    ("fdr_fixed_transform", &[0, 1, 3, 4, 5, 6, 7]),
    ("fdr_fixed_reverse", &[0, 1]),
    ("fdr_fixed_fill", &[0, 3]),
];

/// A call and all that is given and lent to it; what it does not take is 0 or
/// empty. A part in fixed point stands as its 32 bits.
#[derive(Clone, Debug, Default)]
pub struct Call {
    pub function: Function,
    pub schedule: u32,
    pub stage: u32,
    /// The modulus, or the house row.
    pub modulus: u32,
    pub roots: [u32; 12],
    pub buf: Vec<u32>,
    pub table: Vec<u32>,
    pub scratch: Vec<u32>,
}

impl Display for Call {
    fn fmt(&self, out: &mut Formatter) -> Result {
        writeln!(out, "{}", FUNCTIONS[self.function as usize].0)?;
        writeln!(out, "schedule {}, stage {}", self.schedule, self.stage)?;
        write!(
            out,
            "modulus or row {}, roots {:?}",
            self.modulus, self.roots
        )?;
        for (name, part) in ["buf", "table", "scratch"].iter().zip(self.lent()) {
            write!(out, "\n{name}, {} words:", part.len())?;
            let mut word = |&v| write!(out, " {}", self.shown(v));
            part.iter().try_for_each(&mut word)?;
        }
        Ok(())
    }
}

pub fn words(parts: &[i32]) -> Vec<u32> {
    parts.iter().map(|&v| v as u32).collect()
}

pub fn parts(words: &[u32]) -> Vec<i32> {
    words.iter().map(|&v| v as i32).collect()
}

impl Call {
    fn is_fixed(&self) -> bool {
        self.function as usize >= FixedAccept as usize
    }

    /// A word as the call takes it, with a sign in fixed point.
    pub fn shown(&self, word: u32) -> String {
        match self.is_fixed() {
            true => (word as i32).to_string(),
            false => word.to_string(),
        }
    }

    fn lent(&self) -> [&Vec<u32>; 3] {
        [&self.buf, &self.table, &self.scratch]
    }

    pub fn record(&self) -> Vec<u8> {
        let head = [
            self.function as u32,
            self.schedule,
            self.stage,
            self.modulus,
        ];
        let lengths = self.lent().map(|part| part.len() as u32);
        let numbers = head.iter().chain(&self.roots).chain(&lengths);
        let all = numbers.chain(self.lent().into_iter().flatten());
        all.flat_map(|word| word.to_le_bytes()).collect()
    }

    /// The answer by the reading, and the call as it leaves what was lent; in
    /// the place of modulus and roots the setting that is yielded, or zeros.
    pub fn outcome(&self) -> (Answer, Call) {
        let mut left = self.clone();
        let (answer, setting) = match self.function {
            HouseRow => house_row(self.modulus as usize),
            _ if self.is_fixed() => (left.in_fixed_point(), Setting::default()),
            _ => (left.over_residues(), Setting::default()),
        };
        (left.modulus, left.roots) = (setting.modulus, setting.roots);
        (answer, left)
    }

    fn over_residues(&mut self) -> Answer {
        let (m, buf, table) = (self.modulus, &mut self.buf, &mut self.table);
        match self.function {
            ModularAccept => accept(m, table),
            ModularTransform => transform(self.schedule, buf, m, table, &mut self.scratch),
            ModularStage => {
                let s = self.stage as usize;
                stage(self.schedule, s, buf, m, table, &mut self.scratch)
            }
            ModularInverse => inverse(buf, m, table),
            ModularReverse => reverse(buf),
            _ => {
                let (modulus, roots) = (m, self.roots);
                fill(&Setting { modulus, roots }, table)
            }
        }
    }

    fn in_fixed_point(&mut self) -> Answer {
        let [mut buf, mut table, mut scratch] = self.lent().map(|part| parts(part));
        let answer = match self.function {
            FixedAccept => fixed_accept(&table),
            FixedTransform => fixed_transform(self.schedule, &mut buf, &table, &mut scratch),
            FixedReverse => fixed_reverse(&mut buf),
            _ => fixed_fill(&mut table),
        };
        [self.buf, self.table, self.scratch] = [buf, table, scratch].map(|part| words(&part));
        answer
    }

    /// The words that `calls.c` writes, in named parts.
    pub fn written(answer: Answer, left: &Call) -> Vec<(&'static str, Vec<u32>)> {
        let (low, high) = (answer.place as u32, (answer.place as u64 >> 32) as u32);
        let [buf, table, scratch] = left.lent().map(Vec::clone);
        vec![
            ("number", vec![answer.number]),
            ("place", vec![low, high]),
            ("modulus", vec![left.modulus]),
            ("roots", left.roots.to_vec()),
            ("buf", buf),
            ("table", table),
            ("scratch", scratch),
        ]
    }
}
