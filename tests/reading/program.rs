//! The program `dft` of document 01, from its input to what it prints.

use crate::reading::{log, refused, transform, Answer, DONE};

/// "groups of seven bits, low group first, top bit set on all but the last;
/// shortest form only".
pub fn seven_bit_groups(number: u64) -> Vec<u8> {
    let (mut left, mut bytes) = (number, Vec::new());
    while left >= 0x80 {
        bytes.push(0x80 | (left & 0x7f) as u8);
        left >>= 7;
    }
    bytes.push(left as u8);
    bytes
}

/// Reads the number at `place` and moves on. "a number not in shortest form,
/// not below 2^32 or with the top bit still set in its fifth byte, place its
/// first byte; [...] input that ends before or inside a number, the input's
/// length".
fn number(input: &[u8], place: &mut usize) -> Result<u32, Answer> {
    let first = *place;
    let mut value: u64 = 0;
    for i in 0..5 {
        let Some(&byte) = input.get(first + i) else {
            return Err(refused(10, input.len()));
        };
        value += u64::from(byte & 0x7f) << (7 * i);
        if byte < 0x80 {
            let shortest = i == 0 || byte != 0;
            if !shortest || value >= 1 << 32 {
                return Err(refused(10, first));
            }
            *place = first + i + 1;
            return Ok(value as u32);
        }
    }
    Err(refused(10, first))
}

fn numbers(input: &[u8], place: &mut usize, count: usize) -> Result<Vec<u32>, Answer> {
    (0..count).map(|_| number(input, place)).collect()
}

/// The results in buffer order, or the refusal.
fn results(input: &[u8]) -> Result<Vec<u32>, Answer> {
    // "They are m, schedule, N, the table, the samples."
    let mut place = 0;
    let m = number(input, &mut place)?;
    let schedule = number(input, &mut place)?;
    let length = number(input, &mut place)? as usize;
    // "It answers 7 and 1 once it has those three"
    if !(1..=5).contains(&schedule) {
        return Err(refused(7, 0));
    }
    if log(length).is_none() {
        return Err(refused(1, 0));
    }
    // "the rest must then be there and nothing after it, or the answer is 10"
    let table = numbers(input, &mut place, length / 2)?;
    let mut buf = numbers(input, &mut place, length)?;
    if place < input.len() {
        return Err(refused(10, place));
    }
    // "Then 2, 4 and 5 follow."
    let mut scratch = vec![0; length];
    match transform(schedule, &mut buf, m, &table, &mut scratch) {
        DONE => Ok(buf),
        refusal => Err(refusal),
    }
}

/// "It prints number and place and, on success, the N results in buffer
/// order, with single spaces and a newline."
pub fn dft(input: &[u8]) -> String {
    match results(input) {
        Ok(values) => {
            let words: Vec<String> = values.iter().map(u32::to_string).collect();
            format!("0 0 {}\n", words.join(" "))
        }
        Err(refusal) => format!("{} {}\n", refusal.number, refusal.place),
    }
}
