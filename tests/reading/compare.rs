//! Holds the calls of the library and the program `dft` against the reading.

use crate::calls::{Call, FUNCTIONS};
use crate::program::dft;
use crate::random::Random;
use crate::{requests, residues, scans};
use std::collections::BTreeMap;
use std::io::{BufReader, Read, Write};
use std::process::{Child, Command, Stdio};

/// What is said in the end: of success, or of the first difference.
type Report = Result<String, String>;

/// How often a call, by its place in the header, answered a number.
type Counts = BTreeMap<(usize, u32), usize>;

/// Makes the calls through a program that is started once, `calls.c`.
pub fn calls(command: &[String], seed: u64) -> Report {
    let mut calls = residues::all(Random::new(seed));
    calls.extend(scans::all(Random::new(seed)));
    let mut child = started(command, Stdio::piped())?;
    let input = child.stdin.take().expect("a pipe");
    let output = child.stdout.take().expect("a pipe");
    let counts = std::thread::scope(|scope| {
        scope.spawn(|| feed(&calls, input));
        let counts = compared(&calls, BufReader::new(output));
        if counts.is_err() {
            let _ = child.kill();
        }
        counts
    })?;
    match child.wait() {
        Ok(status) if status.success() => summary(&counts),
        ended => Err(format!("the program ended with {ended:?}")),
    }
}

fn started(command: &[String], input: Stdio) -> Result<Child, String> {
    let (program, arguments) = command.split_first().ok_or("no program is named")?;
    let mut command = Command::new(program);
    command.args(arguments).stdin(input).stdout(Stdio::piped());
    let failed = |error| format!("{program}: {error}");
    command.spawn().map_err(failed)
}

/// Writes the records, all or until the program ends.
fn feed(calls: &[Call], mut input: impl Write) {
    for call in calls {
        if input.write_all(&call.record()).is_err() {
            return;
        }
    }
}

/// Counts what the library answers, up to the first difference.
fn compared(calls: &[Call], mut output: impl Read) -> Result<Counts, String> {
    let mut counts = Counts::new();
    for (place, call) in (1..).zip(calls) {
        let differs = |lines| format!("call {place} of {}:\n{lines}{call}", calls.len());
        let number = answered(call, &mut output).map_err(differs)?;
        *counts.entry((call.function as usize, number)).or_default() += 1;
    }
    Ok(counts)
}

/// Reads what the library makes of a call: the number that it answers, or in
/// lines how it differs.
fn answered(call: &Call, output: &mut impl Read) -> Result<u32, String> {
    let (answer, left) = call.outcome();
    let mut lines = String::new();
    for (part, wanted) in Call::written(answer, &left) {
        let found = words(output, wanted.len()).ok_or("the program ended\n")?;
        if let Some(i) = (0..wanted.len()).find(|&i| wanted[i] != found[i]) {
            let [wanted, found] = [wanted[i], found[i]].map(|word| call.shown(word));
            lines += &format!("{part}[{i}]: the reading has {wanted}, the library {found}\n");
        }
    }
    match lines.is_empty() {
        true => Ok(answer.number),
        false => Err(lines),
    }
}

/// So many words, if they come.
fn words(output: &mut impl Read, count: usize) -> Option<Vec<u32>> {
    let mut bytes = vec![0; 4 * count];
    output.read_exact(&mut bytes).ok()?;
    let word = |b: &[u8]| u32::from_le_bytes([b[0], b[1], b[2], b[3]]);
    Some(bytes.chunks(4).map(word).collect())
}

/// How many calls there were by their answers; each has given every number
/// that it can, and no other.
fn summary(counts: &Counts) -> Report {
    let mut lines = Vec::new();
    for (function, (name, numbers)) in FUNCTIONS.iter().enumerate() {
        let all = (function, 0)..=(function, u32::MAX);
        let found: Vec<(u32, usize)> = counts.range(all).map(|(k, &c)| (k.1, c)).collect();
        if !found.iter().map(|(number, _)| number).eq(*numbers) {
            return Err(format!("{name}: {numbers:?} are due, came up: {found:?}"));
        }
        let total: usize = found.iter().map(|(_, count)| count).sum();
        let each = found.iter().map(|(n, count)| format!("{n}: {count}"));
        let each = each.collect::<Vec<String>>().join(", ");
        lines.push(format!("{total} calls of {name} agree ({each})"));
    }
    Ok(lines.join("\n"))
}

/// Starts `dft` for each request, from a file in a directory.
pub fn requests(directory: &str, command: &[String], seed: u64) -> Report {
    let file = format!("{directory}/request");
    let failed = |error: std::io::Error| format!("{file}: {error}");
    let requests = requests::all(Random::new(seed));
    let count = requests.len();
    for (place, request) in (1..).zip(&requests) {
        std::fs::write(&file, request).map_err(failed)?;
        let input = std::fs::File::open(&file).map_err(failed)?;
        let child = started(command, input.into())?;
        let output = child.wait_with_output().map_err(failed)?;
        let (found, wanted) = (String::from_utf8_lossy(&output.stdout), dft(request));
        if found != wanted || !output.status.success() {
            let ended = output.status;
            let lines = format!("the reading prints {wanted:?}\ndft prints {found:?} and ends with {ended}");
            let bytes = format!("the request is {request:02x?}");
            return Err(format!("request {place} of {count}:\n{lines}\n{bytes}"));
        }
    }
    Ok(format!("{count} requests of dft agree"))
}
