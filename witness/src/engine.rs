//! The engine, through the proved program `probe` or another that reads and writes the same (`common::probe` has the forms). Each case
//! is a single step. Its pages lie in three frames of real memory, in any order.

use crate::case::{Case, WINDOW, ZONE_AT};
use common::bounded;
use common::probe::{Call, Kind};
use std::fs;
use std::path::Path;
use std::time::Duration;

const MEMORY: usize = 3 * 4096;
const PAGES: usize = 512;

/// Usable and nonprivileged, nothing else.
const OPEN: u16 = 0x3000;

const ORDERS: [[usize; 3]; 6] = [
    [0, 1, 2],
    [0, 2, 1],
    [1, 0, 2],
    [1, 2, 0],
    [2, 0, 1],
    [2, 1, 0],
];

pub struct Outcome {
    pub number: u64,
    pub place: u64,
    pub counter: u64,
    pub code: u64,
    pub mask: u64,
    pub regs: Vec<u64>,
    pub checksum: u64,
}

/// The pages of a case, each with its frame.
fn frames(case: &Case) -> Vec<(u32, usize)> {
    let first = case.window_at / 4096;
    let last = (case.window_at + WINDOW as u32 - 1) / 4096;
    let mut pages = vec![ZONE_AT / 4096, first, last];
    pages.dedup();
    pages.into_iter().zip(ORDERS[case.order]).collect()
}

fn real(frames: &[(u32, usize)], address: u32) -> usize {
    let page = address / 4096;
    let frame = frames
        .iter()
        .find(|(number, _)| *number == page)
        .map_or(0, |(_, frame)| *frame);
    frame * 4096 + (address % 4096) as usize
}

/// Real memory as it is when the case's own bytes are these and all others are zero.
pub fn memory(case: &Case, window: &[u8], zone: &[u8]) -> Vec<u8> {
    let frames = frames(case);
    let mut memory = vec![0; MEMORY];
    for (at, bytes) in [(case.window_at, window), (ZONE_AT, zone)] {
        for (i, byte) in bytes.iter().enumerate() {
            memory[real(&frames, at + i as u32)] = *byte;
        }
    }
    memory
}

fn push_case(out: &mut Vec<u8>, case: &Case) {
    let mut map = vec![0; PAGES];
    for (page, frame) in frames(case) {
        map[page as usize] = OPEN | frame as u16;
    }
    let call = Call {
        kind: Kind::Step,
        memory: &memory(case, &case.window, &case.zone),
        map: &map,
        registers: &case.regs,
        counter: case.counter,
        code: case.code.into(),
        mask: case.mask.into(),
    };
    call.push(out);
}

fn numbers(line: Option<&str>, name: &str) -> Result<Vec<u64>, String> {
    let line = line.ok_or("the engine stopped early")?;
    let mut fields = line.split('\t');
    if fields.next() != Some(name) {
        return Err(format!("the engine said {line:.40}, not {name}"));
    }
    fields
        .map(|field| field.parse().map_err(|_| format!("not a number: {field}")))
        .collect()
}

fn outcome<'a>(lines: &mut impl Iterator<Item = &'a str>) -> Result<Outcome, String> {
    let answer = numbers(lines.next(), "ANSWER")?;
    let state = numbers(lines.next(), "STATE")?;
    let regs = numbers(lines.next(), "REGS")?;
    let _map = lines.next();
    let memory = numbers(lines.next(), "MEMORY")?;
    let ([number, place, _], [counter, code, mask], [checksum]) =
        (&answer[..], &state[..], &memory[..])
    else {
        return Err("the engine's answer has another form".to_string());
    };
    Ok(Outcome {
        number: *number,
        place: *place,
        counter: *counter,
        code: *code,
        mask: *mask,
        regs,
        checksum: *checksum,
    })
}

/// Gives the cases to the engine, started by a command.
pub fn run(engine: &[String], folder: &Path, cases: &[Case]) -> Result<Vec<Outcome>, String> {
    let (before, after) = (folder.join("cases"), folder.join("outcomes"));
    let mut input = Vec::new();
    for case in cases {
        push_case(&mut input, case);
    }
    fs::write(&before, input).map_err(|error| error.to_string())?;
    let mut command = bounded::command();
    command.args(engine);
    bounded::filter(command, &before, &after, Duration::from_secs(300))
        .map_err(|error| format!("{}: {error}", engine.join(" ")))?;
    let text = fs::read_to_string(&after).map_err(|error| error.to_string())?;
    let mut lines = text.lines();
    let outcomes = cases.iter().map(|_| outcome(&mut lines)).collect();
    match lines.next() {
        None => outcomes,
        Some(_) => Err("the engine answered more cases than it was given".to_string()),
    }
}
