//! One case, held against both.

use crate::case::{After, Case, End, DIVIDE, SPECIFICATION, ZONE_AT};
use crate::engine::{memory, Outcome};
use common::bytes::to_hex;
use common::probe::checksum;

/// Everything in which the engine and Hercules differ, in words; nothing if they agree.
pub fn differences(case: &Case, hercules: &After, engine: &Outcome) -> Vec<String> {
    let mut out = Vec::new();
    let mut held = |what: &str, theirs: u64, ours: u64| {
        if theirs != ours {
            out.push(format!("{what}: Hercules {theirs:X}, engine {ours:X}"));
        }
    };
    let (number, place, counter) = wanted(hercules.end);
    held("number", number, engine.number);
    held("place", place.into(), engine.place);
    held("counter", counter.into(), engine.counter);
    held("code", hercules.code.into(), engine.code);
    held("mask", hercules.mask.into(), engine.mask);
    for r in 0..16 {
        held(
            &format!("R{r}"),
            hercules.regs[r].into(),
            engine.regs.get(r).copied().unwrap_or(u64::MAX),
        );
    }
    // The engine tells its memory by a checksum of the whole.
    let theirs = checksum(&memory(case, &hercules.window, &hercules.zone));
    held("checksum of memory", theirs, engine.checksum);
    let overflows =
        engine.number == 0 && engine.code == 3 && can_overflow(case.instruction.operation);
    let is_due = case.mask & 8 != 0 && overflows;
    held(
        "interruption for overflow",
        matches!(hercules.end, End::Overflow(_)).into(),
        is_due.into(),
    );
    out
}

/// The number, the place and the counter with which the engine has to answer. A refused instruction leaves the counter on it.
fn wanted(end: End) -> (u64, u32, u32) {
    match end {
        End::At(counter) | End::Overflow(counter) => (0, 0, counter),
        End::Refused { interruption, at } => (number_for(interruption), at, at),
    }
}

/// The number of a refusal for which Hercules interrupts. No case is made for another interruption: it can only be a difference.
fn number_for(interruption: u16) -> u64 {
    match interruption {
        SPECIFICATION => 2,
        DIVIDE => 8,
        _ => u64::MAX,
    }
}

/// LPR, LCR, AR, SR, A, S, AH, SH, SLA, SLDA.
fn can_overflow(operation: u8) -> bool {
    matches!(
        operation,
        0x10 | 0x13 | 0x1A | 0x1B | 0x5A | 0x5B | 0x4A | 0x4B | 0x8B | 0x8F
    )
}

/// The case as a reader needs it: what stood where, and which of the own bytes Hercules changed.
pub fn tell(case: &Case, hercules: &After, engine: &Outcome) -> String {
    let regs: Vec<String> = case.regs.iter().map(|word| format!("{word:08X}")).collect();
    let mut out = format!(
        "{} case {}: {} at {:06X}, code {}, mask {}, own bytes from {:06X}\n",
        case.instruction.name,
        case.number,
        to_hex(case.text()),
        case.counter,
        case.code,
        case.mask,
        case.window_at,
    );
    out += &format!("  registers {}\n", regs.join(" "));
    out += &format!(
        "  Hercules {:X?}; engine {} at {:06X}, then {:06X}\n",
        hercules.end, engine.number, engine.place, engine.counter,
    );
    for (at, before, after) in [
        (case.window_at, &case.window, &hercules.window),
        (ZONE_AT, &case.zone, &hercules.zone),
    ] {
        for (i, (was, is)) in before
            .iter()
            .zip(after)
            .enumerate()
            .filter(|(_, (was, is))| was != is)
        {
            out.push_str(&format!(
                "  {:06X}: {was:02X}, in Hercules now {is:02X}\n",
                at as usize + i
            ));
        }
    }
    out
}

#[cfg(test)]
mod tests {
    use super::*;
    use crate::{guest, make};
    use common::set::SET;

    /// A case, and what both would make of it if they changed nothing but the counter.
    fn agreed() -> (Case, After, Outcome) {
        let case = make::make(&SET[0], 0, guest::window_at(0));
        let counter = case.counter + 2;
        let after = After {
            end: End::At(counter),
            code: case.code,
            mask: case.mask,
            regs: case.regs,
            window: case.window.clone(),
            zone: case.zone.clone(),
        };
        let outcome = Outcome {
            number: 0,
            place: 0,
            counter: counter.into(),
            code: case.code.into(),
            mask: case.mask.into(),
            regs: case.regs.iter().map(|word| u64::from(*word)).collect(),
            checksum: checksum(&memory(&case, &case.window, &case.zone)),
        };
        (case, after, outcome)
    }

    #[test]
    fn what_agrees_is_not_told() {
        let (case, after, outcome) = agreed();
        assert!(differences(&case, &after, &outcome).is_empty());
    }

    #[test]
    fn every_change_of_the_engine_is_seen() {
        let changes: [fn(&mut Outcome); 8] = [
            |outcome| outcome.number = 5,
            |outcome| outcome.place = 2,
            |outcome| outcome.counter += 2,
            |outcome| outcome.code ^= 1,
            |outcome| outcome.mask ^= 1,
            |outcome| outcome.regs[15] ^= 1,
            |outcome| outcome.regs.truncate(15),
            |outcome| outcome.checksum ^= 1,
        ];
        for (i, change) in changes.iter().enumerate() {
            let (case, after, mut outcome) = agreed();
            change(&mut outcome);
            assert_eq!(differences(&case, &after, &outcome).len(), 1, "change {i}");
        }
    }

    #[test]
    fn every_change_of_hercules_is_seen() {
        let changes: [fn(&mut After); 5] = [
            |after| after.regs[0] ^= 1,
            |after| after.window[1023] ^= 1,
            |after| after.zone[255] ^= 1,
            |after| after.end = End::At(0),
            |after| after.code ^= 1,
        ];
        for (i, change) in changes.iter().enumerate() {
            let (case, mut after, outcome) = agreed();
            change(&mut after);
            assert_eq!(differences(&case, &after, &outcome).len(), 1, "change {i}");
        }
    }

    /// Hercules interrupts with this code, and the engine refuses with this number; nothing else changed.
    fn refused(interruption: u16, number: u64) -> (Case, After, Outcome) {
        let (case, mut after, mut outcome) = agreed();
        let at = case.counter;
        after.end = End::Refused { interruption, at };
        outcome.number = number;
        outcome.place = at.into();
        outcome.counter = at.into();
        (case, after, outcome)
    }

    #[test]
    fn a_refusal_has_its_interruption() {
        for (interruption, number) in [(SPECIFICATION, 2), (DIVIDE, 8)] {
            let (case, after, outcome) = refused(interruption, number);
            assert!(differences(&case, &after, &outcome).is_empty());
        }
        for (interruption, number) in [(SPECIFICATION, 8), (DIVIDE, 2), (DIVIDE, 0), (5, 5)] {
            let (case, after, outcome) = refused(interruption, number);
            assert_eq!(differences(&case, &after, &outcome).len(), 1);
        }
    }

    #[test]
    fn what_is_refused_does_not_overflow() {
        let slda = SET.iter().find(|one| one.name == "SLDA").expect("SLDA");
        let (mut case, mut after, mut outcome) = refused(SPECIFICATION, 2);
        case.instruction = slda;
        (case.mask, after.mask, outcome.mask) = (8, 8, 8);
        (case.code, after.code, outcome.code) = (3, 3, 3);
        assert!(differences(&case, &after, &outcome).is_empty());
    }

    #[test]
    fn a_refusal_leaves_place_and_counter_on_the_instruction() {
        let changes: [fn(&mut Outcome); 3] = [
            |outcome| outcome.place += 2,
            |outcome| outcome.counter += 2,
            |outcome| outcome.regs[1] ^= 1,
        ];
        for (i, change) in changes.iter().enumerate() {
            let (case, after, mut outcome) = refused(DIVIDE, 8);
            change(&mut outcome);
            assert_eq!(differences(&case, &after, &outcome).len(), 1, "change {i}");
        }
    }
}
