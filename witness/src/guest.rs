//! A small program for Hercules, in S/370 basic control mode. It walks a table of records: for each it loads the registers, goes to
//! the case's code in problem state, catches the interruption that follows, and writes what it finds back into the record.

use crate::case::{After, Case, End, OVERFLOW, SPECIFICATION, WINDOW, ZONE};
use common::bytes::{from_hex, put};
use common::hercules::OldPsw;

/// A record: sixteen registers, a PSW, how it was caught (1 SVC, 2 program interruption), and the bytes of the zone.
const RECORD: usize = 336;
const PSW: usize = 64;
const CAUGHT: usize = 72;
const RECORD_ZONE: usize = 80;

/// The table lies beyond everything that a case may reach.
const TABLE: usize = 0x20_0000;

/// Windows lie at equal distances in pages 1 to 511, so that every other one lies across the edge of a page.
const FIRST_WINDOW: usize = 0x1600;
const DISTANCE: usize = 2048;
pub const WINDOWS: usize = (TABLE - FIRST_WINDOW - WINDOW) / DISTANCE + 1;

pub fn window_at(slot: usize) -> u32 {
    (FIRST_WINDOW + slot * DISTANCE) as u32
}

/// The program: an address and what stands there. Data: registers at 400, the record at work at 440, the table's end and start at
/// 444 and 448, the PSW to load at 450, the last PSW (a disabled wait) at 458; the zone is at F00.
const PROGRAM: [(usize, &str); 9] = [
    // PSW for restart, SVC, program interruption
    (0x000, "0000000000000200"),
    (0x060, "0000000000000300"),
    (0x068, "0000000000000320"),
    // L 1,448
    (0x200, "58100448"),
    // C 1,444; BNL 380; ST 1,440; MVC 450(8),64(1); MVC F00(256),80(1); LM 0,15,0(1); LPSW 450
    (
        0x204,
        "5910044447B0038050100440D20704501040D2FF0F001050980F100082000450",
    ),
    // STM 0,15,400; L 1,440; MVC 64(8,1),20; MVI 72(1),1; B 360
    (0x300, "900F040058100440D2071040002092011048 47F00360"),
    // STM 0,15,400; L 1,440; MVC 64(8,1),28; MVI 72(1),2; B 360
    (0x320, "900F040058100440D2071040002892021048 47F00360"),
    // MVC 0(64,1),400; MVC 80(256,1),F00; LA 1,336(1); B 204
    (0x360, "D23F10000400D2FF10500F004110115047F00204"),
    // LPSW 458
    (0x380, "82000458"),
];
const LAST_PSW: (usize, &str) = (0x458, "0002000000000000");

/// The storage to load at 0.
pub fn storage(cases: &[Case]) -> Vec<u8> {
    let end = TABLE + cases.len() * RECORD;
    let mut storage = vec![0; end];
    for (at, text) in PROGRAM.iter().chain([&LAST_PSW]) {
        put(&mut storage, *at, &from_hex(text));
    }
    put(&mut storage, 0x444, &(end as u32).to_be_bytes());
    put(&mut storage, 0x448, &(TABLE as u32).to_be_bytes());
    for (i, case) in cases.iter().enumerate() {
        put(&mut storage, TABLE + i * RECORD, &record(case));
        put(&mut storage, case.window_at as usize, &case.window);
    }
    storage
}

fn record(case: &Case) -> Vec<u8> {
    let mut out: Vec<u8> = case
        .regs
        .iter()
        .flat_map(|word| word.to_be_bytes())
        .collect();
    // Nothing enabled, key 0, problem state; then the code, the mask and the counter.
    out.extend([0, 1, 0, 0, case.code << 4 | case.mask]);
    out.extend(&case.counter.to_be_bytes()[1..]);
    out.resize(RECORD_ZONE, 0);
    out.extend(&case.zone);
    out
}

/// So many bytes at a place.
fn part<const N: usize>(bytes: &[u8], at: usize) -> [u8; N] {
    std::array::from_fn(|i| bytes[at + i])
}

/// What the storage that was loaded says of each case afterwards.
pub fn read(cases: &[Case], storage: &[u8]) -> Vec<After> {
    let read_one = |(i, case): (usize, &Case)| {
        let window_at = case.window_at as usize;
        let record = &storage[TABLE + i * RECORD..][..RECORD];
        let psw = OldPsw::read(part(record, PSW));
        After {
            end: end(record[CAUGHT], &psw),
            code: psw.code,
            mask: psw.mask,
            regs: std::array::from_fn(|r| u32::from_be_bytes(part(record, 4 * r))),
            window: storage[window_at..window_at + WINDOW].to_vec(),
            zone: record[RECORD_ZONE..RECORD_ZONE + ZONE].to_vec(),
        }
    };
    cases.iter().enumerate().map(read_one).collect()
}

/// The counter after the instruction, from the interruption that followed it: by the SVC that it went to, the zeros far off (no
/// operation), or an odd address (specification). Any other interruption refuses the instruction itself.
fn end(caught: u8, psw: &OldPsw) -> End {
    match (caught, psw.number) {
        (1, _) | (2, 1) => End::At(psw.place),
        (2, SPECIFICATION) if psw.place % 2 == 1 => End::At(psw.place),
        (2, OVERFLOW) => End::Overflow(psw.address),
        (_, interruption) => End::Refused {
            interruption,
            at: psw.place,
        },
    }
}

#[cfg(test)]
mod tests {
    use super::*;
    use crate::make;
    use common::set::SET;

    #[test]
    fn storage_has_the_cases_whole() {
        let cases: Vec<Case> = SET
            .iter()
            .enumerate()
            .map(|(i, instruction)| make::make(instruction, i, window_at(i)))
            .collect();
        let storage = storage(&cases);
        for (case, after) in cases.iter().zip(read(&cases, &storage)) {
            assert_eq!(after.regs, case.regs);
            assert_eq!((after.code, after.mask), (case.code, case.mask));
            assert_eq!(after.window, case.window);
            assert_eq!(after.zone, case.zone);
        }
    }

    #[test]
    fn an_interruption_tells_the_counter() {
        let psw = |number, place| OldPsw {
            number,
            code: 0,
            mask: 0,
            address: 0x1002,
            place,
        };
        assert_eq!(end(1, &psw(1, 0x1000)), End::At(0x1000));
        assert_eq!(end(2, &psw(1, 0x1000)), End::At(0x1000));
        assert_eq!(end(2, &psw(6, 0x1001)), End::At(0x1001));
        assert_eq!(end(2, &psw(8, 0x1000)), End::Overflow(0x1002));
        for interruption in [5, 6, 9] {
            let at = 0x1000;
            let refused = End::Refused { interruption, at };
            assert_eq!(end(2, &psw(interruption, at)), refused);
        }
    }
}
