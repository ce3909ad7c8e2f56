//! Program h, as a job at the month's end moves and compares: MVC and CLC of 1 to 256 bytes, short ones commonest. R3, R4 and R5 hold
//! the addresses of pages 3, 4 and 5, so that a field reads as its address: D203 5500 4210 moves four bytes from 4210 to 5500.
//! Input lies in page 4, work and the print line in page 5, and the files' buffers in page 3, which has 2,048 bytes: one in five has a
//! field there. One in ten has a field over the edge between pages 4 and 5. Most compares find equal what the same round has moved;
//! some differ at once, some late.

use crate::programs::AGAIN;

pub const REGISTERS: &[(usize, u32)] = &[(3, 0x3000), (4, 0x4000), (5, 0x5000)];

pub const CODE: &[&str] = &[
    // A blank, spread over the print line; a record into its buffer, its key compared, and the key into the line.
    "D20054004040 D28354015400 D2FF34004200 D50534004200 D20754083400",
    // Small fields, and a name; the compare of a code that is another one.
    "D20355004210 D50355004210 D20155044214 D20255064217 D50155044214",
    "D21354143420 D20554284230 D50042414242 D24F56004180 D2034FFE4250",
    "D20054304040 D50734084208 D20755104260 D21755204FF0 D5174FF05520",
    // A second blank, spread over forty bytes; a compare that differs after six bytes of eight.
    "D20255404271 D50255404271 D20056804040 D22656815680 D20B56844280",
    // The line into its buffer.
    "D50755004210 D28436005400 D56336005400 D20155504290 D20355584298",
    // A compare that differs after eighty bytes of ninety.
    "D50B56844280 D207556042A0 D21D557042C0 D55956004180 D205559042E8",
    // The line over the edge; a record of two hundred bytes that has not changed; a compare that differs at its second byte.
    "D2834F905400 D201559842F0 D5C734004200 D20355A042F4 D50555A342F7",
    AGAIN,
];

/// Moves and compares a round.
pub const UNITS: u64 = 40;

#[cfg(test)]
mod tests {
    use super::*;
    use crate::engine::Engine;
    use crate::programs::PROGRAMS;
    use common::bytes::from_hex;

    const EDGE: usize = 0x5000;

    struct One {
        compares: bool,
        length: usize,
        fields: [usize; 2],
    }

    impl One {
        fn over_the_edge(&self, field: usize) -> bool {
            field < EDGE && field + self.length > EDGE
        }
    }

    fn round() -> Vec<One> {
        let code = from_hex(&CODE.concat());
        let one = |text: &[u8]| One {
            compares: match text[0] {
                0xD2 => false,
                0xD5 => true,
                other => panic!("operation {other:02X}"),
            },
            length: usize::from(text[1]) + 1,
            fields: [2, 4].map(|at| usize::from(u16::from_be_bytes([text[at], text[at + 1]]))),
        };
        code.chunks_exact(6).map(one).collect()
    }

    fn count(holds: impl Fn(&One) -> bool) -> usize {
        round().iter().filter(|one| holds(one)).count()
    }

    #[test]
    fn what_a_round_consists_of() {
        assert_eq!(round().len() as u64, UNITS);
        assert_eq!(count(|one| one.compares), 13);
        let of = |least, most| count(|one| (least..=most).contains(&one.length));
        assert_eq!(
            [of(1, 8), of(10, 40), of(80, 133), of(200, 256)],
            [25, 7, 6, 2]
        );
        let edges = |one: &One| one.fields.map(|field| one.over_the_edge(field));
        assert_eq!(count(|one| edges(one) != [false; 2]), 4);
        assert_eq!(count(|one| edges(one) == [true; 2]), 0);
        assert_eq!(count(|one| one.fields.iter().any(|at| at >> 12 == 3)), 8);
        let spreads = |one: &One| !one.compares && one.fields[0] == one.fields[1] + 1;
        assert_eq!(count(spreads), 2);
    }

    /// The condition codes of a round's compares, the first round's and a later one's.
    #[test]
    fn what_the_compares_find() {
        let program = PROGRAMS.iter().find(|one| one.name == 'h');
        let mut machine = program.expect("h").machine(3);
        for _ in 0..3 {
            let mut equal = 0;
            for one in round() {
                assert_eq!(Engine::ByByte.step(&mut machine).number, 0);
                equal += u32::from(one.compares && machine.code == 0);
            }
            assert_eq!(equal, 9);
            assert_eq!(Engine::ByByte.step(&mut machine).number, 0);
        }
    }
}
