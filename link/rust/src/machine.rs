//! The machine, its step and its run.

use crate::library::{check_library, WrongLibrary};
use crate::raw;
use crate::Refusal;
use alloc::vec;
use alloc::vec::Vec;

/// The machine: what a program can see, and the map. All of it may be set freely; what is out of range is refused with
/// [`Refusal::OutOfRange`] when the machine is asked to go, and nothing is altered.
#[derive(Clone, Debug, PartialEq, Eq)]
#[non_exhaustive]
pub struct Machine {
    /// Real memory: 4,096 to 262,144 bytes, a multiple of 4,096. Words and halfwords lie in it with their highest byte first.
    pub memory: Vec<u8>,
    /// The page words, as numbers: from the leftmost bit W, G, U, S, E, M, H, three X bits, six frame bits.
    pub pages: [u16; raw::PAGES],
    /// The general registers, as numbers.
    pub registers: [u32; raw::REGISTERS],
    /// The program counter, below 2^24.
    pub counter: u32,
    /// The condition code, 0 to 3.
    pub code: u32,
    /// The program mask, 0 to 15.
    pub mask: u32,
}

/// Why a run ended. More will come: a `match` needs an arm for the rest, and that arm has to take it as a refusal.
#[derive(Clone, Copy, Debug, PartialEq, Eq)]
#[non_exhaustive]
#[must_use]
pub enum Stop {
    /// Number 7: as many steps as were asked for are done.
    BudgetSpent,
    /// Any other number: the next step was refused.
    Refused(Refusal),
}

/// How a run ended: the machine stands as after exactly `count` completed steps.
#[derive(Clone, Copy, Debug, PartialEq, Eq)]
#[non_exhaustive]
#[must_use]
pub struct Ran {
    /// How many steps were completed.
    pub count: u32,
    /// Why no more were.
    pub stop: Stop,
}

/// What the library says of a call, besides counter, code and mask.
struct Told {
    number: u32,
    place: u32,
    count: u32,
}

impl Told {
    fn of_step(&self) -> Result<(), Refusal> {
        match self.number {
            raw::COMPLETED => Ok(()),
            number => Err(Refusal::of(number, self.place)),
        }
    }

    fn of_run(&self) -> Ran {
        let stop = match self.number {
            raw::BUDGET_SPENT => Stop::BudgetSpent,
            number => Stop::Refused(Refusal::of(number, self.place)),
        };
        Ran {
            count: self.count,
            stop,
        }
    }
}

impl Machine {
    /// A machine of so many bytes of memory; all of it, and all else, zero. An error if the library is not the one that this crate is
    /// for.
    pub fn new(bytes: usize) -> Result<Machine, WrongLibrary> {
        check_library()?;
        Ok(Machine {
            memory: vec![0; bytes],
            pages: [0; raw::PAGES],
            registers: [0; raw::REGISTERS],
            counter: 0,
            code: 0,
            mask: 0,
        })
    }

    /// Lends all of the machine to a function of the library.
    fn lend(
        &mut self,
        call: impl FnOnce(&mut [u8], &mut [u16], &mut [u32], &mut [u32]) -> u32,
    ) -> Told {
        let mut reply = [0, 0, 0, self.counter, self.code, self.mask];
        let number = call(
            &mut self.memory,
            &mut self.pages,
            &mut self.registers,
            &mut reply,
        );
        let [_, place, count, counter, code, mask] = reply;
        self.counter = counter;
        self.code = code;
        self.mask = mask;
        Told {
            number,
            place,
            count,
        }
    }

    /// One instruction.
    ///
    /// ```
    /// use spectra46::{Machine, Refusal};
    ///
    /// let mut machine = Machine::new(65_536)?;
    /// machine.pages[10] = 0x3003; // usable, nonprivileged, frame 3
    /// machine.memory[12_288..12_292].copy_from_slice(&[0x41, 0x10, 0x00, 0x05]); // LA 1,5
    /// machine.counter = 0x00_A000;
    /// assert_eq!(machine.step(), Ok(()));
    /// assert_eq!(machine.registers[1], 5);
    /// assert_eq!(machine.counter, 0x00_A004);
    /// assert_eq!(machine.step(), Err(Refusal::Operation { at: 0x00_A004 }));
    /// # Ok::<(), spectra46::WrongLibrary>(())
    /// ```
    pub fn step(&mut self) -> Result<(), Refusal> {
        self.lend(raw::step).of_step()
    }

    /// At most `budget` instructions, 0 to 65,535, up to the first refusal. What that leaves is said at [`Refusal`].
    ///
    /// ```
    /// use spectra46::{Machine, Refusal, Stop};
    ///
    /// let mut machine = Machine::new(65_536)?;
    /// machine.counter = 0x00_A000;
    /// let ran = machine.run(100);
    /// let absent = Refusal::PagingQueue { at: 0x00_A000 };
    /// assert_eq!((ran.count, ran.stop), (0, Stop::Refused(absent)));
    /// assert_eq!(absent.to_string(), "3, paging queue: the page of 00A000 is not usable");
    /// # Ok::<(), spectra46::WrongLibrary>(())
    /// ```
    pub fn run(&mut self, budget: u32) -> Ran {
        self.lend(|memory, pages, registers, reply| {
            raw::run(memory, pages, registers, reply, budget)
        })
        .of_run()
    }
}

#[cfg(test)]
mod tests {
    use super::{Stop, Told};
    use crate::Refusal;

    fn told(number: u32) -> Told {
        Told {
            number,
            place: 9,
            count: 4,
        }
    }

    #[test]
    fn a_step_is_ok_with_0_alone() {
        for number in (0..=1_000).chain([u32::MAX]) {
            let wanted = match number {
                0 => Ok(()),
                _ => Err(Refusal::of(number, 9)),
            };
            assert_eq!(told(number).of_step(), wanted);
        }
    }

    #[test]
    fn a_budget_is_spent_with_7_alone() {
        for number in (0..=1_000).chain([u32::MAX]) {
            let ran = told(number).of_run();
            let wanted = match number {
                7 => Stop::BudgetSpent,
                _ => Stop::Refused(Refusal::of(number, 9)),
            };
            assert_eq!((ran.count, ran.stop), (4, wanted));
        }
    }

    #[test]
    fn a_divide_error_is_a_refusal_of_either_call() {
        let refusal = Refusal::DivideError { at: 9 };
        assert_eq!(told(8).of_step(), Err(refusal));
        assert_eq!(told(8).of_run().stop, Stop::Refused(refusal));
    }

    #[test]
    fn numbers_of_the_other_call_are_not_known() {
        let unknown = |number| Refusal::Unknown { number, at: 9 };
        assert_eq!(told(7).of_step(), Err(unknown(7)));
        assert_eq!(told(0).of_run().stop, Stop::Refused(unknown(0)));
        assert_eq!(told(9).of_step(), Err(unknown(9)));
        assert_eq!(told(9).of_run().stop, Stop::Refused(unknown(9)));
    }
}
