//! The instructions of the set, and what kind of case each needs. (The second program has a table of its own.)

/// What an instruction does with its fields, as far as a case must know.
#[derive(Clone, Copy, Debug, PartialEq, Eq)]
pub enum Shape {
    /// RR, two registers.
    Registers,
    /// RR, a branch to the address in R2.
    RegisterBranch,
    /// RX, an operand of so many bytes.
    Storage { width: u32, stores: bool },
    /// RX, the address itself is the operand.
    Address,
    /// RX, a branch.
    StorageBranch,
    /// RS, the registers R1 to R3 and as many words.
    Multiple { stores: bool },
    /// RS, a branch on a sum and a comparand.
    IndexBranch,
    /// RS, the low six bits of the address are the amount.
    Shift,
    /// SI, one byte and the one in the instruction.
    Immediate { stores: bool },
    /// SS, two fields of bytes.
    Fields { stores: bool },
}

#[derive(Clone, Copy, Debug)]
pub struct Instruction {
    pub name: &'static str,
    /// The operation code.
    pub operation: u8,
    pub shape: Shape,
    /// Whether R1 has to be even: it names a pair of registers, which holds 64 bits.
    pub pair: bool,
}

const fn row(name: &'static str, operation: u8, shape: Shape) -> Instruction {
    Instruction {
        name,
        operation,
        shape,
        pair: false,
    }
}

const fn pair(name: &'static str, operation: u8, shape: Shape) -> Instruction {
    Instruction {
        pair: true,
        ..row(name, operation, shape)
    }
}

const fn load(width: u32) -> Shape {
    let stores = false;
    Shape::Storage { width, stores }
}

const fn store(width: u32) -> Shape {
    let stores = true;
    Shape::Storage { width, stores }
}

const READS: Shape = Shape::Immediate { stores: false };
const CHANGES: Shape = Shape::Immediate { stores: true };

/// In the order of the scope paper; then multiply, divide and the signed shifts, in that of the change requests.
pub const SET: [Instruction; 62] = [
    row("LR", 0x18, Shape::Registers),
    row("L", 0x58, load(4)),
    row("LH", 0x48, load(2)),
    row("LTR", 0x12, Shape::Registers),
    row("LCR", 0x13, Shape::Registers),
    row("LPR", 0x10, Shape::Registers),
    row("LNR", 0x11, Shape::Registers),
    row("LM", 0x98, Shape::Multiple { stores: false }),
    row("ST", 0x50, store(4)),
    row("STH", 0x40, store(2)),
    row("STM", 0x90, Shape::Multiple { stores: true }),
    row("LA", 0x41, Shape::Address),
    row("IC", 0x43, load(1)),
    row("STC", 0x42, store(1)),
    row("AR", 0x1A, Shape::Registers),
    row("A", 0x5A, load(4)),
    row("SR", 0x1B, Shape::Registers),
    row("S", 0x5B, load(4)),
    row("CR", 0x19, Shape::Registers),
    row("C", 0x59, load(4)),
    row("ALR", 0x1E, Shape::Registers),
    row("AL", 0x5E, load(4)),
    row("SLR", 0x1F, Shape::Registers),
    row("SL", 0x5F, load(4)),
    row("CLR", 0x15, Shape::Registers),
    row("CL", 0x55, load(4)),
    row("CLI", 0x95, READS),
    row("CLC", 0xD5, Shape::Fields { stores: false }),
    row("NR", 0x14, Shape::Registers),
    row("N", 0x54, load(4)),
    row("NI", 0x94, CHANGES),
    row("OR", 0x16, Shape::Registers),
    row("O", 0x56, load(4)),
    row("OI", 0x96, CHANGES),
    row("XR", 0x17, Shape::Registers),
    row("X", 0x57, load(4)),
    row("XI", 0x97, CHANGES),
    row("TM", 0x91, READS),
    row("MVI", 0x92, CHANGES),
    row("MVC", 0xD2, Shape::Fields { stores: true }),
    row("SLL", 0x89, Shape::Shift),
    row("SRL", 0x88, Shape::Shift),
    row("BCR", 0x07, Shape::RegisterBranch),
    row("BC", 0x47, Shape::StorageBranch),
    row("BALR", 0x05, Shape::RegisterBranch),
    row("BAL", 0x45, Shape::StorageBranch),
    row("BCTR", 0x06, Shape::RegisterBranch),
    row("BCT", 0x46, Shape::StorageBranch),
    row("BXH", 0x86, Shape::IndexBranch),
    row("BXLE", 0x87, Shape::IndexBranch),
    pair("MR", 0x1C, Shape::Registers),
    pair("M", 0x5C, load(4)),
    row("MH", 0x4C, load(2)),
    pair("DR", 0x1D, Shape::Registers),
    pair("D", 0x5D, load(4)),
    row("AH", 0x4A, load(2)),
    row("SH", 0x4B, load(2)),
    row("CH", 0x49, load(2)),
    row("SLA", 0x8B, Shape::Shift),
    row("SRA", 0x8A, Shape::Shift),
    pair("SLDA", 0x8F, Shape::Shift),
    pair("SRDA", 0x8E, Shape::Shift),
];

/// The instruction with this operation code, if its R1 names a pair.
pub fn of_pair(operation: u8) -> Option<&'static Instruction> {
    SET.iter()
        .find(|one| one.pair && one.operation == operation)
}

/// An instruction's bytes, by the top two bits of its operation code.
pub fn length(operation: u8) -> usize {
    match operation >> 6 {
        0 => 2,
        3 => 6,
        _ => 4,
    }
}

#[cfg(test)]
mod tests {
    use super::{length, Shape, SET};

    #[test]
    fn no_name_or_operation_code_stands_twice() {
        for (i, one) in SET.iter().enumerate() {
            for other in &SET[i + 1..] {
                assert!(one.name != other.name && one.operation != other.operation);
            }
        }
    }

    #[test]
    fn lengths_fit_the_shapes() {
        for one in &SET {
            let wanted = match one.shape {
                Shape::Registers | Shape::RegisterBranch => 2,
                Shape::Fields { .. } => 6,
                _ => 4,
            };
            assert_eq!(length(one.operation), wanted, "{}", one.name);
        }
    }
}
