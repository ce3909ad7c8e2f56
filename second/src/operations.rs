//! The sixty-two operations of the set (the fifty of the base, and multiply,
//! divide and the signed shifts): code, name and format.
//!
//! The numbers are those of Appendix A of the manual; the length of an
//! instruction follows from the top two bits of its operation code alone.

/// The five instruction formats.
#[derive(Clone, Copy, Debug, PartialEq, Eq)]
pub enum Form {
    RR,
    RX,
    RS,
    SI,
    SS,
}

/// One row of the operation table.
#[derive(Clone, Copy, Debug, PartialEq, Eq)]
pub struct Operation {
    pub code: u8,
    pub name: &'static str,
    pub form: Form,
}

pub const BALR: u8 = 0x05;
pub const BCTR: u8 = 0x06;
pub const BCR: u8 = 0x07;
pub const LPR: u8 = 0x10;
pub const LNR: u8 = 0x11;
pub const LTR: u8 = 0x12;
pub const LCR: u8 = 0x13;
pub const NR: u8 = 0x14;
pub const CLR: u8 = 0x15;
pub const OR: u8 = 0x16;
pub const XR: u8 = 0x17;
pub const LR: u8 = 0x18;
pub const CR: u8 = 0x19;
pub const AR: u8 = 0x1A;
pub const SR: u8 = 0x1B;
pub const MR: u8 = 0x1C;
pub const DR: u8 = 0x1D;
pub const ALR: u8 = 0x1E;
pub const SLR: u8 = 0x1F;
pub const STH: u8 = 0x40;
pub const LA: u8 = 0x41;
pub const STC: u8 = 0x42;
pub const IC: u8 = 0x43;
pub const BAL: u8 = 0x45;
pub const BCT: u8 = 0x46;
pub const BC: u8 = 0x47;
pub const LH: u8 = 0x48;
pub const CH: u8 = 0x49;
pub const AH: u8 = 0x4A;
pub const SH: u8 = 0x4B;
pub const MH: u8 = 0x4C;
pub const ST: u8 = 0x50;
pub const N: u8 = 0x54;
pub const CL: u8 = 0x55;
pub const O: u8 = 0x56;
pub const X: u8 = 0x57;
pub const L: u8 = 0x58;
pub const C: u8 = 0x59;
pub const A: u8 = 0x5A;
pub const S: u8 = 0x5B;
pub const M: u8 = 0x5C;
pub const D: u8 = 0x5D;
pub const AL: u8 = 0x5E;
pub const SL: u8 = 0x5F;
pub const BXH: u8 = 0x86;
pub const BXLE: u8 = 0x87;
pub const SRL: u8 = 0x88;
pub const SLL: u8 = 0x89;
pub const SRA: u8 = 0x8A;
pub const SLA: u8 = 0x8B;
pub const SRDA: u8 = 0x8E;
pub const SLDA: u8 = 0x8F;
pub const STM: u8 = 0x90;
pub const TM: u8 = 0x91;
pub const MVI: u8 = 0x92;
pub const NI: u8 = 0x94;
pub const CLI: u8 = 0x95;
pub const OI: u8 = 0x96;
pub const XI: u8 = 0x97;
pub const LM: u8 = 0x98;
pub const MVC: u8 = 0xD2;
pub const CLC: u8 = 0xD5;

const fn row(code: u8, name: &'static str, form: Form) -> Operation {
    Operation { code, name, form }
}

/// The set, in order of operation code.
pub const OPERATIONS: [Operation; 62] = [
    row(BALR, "BALR", Form::RR),
    row(BCTR, "BCTR", Form::RR),
    row(BCR, "BCR", Form::RR),
    row(LPR, "LPR", Form::RR),
    row(LNR, "LNR", Form::RR),
    row(LTR, "LTR", Form::RR),
    row(LCR, "LCR", Form::RR),
    row(NR, "NR", Form::RR),
    row(CLR, "CLR", Form::RR),
    row(OR, "OR", Form::RR),
    row(XR, "XR", Form::RR),
    row(LR, "LR", Form::RR),
    row(CR, "CR", Form::RR),
    row(AR, "AR", Form::RR),
    row(SR, "SR", Form::RR),
    row(MR, "MR", Form::RR),
    row(DR, "DR", Form::RR),
    row(ALR, "ALR", Form::RR),
    row(SLR, "SLR", Form::RR),
    row(STH, "STH", Form::RX),
    row(LA, "LA", Form::RX),
    row(STC, "STC", Form::RX),
    row(IC, "IC", Form::RX),
    row(BAL, "BAL", Form::RX),
    row(BCT, "BCT", Form::RX),
    row(BC, "BC", Form::RX),
    row(LH, "LH", Form::RX),
    row(CH, "CH", Form::RX),
    row(AH, "AH", Form::RX),
    row(SH, "SH", Form::RX),
    row(MH, "MH", Form::RX),
    row(ST, "ST", Form::RX),
    row(N, "N", Form::RX),
    row(CL, "CL", Form::RX),
    row(O, "O", Form::RX),
    row(X, "X", Form::RX),
    row(L, "L", Form::RX),
    row(C, "C", Form::RX),
    row(A, "A", Form::RX),
    row(S, "S", Form::RX),
    row(M, "M", Form::RX),
    row(D, "D", Form::RX),
    row(AL, "AL", Form::RX),
    row(SL, "SL", Form::RX),
    row(BXH, "BXH", Form::RS),
    row(BXLE, "BXLE", Form::RS),
    row(SRL, "SRL", Form::RS),
    row(SLL, "SLL", Form::RS),
    row(SRA, "SRA", Form::RS),
    row(SLA, "SLA", Form::RS),
    row(SRDA, "SRDA", Form::RS),
    row(SLDA, "SLDA", Form::RS),
    row(STM, "STM", Form::RS),
    row(TM, "TM", Form::SI),
    row(MVI, "MVI", Form::SI),
    row(NI, "NI", Form::SI),
    row(CLI, "CLI", Form::SI),
    row(OI, "OI", Form::SI),
    row(XI, "XI", Form::SI),
    row(LM, "LM", Form::RS),
    row(MVC, "MVC", Form::SS),
    row(CLC, "CLC", Form::SS),
];

/// The row of an operation code, if the set has it.
pub fn find(code: u8) -> Option<Operation> {
    OPERATIONS.iter().copied().find(|row| row.code == code)
}

/// Instruction length in bytes, from the top two bits of the code.
pub fn length(code: u8) -> u32 {
    match code >> 6 {
        0 => 2,
        1 | 2 => 4,
        _ => 6,
    }
}

/// Does the instruction look up memory for an operand?
pub fn has_memory_operand(code: u8) -> bool {
    boundary(code) > 0
}

/// The multiple on which the operand has to lie; 0 when the instruction
/// has no operand in memory.
pub fn boundary(code: u8) -> u32 {
    match code {
        L | ST | A | S | C | AL | SL | CL | N | O | X | M | D | LM | STM => 4,
        LH | STH | AH | SH | CH | MH => 2,
        IC | STC | CLI | NI | OI | XI | TM | MVI | MVC | CLC => 1,
        _ => 0,
    }
}

/// Does the instruction store into its (first) memory operand?
pub fn stores(code: u8) -> bool {
    matches!(code, ST | STH | STM | STC | NI | OI | XI | MVI | MVC)
}

/// Does R1 stand for a register pair, so that it has to be even?
pub fn needs_pair(code: u8) -> bool {
    matches!(code, MR | M | DR | D | SLDA | SRDA)
}

/// Is the address of the instruction an amount of shift?
pub fn shifts(code: u8) -> bool {
    matches!(code, SLL | SRL | SLA | SRA | SLDA | SRDA)
}

#[cfg(test)]
mod tests {
    use super::*;

    #[test]
    fn the_table_is_sorted_and_fits_the_length_bits() {
        for pair in OPERATIONS.windows(2) {
            assert!(pair[0].code < pair[1].code);
        }
        for operation in OPERATIONS {
            let bytes = match operation.form {
                Form::RR => 2,
                Form::RX | Form::RS | Form::SI => 4,
                Form::SS => 6,
            };
            assert_eq!(length(operation.code), bytes, "{}", operation.name);
        }
    }
}
