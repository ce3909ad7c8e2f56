//! What the programs around the engine share: dice, operands at which results turn, the table of instructions and a small assembler,
//! programs about the seam between two ways of a step, the form of a call for the program `probe`, other programs within a time limit,
//! Hercules, and how a comparison ends.

pub mod assemble;
pub mod bounded;
pub mod bytes;
pub mod dice;
pub mod hercules;
pub mod probe;
pub mod seam;
pub mod set;
pub mod status;
pub mod turns;
