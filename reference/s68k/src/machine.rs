//! STUB for s68k's `machine`, the simulated computer.
//!
//! Only the processors' names are mentioned by the five files, in messages about processors that
//! an operand needs. `parse_operand` raises none of them.

/// Stands for the processors that a program may be written for.
#[derive(Debug, Clone, Copy, PartialEq, Eq, Hash)]
pub enum Processor {
    /// The 68000.
    M68000,
    /// The 68010.
    M68010,
    /// The 68020.
    M68020,
}

impl Processor {
    /// The processor's number, as a message writes it.
    pub fn name(&self) -> &'static str {
        match self {
            Processor::M68000 => "68000",
            Processor::M68010 => "68010",
            Processor::M68020 => "68020",
        }
    }
}
