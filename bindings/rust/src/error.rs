//! Why a call was refused.

use crate::verdict::Fault;
use std::error::Error;
use std::fmt;

/// There was no memory. The same call may succeed later.
#[derive(Clone, Copy, Debug, PartialEq, Eq)]
pub struct OutOfMemory;

impl fmt::Display for OutOfMemory {
    fn fmt(&self, f: &mut fmt::Formatter<'_>) -> fmt::Result {
        f.write_str("there was no memory")
    }
}

impl Error for OutOfMemory {}

/// Why a grammar file is refused: the first code that it breaks, or out of memory.
/// [`Grammar::explain_refusal`](crate::Grammar::explain_refusal) says where.
///
/// (docs/PROFILE.md of the library's repository, "The grammar file")
#[derive(Clone, Copy, Debug, PartialEq, Eq)]
#[non_exhaustive]
pub enum GrammarError {
    /// It is not one JSON value, at most 127 levels deep.
    J1,
    /// Something has the wrong JSON type, or a key is missing.
    J2,
    /// An opcode or a value is out of range or ill-formed.
    J3,
    /// An operand, a parameter or a base names a kind that the file does not define.
    J4,
    /// A category or a quantifier is unknown.
    J5,
    /// A result kind stands where none may.
    J6,
    /// A Composite has no bases, or has one whose category is neither Id nor Literal.
    J7,
    /// There was no memory.
    OutOfMemory,
}

impl GrammarError {
    /// The error that stands for a status other than that of success.
    pub(crate) fn of(status: u32) -> GrammarError {
        match status {
            101 => GrammarError::J1,
            102 => GrammarError::J2,
            103 => GrammarError::J3,
            104 => GrammarError::J4,
            105 => GrammarError::J5,
            106 => GrammarError::J6,
            107 => GrammarError::J7,
            _ => GrammarError::OutOfMemory,
        }
    }
}

impl fmt::Display for GrammarError {
    fn fmt(&self, f: &mut fmt::Formatter<'_>) -> fmt::Result {
        match self {
            GrammarError::OutOfMemory => OutOfMemory.fmt(f),
            code => write!(f, "the grammar file is refused: {code:?}"),
        }
    }
}

impl Error for GrammarError {}

/// Why a module is not shown.
#[derive(Clone, Copy, Debug, PartialEq, Eq)]
#[non_exhaustive]
pub enum ShowError {
    /// Its bytes are no list of instructions: the rule of W or I, and its place.
    Fault(Fault),
    /// There was no memory.
    OutOfMemory,
}

impl fmt::Display for ShowError {
    fn fmt(&self, f: &mut fmt::Formatter<'_>) -> fmt::Result {
        match self {
            ShowError::Fault(fault) => fault.fmt(f),
            ShowError::OutOfMemory => OutOfMemory.fmt(f),
        }
    }
}

impl Error for ShowError {}

/// What a text breaks first.
#[derive(Clone, Copy, Debug, PartialEq, Eq)]
#[non_exhaustive]
pub enum TextCode {
    /// A line of the header is missing or ill-formed.
    S1,
    /// No known name of an instruction stands at its place.
    S2,
    /// An operand or a result is missing, one too many, ill-formed or unknown.
    S3,
    /// A number is too large for its place.
    S4,
    /// The instruction, or with it the module, has too many words.
    S5,
}

/// Why a text is not assembled.
#[derive(Clone, Copy, Debug, PartialEq, Eq)]
#[non_exhaustive]
pub enum AssembleError {
    /// The text stands for no module.
    Fault {
        /// What it breaks first.
        code: TextCode,
        /// The number of the line, from 1.
        line: u32,
    },
    /// There was no memory.
    OutOfMemory,
}

impl fmt::Display for AssembleError {
    fn fmt(&self, f: &mut fmt::Formatter<'_>) -> fmt::Result {
        match self {
            AssembleError::Fault { code, line } => write!(f, "fault {code:?} line {line}"),
            AssembleError::OutOfMemory => OutOfMemory.fmt(f),
        }
    }
}

impl Error for AssembleError {}
