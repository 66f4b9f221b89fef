//! The verdict on a module.

use crate::ffi;
use crate::static_text;
use std::error::Error;
use std::fmt;

/// The verdict on a module. It is displayed as the line of `spv check`.
#[derive(Clone, Copy, Debug, PartialEq, Eq, Hash)]
pub enum Verdict {
    /// The module breaks no rule.
    Valid,
    /// The first rule that it breaks.
    Fault(Fault),
}

/// The first rule that a module breaks, and where.
#[derive(Clone, Copy, Debug, PartialEq, Eq, Hash)]
pub struct Fault {
    /// The rule.
    pub code: Code,
    /// Where it is broken; nowhere where the bytes are no words of a module (W2 to W8).
    pub place: Option<Place>,
}

/// A place in a module.
#[derive(Clone, Copy, Debug, PartialEq, Eq, Hash)]
pub struct Place {
    /// The number of the instruction, from 0.
    pub inst: u32,
    /// The number of the word in the whole module, from 0. It stands at byte `4 * word`.
    pub word: u32,
}

/// A rule: the number of its letter times a hundred, and then its own, as 107 for I7. (include/spvk.h, `spvk_code`)
#[derive(Clone, Copy, Debug, PartialEq, Eq, PartialOrd, Ord, Hash)]
pub struct Code(u32);

impl Code {
    /// The rule with this number, where there is one.
    pub fn new(number: u32) -> Option<Code> {
        static_text(ffi::spvk_raw_rule_name, number).map(|_| Code(number))
    }

    /// Its number.
    pub fn number(self) -> u32 {
        self.0
    }

    /// Its name, as `I7`.
    pub fn name(self) -> &'static str {
        static_text(ffi::spvk_raw_rule_name, self.0).unwrap_or("?")
    }

    /// What it says.
    pub fn sentence(self) -> &'static str {
        static_text(ffi::spvk_raw_rule_sentence, self.0).unwrap_or("?")
    }
}

impl Verdict {
    pub(crate) fn of(verdict: ffi::Verdict) -> Verdict {
        let ffi::Verdict { code, inst, word } = verdict;
        let place = (inst != ffi::NOWHERE).then_some(Place { inst, word });
        match code {
            ffi::VALID => Verdict::Valid,
            code => Verdict::Fault(Fault {
                code: Code(code),
                place,
            }),
        }
    }

    /// Whether the module breaks no rule.
    pub fn is_valid(self) -> bool {
        self == Verdict::Valid
    }

    /// The first rule that the module breaks, if it does.
    pub fn fault(self) -> Option<Fault> {
        match self {
            Verdict::Valid => None,
            Verdict::Fault(fault) => Some(fault),
        }
    }
}

impl fmt::Display for Code {
    fn fmt(&self, f: &mut fmt::Formatter<'_>) -> fmt::Result {
        f.pad(self.name())
    }
}

impl fmt::Display for Fault {
    fn fmt(&self, f: &mut fmt::Formatter<'_>) -> fmt::Result {
        write!(f, "fault {}", self.code)?;
        match self.place {
            Some(Place { inst, word }) => write!(f, " inst {inst} word {word}"),
            None => Ok(()),
        }
    }
}

impl Error for Fault {}

impl fmt::Display for Verdict {
    fn fmt(&self, f: &mut fmt::Formatter<'_>) -> fmt::Result {
        match self {
            Verdict::Valid => f.write_str("valid"),
            Verdict::Fault(fault) => fault.fmt(f),
        }
    }
}
