//! Checks, explains, shows and assembles SPIR-V 1.6 kernel modules, by the proved library `spvk`.
//!
//! A [`Grammar`] is made once, the built-in one or that of a file in the form of Khronos' `spirv.core.grammar.json`,
//! and then answers about any number of modules, also from several threads at the same time.
//!
//! ```no_run
//! # fn main() -> Result<(), Box<dyn std::error::Error>> {
//! let grammar = spvk::Grammar::default_for_1_6()?;
//! let verdict = grammar.check_with(&std::fs::read("kernel.spv")?, spvk::Version::OpenCl)?;
//! if let Some(fault) = verdict.fault() {
//!     println!("{fault}: {}", fault.code.sentence());
//! }
//! # Ok(())
//! # }
//! ```
//!
//! `Version::OpenCl` accepts all that compilers make of OpenCL C; without it only the profile of SPIR-V 1.6 is accepted.
//! `extended` checks extended instructions too: set it for untrusted modules.
//!
//! What each answer means is said in docs/PROFILE.md of the library's repository, and what is proved in its README.md.
//! This crate adds no logic: it hands slices to the library, and lets go of what the library made. No call prints, and
//! none panics; out of memory is an error.
#![deny(missing_docs, unsafe_op_in_unsafe_fn)]

mod buffer;
mod error;
mod ffi;
mod verdict;

pub use buffer::{Bytes, Text};
pub use error::{AssembleError, GrammarError, OutOfMemory, ShowError, TextCode};
pub use verdict::{Code, Fault, Place, Verdict};

use std::ffi::CStr;
use std::os::raw::c_char;
use std::{fmt, ptr};

/// The table by which modules are judged.
pub struct Grammar(ffi::Grammar);

// SAFETY: the table is plain data on malloc's heap, which belongs to no thread (include/spvk.h, "Threads").
unsafe impl Send for Grammar {}
// SAFETY: any number of threads may use a grammar at the same time; only its owner deletes it.
unsafe impl Sync for Grammar {}

/// As which version the bytes of a module are read.
#[derive(Clone, Copy, Debug, Default, PartialEq, Eq, Hash)]
#[non_exhaustive]
pub enum Version {
    /// As the one that the module tells: any other than 1.6 breaks W5.
    #[default]
    AsTold,
    /// As 1.6, where the module tells a version from 1.0 to 1.6, in either byte order: version 1.6 stands in its place,
    /// and what is read is judged by the rules of 1.6. A module of another version breaks W5.
    As1_6,
    /// As the one that the module tells, from 1.0 to 1.6, of a kernel of OpenCL: beside the instructions of the profile
    /// there are more, as those of images, events, pipes and groups, and OpExtInst may stand outside blocks; extended
    /// instructions are looked at whole, and those of `OpenCL.std` have the types that they take and return (Y10); O1 to
    /// O23 are what the standard asks of a kernel besides. The rules are those of 1.6, whatever the version is, but for
    /// F4, O4 and O21. A module of another version breaks W5.
    OpenCl,
}

/// How a module is judged: as which version its bytes are read, and how far it is looked at.
///
/// `Version::As1_6.into()` or `Version::AsTold.extended()` makes one.
#[derive(Clone, Copy, Debug, Default, PartialEq, Eq, Hash)]
#[non_exhaustive]
pub struct Judging {
    /// As which version the bytes are read.
    pub version: Version,
    /// Whether extended instructions are looked at whole, also behind their number, as loaders that follow the ids there
    /// need it. Of the set `OpenCL.std` an id there is used as a value (D1, D3, D5, Y1, A1), and Y9 is broken where
    /// the set has no instruction of that number, or has one that takes fewer or more operands; of any other set each id
    /// is below the bound and defined (D1, D3), and nothing else is asked.
    pub extended: bool,
}

impl Version {
    /// Extended instructions are looked at whole, too.
    pub fn extended(self) -> Judging {
        Judging {
            version: self,
            extended: true,
        }
    }
}

impl From<Version> for Judging {
    /// As far as the profile asks: of an extended instruction up to its number.
    fn from(version: Version) -> Judging {
        Judging {
            version,
            extended: false,
        }
    }
}

impl Judging {
    /// As a kernel of OpenCL, of version 1.0 to 1.6.
    pub fn opencl() -> Judging {
        Version::OpenCl.into()
    }

    /// The flags of the library that ask for it.
    fn flags(self) -> u32 {
        let version = match self.version {
            Version::AsTold => 0,
            Version::As1_6 => ffi::AS_1_6,
            Version::OpenCl => ffi::OPENCL,
        };
        version | if self.extended { ffi::EXTENDED } else { 0 }
    }
}

/// In which order the bytes of a word stand.
#[derive(Clone, Copy, Debug, PartialEq, Eq)]
pub enum ByteOrder {
    /// The lowest byte first.
    Little,
    /// The highest byte first.
    Big,
}

/// A verdict, and the text that explains it.
#[derive(Debug)]
pub struct Explanation {
    /// The verdict.
    pub verdict: Verdict,
    /// Of `explain` the lines of `spv explain`: that of the verdict, and after that of a fault those that explain it. Of
    /// `explain_json` the object of `spv explain --json`, a line.
    pub text: Text,
}

impl Grammar {
    /// The table of a grammar file's text, in the form of Khronos' `spirv.core.grammar.json`.
    ///
    /// # Errors
    /// The first code of J1 to J7 that the text breaks, or out of memory.
    pub fn new(text: &[u8]) -> Result<Grammar, GrammarError> {
        // SAFETY: the text is lent for the call.
        Grammar::made(|it| unsafe { ffi::spvk_raw_grammar_new(text.as_ptr(), text.len(), it) })
    }

    /// The built-in table, of SPIR-V 1.6, which needs no file.
    ///
    /// # Errors
    /// Out of memory; J2 where the library itself was damaged.
    pub fn default_for_1_6() -> Result<Grammar, GrammarError> {
        // SAFETY: the handle holds no grammar.
        Grammar::made(|it| unsafe { ffi::spvk_raw_grammar_default(it) })
    }

    /// Why `new` refuses a grammar file's text: lines `at: ..`, `found: ..` and `wanted: ..` that say where, what
    /// stands there and what is wanted, as `spv --verbose` writes them. It is empty where the text gives a grammar.
    ///
    /// # Errors
    /// Out of memory alone.
    pub fn explain_refusal(text: &[u8]) -> Result<Text, OutOfMemory> {
        let mut made = ffi::Buffer::NONE;
        // SAFETY: the text is lent for the call, and the buffer holds nothing.
        let status = unsafe { ffi::spvk_raw_grammar_explain(text.as_ptr(), text.len(), &mut made) };
        let text = Text::of(Bytes(made));
        match status {
            ffi::OK => Ok(text),
            _ => Err(OutOfMemory),
        }
    }

    /// What a call makes in a handle that holds no grammar.
    fn made(call: impl FnOnce(&mut ffi::Grammar) -> u32) -> Result<Grammar, GrammarError> {
        let mut made = ffi::Grammar {
            held: ptr::null_mut(),
        };
        match call(&mut made) {
            ffi::OK => Ok(Grammar(made)),
            status => Err(GrammarError::of(status)),
        }
    }

    /// The verdict on the bytes of a module, in either byte order.
    ///
    /// # Errors
    /// Out of memory alone: a fault is an answer.
    pub fn check(&self, module: &[u8]) -> Result<Verdict, OutOfMemory> {
        self.check_with(module, Version::AsTold)
    }

    /// The same by a version, as `Version::OpenCl`, or by `Judging`, as `Version::AsTold.extended()`.
    ///
    /// # Errors
    /// As of `check`.
    pub fn check_with(
        &self,
        module: &[u8],
        how: impl Into<Judging>,
    ) -> Result<Verdict, OutOfMemory> {
        let (start, len, flags) = (module.as_ptr(), module.len(), how.into().flags());
        // SAFETY: the grammar is not deleted while it is lent, and the module is lent for the call.
        let answer = unsafe { ffi::spvk_raw_check_with(self.0.held, start, len, flags) };
        match answer.status {
            ffi::OK => Ok(Verdict::of(answer.verdict)),
            _ => Err(OutOfMemory),
        }
    }

    /// The verdict on the bytes of a module, with the lines that explain it.
    ///
    /// # Errors
    /// Out of memory alone.
    pub fn explain(&self, module: &[u8]) -> Result<Explanation, OutOfMemory> {
        self.explain_with(module, Version::AsTold)
    }

    /// The same by a version, or by `Judging`. The lines speak of the module as it was read.
    ///
    /// # Errors
    /// As of `explain`.
    pub fn explain_with(
        &self,
        module: &[u8],
        how: impl Into<Judging>,
    ) -> Result<Explanation, OutOfMemory> {
        self.explained_by(ffi::spvk_raw_explain_with, module, how.into())
    }

    /// The verdict on the bytes of a module, with the JSON object that explains it, as `spv explain --json` writes it, but
    /// without a member `file`. docs/explain.schema.json of the library's repository is its JSON Schema.
    ///
    /// # Errors
    /// Out of memory alone.
    pub fn explain_json(&self, module: &[u8]) -> Result<Explanation, OutOfMemory> {
        self.explain_json_with(module, Version::AsTold)
    }

    /// The same by a version, or by `Judging`.
    ///
    /// # Errors
    /// As of `explain_json`.
    pub fn explain_json_with(
        &self,
        module: &[u8],
        how: impl Into<Judging>,
    ) -> Result<Explanation, OutOfMemory> {
        self.explained_by(ffi::spvk_raw_explain_json_with, module, how.into())
    }

    /// The explanation that one of these calls gives.
    fn explained_by(
        &self,
        call: ffi::Explain,
        module: &[u8],
        how: Judging,
    ) -> Result<Explanation, OutOfMemory> {
        let (start, len, flags) = (module.as_ptr(), module.len(), how.flags());
        // SAFETY: as in `check_with`, and the text holds nothing.
        let (verdict, text) =
            text_by(|made| unsafe { call(self.0.held, start, len, flags, made) })?;
        Ok(Explanation { verdict, text })
    }

    /// The text of a module, which need not be valid.
    ///
    /// # Errors
    /// The rule of W or I by which its bytes are no list of instructions, or out of memory.
    pub fn show(&self, module: &[u8]) -> Result<Text, ShowError> {
        self.show_with(module, Version::AsTold)
    }

    /// The same of the bytes read as a version. By `Version::As1_6` the text tells 1.6, by `Version::OpenCl` the version of
    /// the module.
    ///
    /// # Errors
    /// As of `show`.
    pub fn show_with(&self, module: &[u8], version: Version) -> Result<Text, ShowError> {
        let call: ffi::Show = match version {
            Version::AsTold => ffi::spvk_raw_show,
            Version::As1_6 => ffi::spvk_raw_show_as_1_6,
            Version::OpenCl => ffi::spvk_raw_show_opencl,
        };
        let (start, len) = (module.as_ptr(), module.len());
        // SAFETY: as in `explained_by`.
        match text_by(|made| unsafe { call(self.0.held, start, len, made) }) {
            Ok((Verdict::Valid, text)) => Ok(text),
            Ok((Verdict::Fault(fault), _)) => Err(ShowError::Fault(fault)),
            Err(OutOfMemory) => Err(ShowError::OutOfMemory),
        }
    }

    /// The bytes of the module that a text stands for, in this order.
    ///
    /// # Errors
    /// The first fault of the text with its line, or out of memory.
    pub fn assemble(&self, text: &str, order: ByteOrder) -> Result<Bytes, AssembleError> {
        let mut made = ffi::Image::NONE;
        let call = match order {
            ByteOrder::Little => ffi::spvk_raw_assemble_little,
            ByteOrder::Big => ffi::spvk_raw_assemble_big,
        };
        // SAFETY: as in `check_with`, and the image holds nothing.
        let status = unsafe { call(self.0.held, text.as_ptr(), text.len(), &mut made) };
        let bytes = Bytes(made.buffer);
        let code = match (status, made.code) {
            (ffi::OK, ffi::ASSEMBLED) => return Ok(bytes),
            (ffi::OK, 1201) => TextCode::S1,
            (ffi::OK, 1202) => TextCode::S2,
            (ffi::OK, 1203) => TextCode::S3,
            (ffi::OK, 1204) => TextCode::S4,
            (ffi::OK, _) => TextCode::S5,
            _ => return Err(AssembleError::OutOfMemory),
        };
        let line = made.line;
        Err(AssembleError::Fault { code, line })
    }
}

/// The verdict and the text that a call makes in a text that holds nothing.
fn text_by(call: impl FnOnce(&mut ffi::Text) -> u32) -> Result<(Verdict, Text), OutOfMemory> {
    let mut made = ffi::Text::NONE;
    let status = call(&mut made);
    let text = Text::of(Bytes(made.buffer));
    match status {
        ffi::OK => Ok((Verdict::of(made.verdict), text)),
        _ => Err(OutOfMemory),
    }
}

impl fmt::Debug for Grammar {
    fn fmt(&self, f: &mut fmt::Formatter<'_>) -> fmt::Result {
        f.debug_struct("Grammar").finish_non_exhaustive()
    }
}

impl Drop for Grammar {
    fn drop(&mut self) {
        // SAFETY: the handle is the library's, no one uses it any more, and it is deleted once.
        unsafe { ffi::spvk_raw_grammar_delete(&mut self.0) }
    }
}

/// The version of the library.
pub fn version() -> &'static str {
    let mut text = ptr::null();
    // SAFETY: the library puts a text there that stays, with a zero at its end.
    unsafe {
        ffi::spvk_raw_version(&mut text);
        ascii(text)
    }
}

/// A text that the library has for a number, where there is one.
fn static_text(
    call: unsafe extern "C" fn(u32, *mut *const c_char) -> bool,
    number: u32,
) -> Option<&'static str> {
    let mut text = ptr::null();
    // SAFETY: where the call answers true, it has put a text there that stays, with a zero at its end.
    unsafe { call(number, &mut text).then(|| ascii(text)) }
}

/// A text with a zero at its end.
///
/// # Safety
/// The pointer is that of such a text, in ASCII, which stays until the process ends.
unsafe fn ascii(text: *const c_char) -> &'static str {
    // SAFETY: so the caller says.
    let text = unsafe { CStr::from_ptr(text) };
    text.to_str().unwrap_or("?")
}
