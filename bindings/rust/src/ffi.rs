//! The archive's functions, as include/spvk.h declares them. They take no null pointer.

use std::os::raw::{c_char, c_void};
use std::ptr;

pub const OK: u32 = 0;
pub const VALID: u32 = 0;
pub const ASSEMBLED: u32 = 0;
pub const NOWHERE: u32 = u32::MAX;
pub const AS_1_6: u32 = 1;
pub const EXTENDED: u32 = 2;
pub const OPENCL: u32 = 4;

#[repr(C)]
pub struct Grammar {
    pub held: *mut c_void,
}

#[repr(C)]
#[derive(Clone, Copy)]
pub struct Answer {
    pub status: u32,
    pub verdict: Verdict,
}

#[repr(C)]
#[derive(Clone, Copy)]
pub struct Verdict {
    pub code: u32,
    pub inst: u32,
    pub word: u32,
}

#[repr(C)]
pub struct Buffer {
    pub data: *const u8,
    pub size: usize,
    pub held: *mut c_void,
}

#[repr(C)]
pub struct Text {
    pub verdict: Verdict,
    pub buffer: Buffer,
}

#[repr(C)]
pub struct Image {
    pub code: u32,
    pub line: u32,
    pub buffer: Buffer,
}

impl Buffer {
    pub const NONE: Buffer = Buffer {
        data: ptr::null(),
        size: 0,
        held: ptr::null_mut(),
    };
}

impl Text {
    pub const NONE: Text = Text {
        verdict: Verdict {
            code: 0,
            inst: 0,
            word: 0,
        },
        buffer: Buffer::NONE,
    };
}

impl Image {
    pub const NONE: Image = Image {
        code: 0,
        line: 0,
        buffer: Buffer::NONE,
    };
}

/// `spvk_raw_explain_with` and `spvk_raw_explain_json_with`.
pub type Explain = unsafe extern "C" fn(*const c_void, *const u8, usize, u32, *mut Text) -> u32;

/// `spvk_raw_show`, and the same as 1.6 or of OpenCL.
pub type Show = unsafe extern "C" fn(*const c_void, *const u8, usize, *mut Text) -> u32;

extern "C" {
    pub fn spvk_raw_grammar_new(text: *const u8, len: usize, grammar: *mut Grammar) -> u32;
    pub fn spvk_raw_grammar_default(grammar: *mut Grammar) -> u32;
    pub fn spvk_raw_grammar_delete(grammar: *mut Grammar);
    pub fn spvk_raw_grammar_explain(text: *const u8, len: usize, buffer: *mut Buffer) -> u32;
    pub fn spvk_raw_check_with(
        held: *const c_void,
        bytes: *const u8,
        len: usize,
        flags: u32,
    ) -> Answer;
    pub fn spvk_raw_explain_with(
        held: *const c_void,
        bytes: *const u8,
        len: usize,
        flags: u32,
        text: *mut Text,
    ) -> u32;
    pub fn spvk_raw_explain_json_with(
        held: *const c_void,
        bytes: *const u8,
        len: usize,
        flags: u32,
        text: *mut Text,
    ) -> u32;
    pub fn spvk_raw_show(held: *const c_void, bytes: *const u8, len: usize, text: *mut Text)
        -> u32;
    pub fn spvk_raw_show_as_1_6(
        held: *const c_void,
        bytes: *const u8,
        len: usize,
        text: *mut Text,
    ) -> u32;
    pub fn spvk_raw_show_opencl(
        held: *const c_void,
        bytes: *const u8,
        len: usize,
        text: *mut Text,
    ) -> u32;
    pub fn spvk_raw_assemble_little(
        held: *const c_void,
        text: *const u8,
        len: usize,
        image: *mut Image,
    ) -> u32;
    pub fn spvk_raw_assemble_big(
        held: *const c_void,
        text: *const u8,
        len: usize,
        image: *mut Image,
    ) -> u32;
    pub fn spvk_raw_buffer_delete(buffer: *mut Buffer);
    pub fn spvk_raw_rule_name(code: u32, text: *mut *const c_char) -> bool;
    pub fn spvk_raw_rule_sentence(code: u32, text: *mut *const c_char) -> bool;
    pub fn spvk_raw_version(text: *mut *const c_char);
}
