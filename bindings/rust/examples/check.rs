//! Says of each module whether it is valid, as what compilers make of OpenCL C: `check [--grammar GRAMMAR] FILE..`.
//! Extended instructions are looked at too.
//! Exit status 0 if all are, 1 if one is not, 2 for an error.

use spvk::{Grammar, Verdict, Version};
use std::error::Error;
use std::process::ExitCode;
use std::{env, fs};

/// The bytes of a file. The error names the file.
fn read(file: &str) -> Result<Vec<u8>, String> {
    fs::read(file).map_err(|error| format!("{file}: {error}"))
}

/// The verdict as a line, with what the broken rule says.
fn line(verdict: Verdict) -> String {
    match verdict.fault() {
        None => verdict.to_string(),
        Some(fault) => format!("{fault}: {}", fault.code.sentence()),
    }
}

/// Whether all modules are valid.
fn check_all(words: &[&str]) -> Result<bool, Box<dyn Error>> {
    let (grammar, files) = match words {
        ["--grammar", grammar, files @ ..] => (Some(grammar), files),
        files => (None, files),
    };
    if files.is_empty() || files[0] == "--grammar" {
        return Err("usage: check [--grammar GRAMMAR] FILE..".into());
    }
    let grammar = match grammar {
        Some(file) => Grammar::new(&read(file)?)?,
        None => Grammar::default_for_1_6()?,
    };
    let mut are_valid = true;
    for file in files {
        let verdict = grammar.check_with(&read(file)?, Version::OpenCl)?;
        println!("{file}: {}", line(verdict));
        are_valid &= verdict.is_valid();
    }
    Ok(are_valid)
}

fn main() -> ExitCode {
    let words: Vec<String> = env::args().skip(1).collect();
    let words: Vec<&str> = words.iter().map(String::as_str).collect();
    match check_all(&words) {
        Ok(true) => ExitCode::SUCCESS,
        Ok(false) => ExitCode::from(1),
        Err(error) => {
            eprintln!("check: {error}");
            ExitCode::from(2)
        }
    }
}
