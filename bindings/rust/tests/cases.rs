//! The cases of the repository's tests, as crates/spv_rows has them (tests/README.md, "The stored rows"): of each run
//! of check, explain, show and asm the library answers what the program answers.

use spvk::{AssembleError, ByteOrder, Grammar, GrammarError, Judging, ShowError, Version};
use std::fs;
use std::path::PathBuf;

/// What a run gives: the exit status, both outputs, and the bytes of the file that was made.
#[derive(Debug, Default, PartialEq)]
struct Answer {
    status: u8,
    out: Vec<u8>,
    err: Vec<u8>,
    made: Vec<u8>,
}

impl Answer {
    fn told(status: u8, line: &str) -> Answer {
        let mut it = Answer {
            status,
            ..Answer::default()
        };
        let to = if status == 2 {
            &mut it.err
        } else {
            &mut it.out
        };
        to.extend(format!("{line}\n").bytes());
        it
    }
}

/// The bytes of a file of the repository.
fn stored(name: &str) -> Vec<u8> {
    let top = PathBuf::from(env!("CARGO_MANIFEST_DIR")).join("../..");
    fs::read(top.join(name)).expect(name)
}

/// A text of the repository.
fn stored_text(name: &str) -> String {
    String::from_utf8(stored(name)).expect(name)
}

/// A grammar file with one space between each two of its words, and a text in place of an old one.
fn changed(grammar: &str, old: &str, new: &str) -> String {
    let words: Vec<&str> = grammar.split_whitespace().collect();
    words.join(" ").replace(old, new)
}

fn of_hex(text: &str) -> Vec<u8> {
    let digits = |at| u8::from_str_radix(&text[at..at + 2], 16).expect("a hexadecimal number");
    (0..text.len() / 2).map(|at| digits(2 * at)).collect()
}

fn check(grammar: &Grammar, input: &[u8], how: Judging) -> Answer {
    let verdict = grammar.check_with(input, how).expect("memory");
    Answer::told(!verdict.is_valid() as u8, &verdict.to_string())
}

fn explain(grammar: &Grammar, input: &[u8], how: Judging) -> Answer {
    let it = grammar.explain_with(input, how).expect("memory");
    let (status, out) = (!it.verdict.is_valid() as u8, it.text.as_bytes().to_vec());
    Answer {
        status,
        out,
        ..Answer::default()
    }
}

fn show(grammar: &Grammar, input: &[u8]) -> Answer {
    match grammar.show(input) {
        Ok(text) => Answer {
            out: text.as_bytes().to_vec(),
            ..Answer::default()
        },
        Err(ShowError::Fault(fault)) => Answer::told(1, &fault.to_string()),
        Err(error) => panic!("{error}"),
    }
}

fn assemble(grammar: &Grammar, input: &[u8], order: ByteOrder) -> Answer {
    let text = match std::str::from_utf8(input) {
        Ok(text) => text,
        Err(_) => return Answer::told(2, "error file"),
    };
    match grammar.assemble(text, order) {
        Ok(bytes) => Answer {
            made: bytes.to_vec(),
            ..Answer::default()
        },
        Err(AssembleError::OutOfMemory) => panic!("memory"),
        Err(fault) => Answer::told(1, &fault.to_string()),
    }
}

/// What a run of these words gives, if the library has a call for it.
fn answer(words: &[&str], grammar: &Result<Grammar, GrammarError>, input: &[u8]) -> Option<Answer> {
    let run = |call: fn(&Grammar, &[u8]) -> Answer| {
        Some(match grammar {
            Ok(grammar) => call(grammar, input),
            Err(GrammarError::OutOfMemory) => panic!("memory"),
            Err(code) => Answer::told(2, &format!("error {code:?}")),
        })
    };
    match words {
        ["check", "--grammar", "G", "F"] => {
            run(|grammar, input| check(grammar, input, Version::AsTold.into()))
        }
        ["check", "--extended", "--grammar", "G", "F"] => {
            run(|grammar, input| check(grammar, input, Version::AsTold.extended()))
        }
        ["explain", "--grammar", "G", "F"] => {
            run(|grammar, input| explain(grammar, input, Version::AsTold.into()))
        }
        ["explain", "--extended", "--grammar", "G", "F"] => {
            run(|grammar, input| explain(grammar, input, Version::AsTold.extended()))
        }
        ["show", "--grammar", "G", "F"] => run(show),
        ["asm", "--grammar", "G", "--out", "O", "F"] => {
            run(|grammar, input| assemble(grammar, input, ByteOrder::Little))
        }
        ["asm", "--grammar", "G", "--out", "O", "--big", "F"] => {
            run(|grammar, input| assemble(grammar, input, ByteOrder::Big))
        }
        _ => None,
    }
}

/// Takes so many bytes of the answers.
fn taken<'a>(rest: &mut &'a [u8], count: usize) -> &'a [u8] {
    let (front, back) = rest.split_at(count);
    *rest = back;
    front
}

/// The next answer that is wanted, with its name.
fn wanted(rest: &mut &[u8]) -> (String, Answer) {
    let end = rest
        .iter()
        .position(|&octet| octet == b'\n')
        .expect("a line");
    let line = String::from_utf8(taken(rest, end + 1).to_vec()).expect("a name");
    let (name, numbers) = line.trim_end()[3..]
        .rsplit_once(": exit ")
        .expect("numbers");
    let counts: Vec<usize> = numbers
        .split(|it: char| !it.is_ascii_digit())
        .filter_map(|it| it.parse().ok())
        .collect();
    let out = taken(rest, counts[1]).to_vec();
    let err = taken(rest, counts[2]).to_vec();
    let digits = if counts[3] == 0 {
        &[][..]
    } else {
        taken(rest, 2 * counts[3] + 1)
    };
    let made = of_hex(std::str::from_utf8(digits).unwrap().trim_end());
    (
        name.to_owned(),
        Answer {
            status: counts[0] as u8,
            out,
            err,
            made,
        },
    )
}

#[test]
fn every_case() {
    let rows = stored_text("crates/spv_rows/data/rows");
    let answers = stored("crates/spv_rows/stdout");
    let profile = stored_text("tests/profile.json");
    let mut rest = &answers[..];
    let (mut grammar, mut name) = (Grammar::new(b""), "");
    let (mut file, mut old) = (String::new(), "");
    let (mut words, mut input, mut count) = (Vec::new(), Vec::new(), 0);
    for (key, text) in rows
        .lines()
        .map(|line| line.split_once(' ').unwrap_or((line, "")))
    {
        match key {
            "profile" => {
                file = profile.clone();
                grammar = Grammar::new(file.as_bytes());
            }
            "old" => old = text,
            "new" => {
                file = changed(&file, old, text);
                grammar = Grammar::new(file.as_bytes());
            }
            "grammar" => grammar = Grammar::new(text.as_bytes()),
            "grammar-hex" => grammar = Grammar::new(&of_hex(text)),
            "row" => (name, words, input) = (text, Vec::new(), Vec::new()),
            "word" => words.push(text),
            "input" => input.extend(of_hex(text)),
            "times" => {
                let (times, octets) = text.split_once(' ').expect("a number");
                input.extend(of_hex(octets).repeat(times.parse().expect("a number")));
            }
            _ => {
                let (told, wanted) = wanted(&mut rest);
                assert_eq!(told, name);
                if let Some(got) = answer(&words, &grammar, &input) {
                    assert_eq!(got, wanted, "{name}");
                    count += 1;
                }
            }
        }
    }
    assert!(rest.is_empty() && count > 700, "{count} cases");
}
