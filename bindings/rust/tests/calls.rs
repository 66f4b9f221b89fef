//! The calls of the crate, on the modules of tests/ at the top of the repository.

use spvk::{
    AssembleError, ByteOrder, Code, Fault, Grammar, GrammarError, Judging, Place, ShowError,
    TextCode, Verdict, Version,
};
use std::error::Error;
use std::path::PathBuf;
use std::{fs, thread};

fn file(name: &str) -> Vec<u8> {
    let folder = PathBuf::from(env!("CARGO_MANIFEST_DIR")).join("../../tests");
    fs::read(folder.join(name)).expect(name)
}

fn grammar() -> Grammar {
    Grammar::new(&file("profile.json")).expect("the profile's grammar")
}

fn kernel() -> Vec<u8> {
    file("modules/smallest-kernel.spv")
}

#[test]
fn verdicts() {
    let (grammar, kernel) = (grammar(), kernel());
    assert_eq!(grammar.check(&kernel), Ok(Verdict::Valid));
    let cut = grammar.check(&kernel[..kernel.len() - 4]).unwrap();
    let fault = cut.fault().unwrap();
    assert_eq!(fault.code.name(), "L2");
    assert!(!fault.code.sentence().is_empty());
    let place = Place { inst: 9, word: 29 };
    assert_eq!(fault.place, Some(place));
    assert_eq!(cut.to_string(), "fault L2 inst 9 word 29");
    let none = grammar.check(&[]).unwrap();
    assert_eq!(
        (none.to_string().as_str(), none.fault().unwrap().place),
        ("fault W2", None)
    );
}

#[test]
fn explanations() {
    let (grammar, kernel) = (grammar(), kernel());
    let valid = grammar.explain(&kernel).unwrap();
    assert_eq!((valid.verdict, &*valid.text), (Verdict::Valid, "valid\n"));
    let cut = grammar.explain(&kernel[..kernel.len() - 4]).unwrap();
    assert!(cut.text.starts_with("fault L2 inst 9 word 29\n"));
    assert!(cut.text.lines().count() > 1);
}

#[test]
fn objects() {
    let (grammar, kernel) = (grammar(), kernel());
    let valid = grammar.explain_json(&kernel).unwrap();
    assert_eq!(valid.verdict, Verdict::Valid);
    assert_eq!(&*valid.text, "{\"verdict\":\"valid\",\"profile\":\"own\"}\n");
    let cut = grammar.explain_json(&kernel[..kernel.len() - 4]).unwrap();
    assert_eq!(cut.verdict.to_string(), "fault L2 inst 9 word 29");
    let begin = "{\"verdict\":\"fault\",\"code\":\"L2\",\"inst\":9,\"word\":29,\"rule\":\"";
    assert!(cut.text.starts_with(begin));
    assert!(cut.text.ends_with("}\n"));
    let mut older = kernel;
    older[5] = 4;
    let told = grammar.explain_json_with(&older, Version::As1_6).unwrap();
    assert_eq!(&*told.text, "{\"verdict\":\"valid\",\"profile\":\"own\"}\n");
}

#[test]
fn texts_and_back() {
    let (grammar, kernel) = (grammar(), kernel());
    let text = grammar.show(&kernel).unwrap();
    assert!(text.starts_with("; SPIR-V\n"));
    assert_eq!(
        *grammar.assemble(&text, ByteOrder::Little).unwrap(),
        *kernel
    );
    let big = grammar.assemble(&text, ByteOrder::Big).unwrap();
    assert_eq!(big[..4], [7, 0x23, 2, 3]);
    assert_eq!(grammar.check(&big), Ok(Verdict::Valid));
    let refused = grammar.show(&kernel[..8]).unwrap_err();
    let code = Code::new(2).unwrap();
    assert_eq!(refused, ShowError::Fault(Fault { code, place: None }));
    let wrong = grammar
        .assemble(&format!("{}Op\n", &*text), ByteOrder::Little)
        .unwrap_err();
    let line = text.lines().count() as u32 + 1;
    assert_eq!(
        wrong,
        AssembleError::Fault {
            code: TextCode::S2,
            line
        }
    );
    assert!(grammar.assemble("", ByteOrder::Little).is_err());
}

#[test]
fn the_built_in_grammar() {
    let (grammar, kernel) = (Grammar::default_for_1_6().unwrap(), kernel());
    assert_eq!(grammar.check(&kernel), Ok(Verdict::Valid));
    let cut = grammar.check(&kernel[..kernel.len() - 4]).unwrap();
    assert_eq!(cut.to_string(), "fault L2 inst 9 word 29");
}

#[test]
fn older_versions() {
    let (grammar, kernel) = (grammar(), kernel());
    let text = grammar.show(&kernel).unwrap();
    let big = grammar.assemble(&text, ByteOrder::Big).unwrap();
    for (module, major, minor) in [(&kernel[..], 6, 5), (&big[..], 5, 6)] {
        for number in 0..6 {
            let mut older = module.to_vec();
            older[minor] = number;
            let told = grammar.check(&older).unwrap();
            assert_eq!(told.to_string(), "fault W5");
            assert_eq!(grammar.check_with(&older, Version::AsTold), Ok(told));
            assert_eq!(
                grammar.check_with(&older, Version::As1_6),
                Ok(Verdict::Valid)
            );
            let explained = grammar.explain_with(&older, Version::As1_6).unwrap();
            assert_eq!(&*explained.text, "valid\n");
            assert_eq!(&*grammar.show_with(&older, Version::As1_6).unwrap(), &*text);
        }
        for (place, number) in [(minor, 7), (major, 2), (major, 0)] {
            let mut other = module.to_vec();
            other[place] = number;
            let verdict = grammar.check_with(&other, Version::As1_6).unwrap();
            assert_eq!(verdict.to_string(), "fault W5");
        }
    }
    assert_eq!(Version::default(), Version::AsTold);
}

#[test]
fn extended_instructions() {
    let grammar = grammar();
    let mut module = file("modules/inside-of-an-extended-instruction.spv");
    assert_eq!(grammar.check(&module), Ok(Verdict::Valid));
    let how = Version::AsTold.extended();
    let told = grammar.check_with(&module, how).unwrap();
    assert_eq!(told.to_string(), "fault D1 inst 13 word 45");
    let explained = grammar.explain_with(&module, how).unwrap();
    assert_eq!(explained.verdict, told);
    assert!(explained.text.starts_with("fault D1 inst 13 word 45\n"));
    let object = grammar.explain_json_with(&module, how).unwrap();
    let begin = "{\"verdict\":\"fault\",\"code\":\"D1\",\"inst\":13,\"word\":45,";
    assert_eq!(object.verdict, told);
    assert!(object.text.starts_with(begin));
    module[5] = 2;
    let older = grammar.check_with(&module, how).unwrap();
    assert_eq!(older.to_string(), "fault W5");
    let both = Version::As1_6.extended();
    assert_eq!(grammar.check_with(&module, both), Ok(told));
    assert_eq!(
        grammar.check_with(&module, Version::As1_6),
        Ok(Verdict::Valid)
    );
    assert_eq!(Judging::default(), Version::AsTold.into());
    assert!(both.extended && both.version == Version::As1_6);
}

#[test]
fn calls_of_what_a_set_does_not_have() {
    let grammar = grammar();
    let text = "; SPIR-V\n; Version: 1.6\n; Generator: 0\n; Bound: 12\n; Schema: 0\n\
        OpCapability Addresses\nOpCapability Kernel\n%9 = OpExtInstImport \"OpenCL.std\"\n\
        OpMemoryModel Physical64 OpenCL\nOpEntryPoint Kernel %3 \"k\"\n%1 = OpTypeVoid\n\
        %5 = OpTypeFloat 32\n%6 = OpConstant %5 0x3f800000\n%2 = OpTypeFunction %1\n\
        %3 = OpFunction %1 None %2\n%4 = OpLabel\n%7 = OpExtInst %5 %9 61 %6 %6\nOpReturn\n\
        OpFunctionEnd\n";
    let module = grammar.assemble(text, ByteOrder::Little).unwrap();
    assert_eq!(grammar.check(&module), Ok(Verdict::Valid));
    let told = grammar
        .check_with(&module, Version::AsTold.extended())
        .unwrap();
    assert_eq!(told.to_string(), "fault Y9 inst 11 word 40");
    assert_eq!(told.fault().unwrap().code, Code::new(509).unwrap());
}

#[test]
fn types_of_calls() {
    let grammar = grammar();
    let text = "; SPIR-V\n; Version: 1.6\n; Generator: 0\n; Bound: 12\n; Schema: 0\n\
        OpCapability Addresses\nOpCapability Kernel\n%9 = OpExtInstImport \"OpenCL.std\"\n\
        OpMemoryModel Physical64 OpenCL\nOpEntryPoint Kernel %3 \"k\"\n%1 = OpTypeVoid\n\
        %5 = OpTypeFloat 32\n%6 = OpConstant %5 0x3f800000\n%2 = OpTypeFunction %1\n\
        %3 = OpFunction %1 None %2\n%4 = OpLabel\n%7 = OpExtInst %5 %9 141 %6\nOpReturn\n\
        OpFunctionEnd\n";
    let module = grammar.assemble(text, ByteOrder::Little).unwrap();
    assert_eq!(
        grammar.check_with(&module, Version::AsTold.extended()),
        Ok(Verdict::Valid)
    );
    let told = grammar.check_with(&module, Judging::opencl()).unwrap();
    assert_eq!(told.to_string(), "fault Y10 inst 11 word 40");
    assert_eq!(told.fault().unwrap().code, Code::new(510).unwrap());
}

#[test]
fn refused_grammars() {
    assert_eq!(Grammar::new(b"").unwrap_err(), GrammarError::J1);
    let error: Box<dyn Error> = Box::new(Grammar::new(b"{}").unwrap_err());
    assert_eq!(error.to_string(), "the grammar file is refused: J2");
}

#[test]
fn where_grammars_are_refused() {
    let bad = br#"{"instructions":[{"opname":"OpA","opcode":1,"operands":[{"kind":"A\u001b"}]}],"operand_kinds":[]}"#;
    let place = "at: instructions[0].operands[0].kind\nfound: \"A\\x1b\"\n";
    let lines = format!("{place}wanted: the name of a kind of operand_kinds\n");
    assert_eq!(*Grammar::explain_refusal(bad).unwrap(), *lines);
    let none = Grammar::explain_refusal(b"{}").unwrap();
    assert_eq!(
        &*none,
        "at: instructions\nfound: nothing\nwanted: an array\n"
    );
    let text = Grammar::explain_refusal(&file("profile.json")).unwrap();
    assert!(text.is_empty());
}

#[test]
fn rules() {
    let codes: Vec<Code> = (0..1400).filter_map(Code::new).collect();
    assert_eq!(codes.len(), 74);
    assert_eq!(Code::new(107).unwrap().to_string(), "I7");
    assert_eq!(Code::new(0), None);
    assert_eq!(spvk::version(), env!("CARGO_PKG_VERSION"));
}

#[test]
fn a_grammar_is_shared_by_threads_and_let_go_by_another() {
    let (grammar, kernel) = (grammar(), kernel());
    thread::scope(|scope| {
        for _ in 0..8 {
            scope.spawn(|| {
                for _ in 0..100 {
                    assert_eq!(grammar.check(&kernel), Ok(Verdict::Valid));
                }
            });
        }
    });
    let text = grammar.show(&kernel).unwrap();
    thread::spawn(move || drop((grammar, text))).join().unwrap();
}
