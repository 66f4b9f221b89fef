"""The definitions on which the contracts of the calls rest, beside the list of them in docs/BELIEVE.md."""

import re
from dataclasses import dataclass, field
from functools import lru_cache
from pathlib import Path

from .common import LAYERS, TESTS, Check

TOP = TESTS.parent
CRATES = TOP / "crates"
PAGE = TOP / "docs/BELIEVE.md"
NAME = re.compile(r"[^\s(){}\[\],;:=→×⊎λ«»|.]+(?:\.[^\s(){}\[\],;:=→×⊎λ«»|.]+)*")
USE = re.compile(r"^\s*(?:ghost )?use ([\w.]+?)(?:\.\{([^}]*)\})?(?: as (\w+))?;?\s*$")
HEAD = re.compile(r"^(?:unfoldable )?(?:abbrev )?(?:pub )?(?:record |data )?([^\s(){}]+)")
IN_MUTUAL = re.compile(r"^  (?:unfoldable )?(?:abbrev )?(?:pub )?(?:record |data )?([^\s(){}]+)")
MODEL = re.compile(r"impl(?:<[^>]*>)? Model for (\w+)(?:<[^>]*>)? \{(.*?)\n\}", re.S)
VIEW = re.compile(r"ghost (?:Value|view) = \{.*?\};", re.S)
SECTION = re.compile(r"\[([^\]]*\b(?:\d+(?:\.\d+)*|own)[^\]]*)\]", re.I)
NO_NAMES = ("infix", "unfolding", "open", "module")

# The promises, and the calls that carry each: the crate, the file of its src/, and the function.
PROMISES = (
    (
        "The headline: what `valid` means, and what a fault is",
        "`check` answers of the words of a module, and `check_stream` of the bytes of a stream.",
        (("spv_check", "judging.rt", "check"), ("spv_check", "stream.rt", "check_stream")),
    ),
    (
        "A checked module never gets stuck",
        "`trace` answers the run of a valid module.",
        (("spv_run", "tracing.rt", "trace"),),
    ),
    (
        "What is refused by the profile is refused with --extended, and what is valid with it is a kernel of OpenCL, if it keeps Y10 and O",
        "The laws `refused_too` and `wider_too` of spv_verdict.",
        (("spv_verdict", "laws.rt", "refused_too"), ("spv_verdict", "laws.rt", "wider_too")),
    ),
    (
        "From words to instructions and back",
        "`decode` and `encode`.",
        (("spv_inst", "decoder.rt", "decode"), ("spv_printer", "encoder.rt", "encode")),
    ),
    (
        "The text of a module",
        "`show` and `assemble`.",
        (("spv_printer", "shown.rt", "show"), ("spv_parser", "assembled.rt", "assemble")),
    ),
    (
        "Which table a grammar file gives",
        "`Table::from_slice` of a text, and `Table::from_value` of a tree of serde_json. What JSON is, is serde_json's.",
        (
            ("spv_builtin", "load.rt", "from_slice", "impl FromGrammar for Table"),
            ("spv_builtin", "load.rt", "from_value", "impl FromGrammar for Table"),
        ),
    ),
    (
        "What each layer answers",
        "`lay_out`, `number`, `type_check` and `flow_check`, of a module and what the layers before answered.",
        (
            ("spv_layout", "plan.rt", "lay_out"),
            ("spv_ids", "ids.rt", "number"),
            ("spv_check", "types.rt", "type_check"),
            ("spv_check", "flow.rt", "flow_check"),
        ),
    ),
    (
        "Why a text fails",
        "`reason` says where the reading of a text stops, and what is wanted there.",
        (("spv_parser", "text_reason.rt", "reason"),),
    ),
    (
        "What shows a fault",
        "`explain` answers the verdict of `check`, and of a fault evidence that the rule is broken there; `explain_stream` "
        "and `explain_bytes` put it into lines.",
        (
            ("spv_explain", "reading.rt", "explain"),
            ("spv_explain", "stream.rt", "explain_bytes"),
            ("spv_explain", "stream.rt", "explain_stream"),
        ),
    ),
    (
        "Answers for machines",
        "`check_json` and `explain_json` write the verdict, and what shows a fault, as an object of JSON.",
        (
            ("spv_explain", "answers.rt", "check_json"),
            ("spv_explain", "answers.rt", "explain_json"),
        ),
    ),
    (
        "What people look at",
        "`annotate` is `show` with comments, `page` is the same as HTML, the graphs are DOT.",
        (
            ("spv_annotate", "text.rt", "annotate"),
            ("spv_annotate", "html_page.rt", "page"),
            ("spv_pictures", "calls.rt", "call_graph"),
            ("spv_pictures", "blocks.rt", "block_graph"),
        ),
    ),
    (
        "Streams",
        "`check_stream` and the other calls over streams speak of readers and writers by the clauses of two traits: a "
        "reader gives what remains, a writer keeps what it took, and a call that fails counts.",
        (
            ("spv_words", "stream.rt", "read", "trait Source"),
            ("spv_words", "stream.rt", "write", "trait Sink"),
            ("spv_words", "reading.rt", "read_image"),
            ("spv_words", "writing.rt", "write_all"),
        ),
    ),
    (
        "A version in place of another",
        "`replace_version` puts version 1.6 in place of 1.0 to 1.6 (`as_1_6`), and nothing else in place of anything. "
        "`minor_of` and `put_minor` read and replace the minor number of the version in bytes, `text_minor` and "
        "`put_text_minor` in a text; `reach`, `take` and `tell` say what is read of bytes as one of the options asks for "
        "it, how far that is looked at, and which version its text tells.",
        (
            ("spv_words", "version.rt", "replace_version"),
            ("spv_scope", "minor.rt", "minor_of"),
            ("spv_scope", "minor.rt", "put_minor"),
            ("spv_scope", "told.rt", "text_minor"),
            ("spv_scope", "told.rt", "put_text_minor"),
            ("spv_scope", "scope.rt", "reach", "impl Scope"),
            ("spv_scope", "scope.rt", "take", "impl Scope"),
            ("spv_scope", "scope.rt", "tell"),
        ),
    ),
    (
        "The table of a run",
        "`table_of` answers the table that a text gives, or without a text the one that the rows of "
        "spv_builtin/src/constants.rt tell; `grammar_text` writes it again. That the rows tell the table of Khronos' "
        "grammar file is compared by `tests/builtin`, and not proved.",
        (
            ("spv_builtin", "source.rt", "table_of"),
            ("spv_builtin", "text.rt", "grammar_text"),
            ("spv_builtin", "reason.rt", "grammar_reason"),
        ),
    ),
    (
        "The words of the command line",
        "`arguments_in` answers the command that words are, where the environment names a grammar file or none.",
        (
            ("spv_command_line", "command_line.rt", "arguments_in"),
            ("spv_command_line", "command_line.rt", "is_verbose"),
        ),
    ),
    (
        "The program's answer",
        "`answer` says what a command answers of the bytes of its files, and `judge_file` what is written of one of "
        "several. `run` does what a command asks, and `run_each` does it for several files: their clauses on bytes "
        "speak of readers and writers that tell them, as slices and vectors do; files tell none.",
        (
            ("spv_commands", "answering.rt", "answer"),
            ("spv_commands", "judging.rt", "judge_file"),
            ("spv_streams", "runs.rt", "run"),
            ("spv_streams", "files.rt", "read", "trait Files"),
            ("spv_streams", "each.rt", "run_each"),
        ),
    ),
    (
        "The library's calls",
        "The calls of the archive, `spvk_raw_..`; those of `spvk.h` are written in C over them, and tested.",
        tuple(
            ("spvk", file, f"spvk_raw_{call}")
            for file, *calls in (
                ("grammars.rt", "grammar_new", "grammar_default", "grammar_delete"),
                ("grammar_reason.rt", "grammar_explain"),
                ("checking.rt", "check", "check_as_1_6", "check_with"),
                ("explaining.rt", "explain", "explain_as_1_6", "explain_with"),
                ("objects.rt", "explain_json", "explain_json_as_1_6", "explain_json_with"),
                ("showing.rt", "show", "show_as_1_6", "show_opencl"),
                ("assembling.rt", "assemble_little", "assemble_big"),
                ("buffers.rt", "buffer_delete"),
                ("rules.rt", "rule_name", "rule_sentence", "version"),
                ("status_text.rt", "status_text"),
            )
            for call in calls
        ),
    ),
)

HEADING = """# What to believe

What is proved is no more than what the contracts of the calls say, and these are said in definitions. This page lists the definitions that the contracts of the main calls rest on: whoever has read them, and finds that they say what the Khronos specification says, knows what `valid` means, and need not read the bodies of the code, the other definitions or the proofs.

`tests/believe` makes this page from the files, and `tests/run` fails where it differs. Definitions that a promise shares with one above it are not listed again. Each file is in `crates/`; the numbers in square brackets in its comments are sections of the Khronos SPIR-V Specification 1.6, and 'own' marks a choice of the profile, which [PROFILE.md](PROFILE.md) states in prose. Lines of definitions and of comments are counted apart.

How to read. By rule: begin with the rule's definition in the table below, and go on to what it names, which its file has or its `use` lines bring in (`as` renames). Or in the order of the list: first what a contract names, then what that is made of; for the rules Y begin with Form, Types, Parts and Values of spv_type_forms, for O6 to O11 with Given and Table of spv_declarations, and for O14 to O20 with Value of spv_kernel_operands. Names stand for what their file says or imports: `Form`, `Shape`, `Row`, `Entry`, `Sort`, `Keeps`, `Broken`, `Line`, `lines`, `rows`, `row_of`, `row_in`, `class_in`, `constant_of`, `value_in`, `values_of`, `is_number` and `place_of` are said in several crates, of each crate's own things.

- A path with `declared` in it is a type of the code: `Rattle.C.specs.declared.M.T` is `T` of `C/src/M.rt`, a struct with its fields or an enum with its variants (`T.TheVariants`). `tag_of the_type x` is the place of x among the variants, from 0, in the order in which the code declares them (`the_type` comes by the same path with `contracts` for `declared`). Three orders count: {orders}.
- `opcode.NAME`, or NAME alone, is an opcode of spv_module/src/opcode.rt, by its name in the standard without `Op`; the first two tables of the code are written in them too: {opcodes}.

The words of the language, and those of the toolchain's library that stand in these definitions:

| Written | Means |
|---|---|
| `-- text` | a comment |
| `use M.{a, b as c}` | brings in a and b of the file M, b under the name c; `use M as m` brings in all of it, as `m.a` |
| `f : A → B → C` | the sort of f: it takes an A and a B, and gives a C. What gives a `Type 0` is a statement, or a sort of things |
| `abbrev pub f : ..` | f is defined by the equations below it; of these the first that fits its arguments counts, and `_` fits anything |
| `unfoldable pub f : ..` | the same to a reader; the prover does not look into it unasked |
| `record R (x : A) : Type 0 where` | R holds of x where there is all that its lines name: things and, of them, statements. Of a sort of things, its fields. `r.name` is the one of that name |
| `record { a = x; b = y }` | the record with these fields |
| `data D : A → Type 0 where` | D holds of what one of its constructors ends in, where that which stands before its last arrow holds; and of nothing else. Of a sort of things, its variants |
| `mutual` | the definitions below name one another |
| `let x = a in b`, `λ x. b` | b, in which x is a; b, as a function of x |
| `if a then b else c`, `cond a b c` | b where a is true, else c |
| `(a, b)`, `p.0`, `p.1` | a pair, its first and its second |
| `A × B`, `A ⊎ B` | both hold; one of them holds |
| `(x : A) → B`, `(x : A) × B` | B holds for every x; for some x |
| `A → B`, `A ↔ B`, `¬ A` | where A holds B does; each gives the other; A does not hold |
| `a ≡ b`, `a ≢ b` | they are the same; they are not |
| `Unit`, `⊤`, `⊥` | what always holds, under two names; what never holds |
| `ℕ`, `zero`, `suc n` | the numbers from 0; 0, and n + 1. `a - b` is 0 where b is the greater; `a / b` and `a % b` are the whole quotient and what is left; `a ^ b` is a power |
| `nat_eq a b`, `nat_lt a b`, `nat_le a b` | tests: whether a is b, is less, is at most b |
| `not a`, `a && b`, `a \|\| b`, `IsTrue a` | of tests: not, and, or; that a test answers true |
| `Option`, `Some x`, `None` | something that may be missing; x is there; nothing is |
| `option_map f o`, `option_and_then f o` | f of what o is, if it is there; the same of an f that may give nothing itself |
| `unwrap_or o d`, `is_some o`, `option_to_list o` | what o is, or d; whether it is there; a list of it, or the empty one |
| `IsSome o`, `IsSomeAnd o P`, `IfSome o P`, `MatchOption o A P` | o is there; it is, and P holds of it; P holds of it if it is; A holds if it is missing, else P of it |
| `List`, `[]`, `x ∷ xs`, `xs ++ ys` | a list; the empty one; x and then xs; xs and then ys |
| `length xs`, `reverse xs`, `take n xs`, `drop n xs` | how many elements; the last first; the first n; all but these |
| `slice_get xs n`, `slice_index xs n`, `get_or xs n d` | element n from 0, if there is one; or 0; or d |
| `map f xs`, `flat_map f xs`, `filter_map f xs` | f of each element; the lists that f gives, joined; what f gives where it gives something |
| `filter t xs`, `find t xs`, `position t xs`, `count_by t xs` | of the elements that pass the test: all; the first; the place of that one; how many |
| `list_all t xs`, `list_any t xs` | tests: whether each element passes; whether one does |
| `All P xs`, `AllByRecursion P xs`, `Any P xs`, `Contains xs x` | P holds of each element; the same; of one; x is one |
| `starts_with e xs ys`, `bit_and a b` | a test: xs begins with ys, elements being the same by the test e; the bits that two numbers share |
| `sum_by f xs`, `fold f a xs`, `range_with_len a n` | the sum of f over xs; f over xs from the first on, beginning with a; a, a + 1 and so on, n of them |
| `IsStrictlyIncreasing xs` | each element is less than the next |
| `codes "a"`, `decimal n`, `string_bytes s`, `bytes_eq a b` | the bytes of a text, of a number in decimal, of a string of the code; a test: whether bytes are the same |
| `IsUtf8 t`, `IsAscii t` | bytes are UTF-8; they are below 128 |
| `Result`, `Ok x`, `Err e`, `IfOk r P`, `IfErr r P` | an answer, or an error; P holds of the answer, or of the error, if it is one |
| `Token`, `Data`, `read` and others of `Rattle.json`, `Rattle.serde_json` | JSON by the definitions of the toolchain's ports; `App`, `Rule`, `Row`, `Text` of `Rattle.clap` what a command line takes; `parse_float` of `Rattle.ryu` the number that a text is |
"""


# What a valid module is.
VALID = ("Rattle.spv_check.specs.Valid", "IsValid")

BY_VALID = """What a valid module is, `IsValid` alone: {profile}. With `--extended` there are {extended} besides, and with `--opencl` {opencl} more: those stand in a list of their own, and whoever reads for the profile may pass it over.
"""

# What is asked with an option alone: without it the definition before each says that it does not count.
BY_EXTENDED = (
    ("Rattle.spv_extended.specs.Opened", "opened"),
    ("Rattle.spv_extended.specs.Miscalled", "IsMiscalled"),
)
BY_OPENCL = (
    ("Rattle.spv_std_types.specs.Mistyped", "IsMistyped"),
    ("Rattle.spv_standard.specs.Broken", "KernelBroken"),
)

BESIDES_HEAD = """What `--extended` and `--opencl` ask besides, {count}:
"""

TABLES_HEAD = """Some tables are not said again in definitions: `rows` of spv_layout/specs/Rows, and `lines` and the like of other files, name the tables of the code, which stand there a row a line, in words and letters that the macros above them turn into values. These rows are to be read too, as definitions are; they are not among the lines that are counted here. Nor are the lists of what extended instructions take, which `facts_of` of spv_extended/specs/Facts names: how their numbers are read stands above them, and `tests/extended` compares them with Khronos' files:"""

CONSTANTS_HEAD = """## Constants of the code

Besides opcodes and the tables that are named above, definitions name these constants of the code. They are to be read where they stand:"""

BY_RULE = """`check` takes the words of an image, which begin with a good header, and answers `IsAnswer` of them: the checked module (`IsChecked`) or its fault (`IsFault`). It answers the former exactly where the bytes of those words are a valid module (`IsValid`): they begin with a good header (`IsModule`: the rules W), the words behind it spell a list of instructions (`IsListing`: I), and the list breaks no other rule (`IsSound`: P to G). With `--extended` the list is looked at with the operands of extended instructions (`looked_at`), and must not break Y9 either; as a kernel of OpenCL too, whose rows and places are more (`profile_of`), which must not break Y10 either (`asks_types`) nor a rule O (`KernelBroken`), and of which F4 is asked in version 1.6 alone (`fork_of`). Whoever reads for the profile may pass over what is said of OpenCL: where P1 is broken nowhere each instruction has a row of the profile, and where the layout is not either each OpExtInst stands in a block (proved, `own_profile` of spv_layout). So of the table of shapes the rows marked `opencl` never count for the profile, nor do the cases of their opcodes in the definitions of types, constants and operations. `check_stream` writes the line of the verdict on the bytes that it reads (`IsVerdict`). That words have one verdict, and bytes one line, is proved beside them (`one_answer`, `one_verdict` and `one_first` of spv_check). Which table a grammar file gives is said in a part of its own below, and in prose in PROFILE.md. [RULES.md](RULES.md) has a line for each code, with the code that answers it, its evidence and a case.

The rules, and the definitions that say what is kept, or (broken) where a rule is broken:

| Rule | About | Kept | Broken |
|---|---|---|---|"""

# The rules, and the definitions that say what is kept, and where each is broken: their files, and their names.
HEADER, SPELLING = "spv_words/specs/Header.antt", "spv_module/specs/Spelling.antt"
REFUSAL, SHAPE = "spv_module/specs/Refusal.antt", "spv_layout/specs/Shape.antt"
IDS, CAPABILITIES = "spv_ids/specs/Broken.antt", "spv_capabilities/specs/Keeps.antt"
BRANCHES, TARGET = "spv_flow/specs/branches/Broken.antt", "spv_flow/specs/branches/Target.antt"
READY = "spv_flow/specs/branches/Ready.antt"
ORDER, ENTRY = "spv_block_order/specs/Early.antt", "spv_declarations/specs/Entry.antt"
DECLARED, DECORATED = "spv_declarations/specs/Declarations.antt", "spv_declarations/specs/Decorated.antt"
POINTERS, OBJECTS = "spv_kernel_operands/specs/Pointers.antt", "spv_kernel_operands/specs/Objects.antt"
SCOPES, SEATS = "spv_kernel_operands/specs/Scopes.antt", "spv_kernel_operands/specs/Seats.antt"
VERSIONS, LIMITS = "spv_versions/specs/Missing.antt", "spv_limits/specs/Past.antt"
RULES = (
    ("W2 to W8", "the bytes and the header", [(HEADER, "IsModule"), (HEADER, "BytesKeep")], []),
    (
        "I1 to I3",
        "the first word of an instruction",
        [("spv_module/specs/Instruction.antt", "IsInstruction")],
        [("spv_module/specs/Malformed.antt", "IsMalformed")],
    ),
    (
        "I4, I6 to I12",
        "an operand's words",
        [(SPELLING, "Takes"), (SPELLING, "Spells"), ("spv_module/specs/Shape.antt", "shape_of")],
        [(REFUSAL, "ShapeRefuses")],
    ),
    ("I5", "words behind the last operand", [(SPELLING, "Match")], [(REFUSAL, "Misfit")]),
    (
        "P1",
        "the opcode and its operands",
        [(SHAPE, "FitsShape"), ("spv_layout/specs/Rows.antt", "rows")],
        [("spv_layout/specs/Broken.antt", "Broken")],
    ),
    (
        "L1, L2",
        "the order of instructions",
        [("spv_layout/specs/Layout.antt", "IsLayout")],
        [("spv_layout/specs/DeadPlace.antt", "IsDeadPlace")],
    ),
    ("D1 to D3", "ids: their range and definitions", [], [(IDS, "Broken")]),
    ("D4", "ids: order", [("spv_ids/specs/Order.antt", "IsInOrder")], [(IDS, "Broken")]),
    ("D5", "ids: scope", [("spv_ids/specs/Order.antt", "IsInScope")], [(IDS, "Broken")]),
    (
        "Y1",
        "the role of an id",
        [("spv_type_rules/specs/roles/Role.antt", "Plays")],
        [("spv_type_rules/specs/roles/Broken.antt", "Broken")],
    ),
    ("C1", "Kernel and not Shader", [(CAPABILITIES, "Keeps")], []),
    ("C2", "the capabilities of an instruction", [("spv_capabilities/specs/Capable.antt", "IsCapable")], []),
    ("E1", "an entry point, or Linkage", [(CAPABILITIES, "Keeps")], []),
    ("M1", "addressing and memory model", [("spv_capabilities/specs/Memory.antt", "IsModel")], []),
    (
        "E2",
        "entry points, modes and linkage",
        [
            (CAPABILITIES, "KeepsEntries"),
            ("spv_capabilities/specs/Entry.antt", "IsSoundEntry"),
            ("spv_capabilities/specs/Entry.antt", "IsSoundMode"),
        ],
        [],
    ),
    (
        "Y2",
        "type declarations",
        [
            ("spv_type_rules/specs/Declaration.antt", "declaration_of"),
            ("spv_type_rules/specs/Declaration.antt", "DeclaresSoundly"),
        ],
        [],
    ),
    ("Y3", "types declared again", [], [("spv_type_rules/specs/Repeat.antt", "Repeats")]),
    (
        "Y4",
        "constants",
        [
            ("spv_type_rules/specs/Constant.antt", "constant_of"),
            ("spv_type_rules/specs/Constant.antt", "Constitutes"),
        ],
        [],
    ),
    (
        "Y5",
        "the types of operands and results",
        [
            ("spv_ops/specs/Typed.antt", "IsTyped"),
            ("spv_ops/specs/Typed.antt", "LineHolds"),
            ("spv_ops/specs/Table.antt", "conditions_of"),
            ("spv_conditions/specs/Asks.antt", "HoldsOf"),
        ],
        [],
    ),
    ("Y6", "functions and parameters", [("spv_type_rules/specs/Keeps.antt", "KeepsFunctions")], []),
    ("Y7", "returns", [("spv_type_rules/specs/Keeps.antt", "KeepsReturns")], []),
    ("Y8", "calls", [("spv_type_rules/specs/Function.antt", "CallsSoundly")], []),
    ("F1", "labels of branches and merges", [], [(BRANCHES, "Broken")]),
    ("F2", "branches to entry blocks", [], [(BRANCHES, "Broken"), (TARGET, "IsEntryLabel")]),
    ("F3", "the parents of a phi", [(TARGET, "HasParents")], [(BRANCHES, "Broken")]),
    ("F4", "two labels that are the same", [], [(BRANCHES, "Broken")]),
    ("A1", "values on every walk", [], [(READY, "IsMissing")]),
    ("A2", "values of phis on every walk", [], [(READY, "IsPairMissing")]),
    ("G1", "cycles of calls", [], [("spv_flow/specs/calls/Broken.antt", "Broken")]),
    ("Y9", "calls of extended instructions", [], [("spv_extended/specs/Miscalled.antt", "IsMiscalled")]),
    (
        "Y10",
        "the types of OpenCL.std",
        [("spv_std_types/specs/Condition.antt", "Holds"), ("spv_std_types/specs/Table.antt", "conditions_of")],
        [("spv_std_types/specs/Mistyped.antt", "IsMistyped")],
    ),
    ("O1", "a block before the one that dominates it", [], [(ORDER, "IsEarlyBlock")]),
    ("O2", "a use before its definition", [], [(ORDER, "IsEarlyUse")]),
    ("O3", "names of entry points", [], [(ENTRY, "IsRepeated")]),
    ("O4", "interfaces of entry points", [], [("spv_interfaces/specs/Interface.antt", "IsMisfaced")]),
    ("O5", "execution modes with ids", [], [(ENTRY, "TakesId")]),
    ("O6", "members that a struct does not have", [], [(DECLARED, "IsOfNoMember")]),
    ("O7", "where decorations stand", [("spv_declarations/specs/Table.antt", "StandsOn")], [(DECORATED, "IsMisplaced")]),
    ("O8", "Restrict and Aliased", [], [(DECORATED, "IsSecond")]),
    ("O9", "linkage of entry points", [], [(DECORATED, "IsLinkedEntry")]),
    ("O10", "initializers of variables", [], [(DECORATED, "IsInitialized")]),
    ("O11", "structs that are built in in part", [], [(DECORATED, "IsHalfBuiltIn")]),
    ("O12", "forward pointers", [], [(DECLARED, "IsForwardElsewhere")]),
    ("O13", "ints of 8 bits, and the Vulkan memory model", [], [(DECLARED, "IsIncapable")]),
    (
        "O14",
        "scopes and memory semantics",
        [(SEATS, "scopes_of"), (SEATS, "semantics_of")],
        [(SCOPES, "IsMisscoped")],
    ),
    ("O15", "what atomics work on", [], [(POINTERS, "IsMisatomic")]),
    ("O16", "writes to what is read alone", [], [(POINTERS, "IsMiswritten")]),
    ("O17", "copies of nothing", [], [(POINTERS, "IsEmptyCopy")]),
    ("O18", "loop controls and weights", [], [("spv_kernel_operands/specs/Control.antt", "IsMiscontrolled")]),
    ("O19", "literals of switches", [], [("spv_kernel_operands/specs/Switch.antt", "IsMisswitched")]),
    ("O20", "returns of void", [], [(OBJECTS, "IsVoidReturn")]),
    ("O21", "what the version does not have", [], [(VERSIONS, "IsMissing"), (VERSIONS, "IsLate")]),
    ("O22", "universal limits", [("spv_limits/specs/Table.antt", "most")], [(LIMITS, "Passes")]),
    ("O23", "where a sampled image is made", [], [(OBJECTS, "IsMadeElsewhere")]),
)


# The tables of the code that definitions name: the crate, the file of its src/, what it is, where its rows stand, and
# how one begins.
WORDS, LINES = r"\$what! \{\n(.*?)\n {8}\}\n", r"pub static TABLE: [^\n]* = \[\n(.*?)\n\];"
ROW = r"(?m)^ +(?:[A-Z]\w+.*?:|\d[^:/]*:)"
TABLES = (
    ("spv_layout", "rows.rt", "shapes (P1, L1, L2, Y1)", r"\$what! \{\n(.*?\n {8}\}\n.*?)\n {8}\}\n", ROW),
    ("spv_ops", "table.rt", "types, with `FURTHER` and `OBJECTS` below it (Y5)", WORDS, ROW),
    ("spv_std_types", "table.rt", "OpenCL.std (Y10)", WORDS, ROW),
    ("spv_declarations", "table.rt", "decorations, with `NEVER_ON_MEMBERS` below it (O7)", WORDS, ROW),
    ("spv_kernel_operands", "seats.rt", "scopes and memory semantics (O14)", WORDS, ROW),
    ("spv_versions", "table.rt", "versions (O21)", LINES, r"(?m)^    line!\("),
    ("spv_limits", "table.rt", "limits (O22)", LINES, r"(?m)^    \("),
)

# The lists of the code that definitions name: the crate, the file of its src/, and what they are.
LISTS = ("spv_extended", "facts.rt", "what extended instructions take (with --extended: D1, D3, D5, Y1, A1, Y9)")

# The constants of the code that definitions and tables name opcodes by.
OPCODES = "spv_module/src/opcode.rt"

# The other constants of the code that definitions name: their files, and what they are.
CONSTANTS = {
    "spv_builtin/src/constants.rt": "the built-in grammar, which `tests/builtin` writes from Khronos' file",
    "spv_rules/src/table.rt": "of each code of a verdict its name, its number in C, what it says, the sources of that, "
    "and what breaks it",
    "spv_rules/src/errors.rt": "of each code of an error its name, what it says, the sources of that, and when it is told",
    "spv_annotate/src/opencl.rt": "the instructions of OpenCL.std, each with how many operands it takes",
    "spv_annotate/src/style.rt": "the parts of a page that are the same on each",
}

# The enums of the code whose order definitions speak of.
ORDERS = (
    ("spv_words/src/words.rt", "WordError"),
    ("spv_module/src/fault.rt", "Rule"),
    ("spv_layout/src/class.rt", "Class"),
)


# Stands for the text by which contracts see a type of the code: how a list is held there serves the code alone.
AS_SEEN = Path()
# Definitions that are such texts: `definition_in` is how contracts see `Ids`.
VIEWS = ("definition_in",)


class NotFound(Exception):
    """A call that is not where it is looked for."""


@dataclass
class Definition:
    """Definitions of a file of specs/, one or those of a mutual block, with the names that they give, those of
    constructors too, and their lines with the comment above them."""

    heads: list
    names: list
    lines: list = field(default_factory=list)


@dataclass
class Scope:
    """What names stand for: those that were brought in one by one, and modules by another name."""

    names: dict
    modules: dict

    def __or__(self, other):
        return Scope(self.names | other.names, self.modules | other.modules)


def scope_of(text):
    """What the `use` lines of a text bring in."""
    names, modules = {}, {}
    for line in text.splitlines():
        used = USE.match(line)
        if not used:
            continue
        module, items, other = used.groups()
        for item in (items or "").split(","):
            name, _, called = item.strip().partition(" as ")
            if name:
                names[called or name] = (module, name)
        if items is None:
            modules[other or module.rsplit(".", 1)[-1]] = module
    return Scope(names, modules)


def names_in(paragraph):
    """The definitions that a paragraph of a file of specs/ has, and all names that it declares."""
    code = [line for line in paragraph if not line.lstrip().startswith("--") and not USE.match(line)]
    if not code:
        return [], []
    if code[0].startswith("mutual"):
        found = [IN_MUTUAL.match(line) for line in code[1:]]
    else:
        found = [HEAD.match(line) for line in code if not line.startswith((" ", *NO_NAMES))]
    heads = names = list(dict.fromkeys(it[1] for it in found if it))
    if any(re.match(r"^(?:pub )?data ", line) for line in code):
        names = names + [it[1] for line in code for it in [re.match(r"^  ([^\s(){}]+) :", line)] if it]
    return heads, list(dict.fromkeys(names))


def is_more(paragraph):
    """Whether a paragraph goes on with the definition before it: its first line of code is set in."""
    code = [line for line in paragraph if not line.lstrip().startswith("--")]
    return bool(code) and code[0].startswith(" ")


@lru_cache(maxsize=None)
def read(path):
    """The definitions of a file of specs/ by each of their names, and what its names stand for."""
    text = path.read_text(encoding="utf-8")
    by_name, last = {}, None
    for part in re.split(r"\n\s*\n", text):
        lines = [line for line in part.splitlines() if not USE.match(line)]
        if last and is_more(lines):
            last.lines += lines
            more = names_in(["mutual", *lines])[0]
            last.heads += more
            for name in more:
                by_name.setdefault(name, last)
            continue
        heads, names = names_in(lines)
        if names:
            last = Definition(heads, names, lines)
            for name in names:
                by_name.setdefault(name, last)
    return by_name, scope_of(text)


@lru_cache(maxsize=None)
def models():
    """Of each type of the crates that contracts see as another value: how, and what the names in that stand for."""
    found = {}
    for path in sorted(CRATES.glob("spv*/src/**/*.rt")):
        text = path.read_text(encoding="utf-8")
        for name, body in MODEL.findall(text):
            found[name] = ("\n".join(VIEW.findall(body)), scope_of(text) | scope_of(body))
    return found


def file_of(module):
    """The file of a module of specs/, if it is one of the repository's."""
    parts = module.split(".")
    if len(parts) < 4 or parts[0] != "Rattle" or parts[2] != "specs":
        return None
    path = CRATES / parts[1] / "specs" / ("/".join(parts[3:]) + ".antt")
    return path if path.is_file() else None


def clauses(crate, file, call, block=None):
    """The signature and the clauses of a call, or of one in a trait or an `impl` block, and what their names stand
    for."""
    text = (CRATES / crate / "src" / file).read_text(encoding="utf-8")
    if block:
        inside = re.search(rf"^(?:pub )?{block} \{{.*?^\}}", text, re.S | re.M)
        found = inside and re.search(rf"^    (?:pub )?fn {call}\b.*?(?=\n    \{{|;\n)", inside[0], re.S | re.M)
    else:
        found = re.search(rf'pub (?:(?:unsafe )?extern "C" )?fn {call}\b.*?(?=\n\{{)', text, re.S)
    if not found:
        raise NotFound(f"{crate} has no {call} in {file}")
    return re.sub(r"//.*", "", found[0]), scope_of(text)


class Closure:
    """The definitions that were come to, in order: those that stand nearer to the contracts first."""

    def __init__(self, without=()):
        self.found, self.seen, self.types, self.without = [], set(), set(), without

    def take(self, module, name, waiting):
        """Comes to a name of a module: a definition, a constructor of one, or a type of the code."""
        if (module, name) in self.without:
            return
        path = file_of(module)
        if path is None:
            above, _, last = module.rpartition(".")
            if ".specs.declared." in f"{module}.":
                self.take_type(name, waiting)
            elif file_of(above):
                self.take(above, last, waiting)
            return
        definition = read(path)[0].get(name)
        if definition is None or id(definition) in self.seen:
            return
        self.seen.add(id(definition))
        self.found.append((path, definition))
        code = "\n".join(re.sub(r"--.*", "", line) for line in definition.lines)
        waiting.append((code, read(path)[1], AS_SEEN if set(definition.heads) <= set(VIEWS) else path))

    def take_type(self, name, waiting):
        """Comes to a type of the code: as what contracts see it."""
        if name in models() and name not in self.types:
            self.types.add(name)
            waiting.append((*models()[name], AS_SEEN))

    def go_on(self, without):
        """Comes to what was passed over, but for these."""
        more = [it for it in self.without if it not in without]
        self.without = without
        for module, name in more:
            self.follow(name, Scope({name: (module, name)}, {}))

    def follow(self, text, scope):
        """Comes to all that a text names, and to what that names, breadth first."""
        waiting = [(text, scope, None)]
        for text, scope, path in waiting:
            is_view, path = path is AS_SEEN, None if path is AS_SEEN else path
            own = read(path)[0] if path else {}
            module = "Rattle." + ".".join(path.relative_to(CRATES).with_suffix("").parts) if path else ""
            for whole in NAME.findall(text):
                first, _, rest = whole.partition(".")
                if first in own:
                    self.take(module, first, waiting)
                if first in scope.names and not (is_view and ".inner." in scope.names[first][0]):
                    self.take(*scope.names[first], waiting)
                elif first in scope.modules and rest:
                    self.take(scope.modules[first], rest.split(".")[0], waiting)
                if path is None and first in models():
                    self.take_type(first, waiting)


def sections(definitions):
    """The sections that the comments of definitions name, and own where one marks a choice of the profile."""
    comments = " ".join(line.lstrip("- ") for it in definitions for line in it.lines if line.lstrip().startswith("--"))
    named, own = [], False
    for group in SECTION.findall(comments):
        named += re.findall(r"\d+(?:\.\d+)+", group)
        own = own or bool(re.search(r"\bown\b", group, re.I))
    return ", ".join([*dict.fromkeys(named), *(["own"] if own else [])])


def lines_in(definitions):
    """How many lines there are in definitions without those of comments, and how many of comments."""
    lines = [line for it in definitions for line in it.lines]
    comments = sum(line.lstrip().startswith("--") for line in lines)
    return len(lines) - comments, comments


def named(found, definitions):
    """Definitions by name and file, each of which must be among those found."""
    for file, name in definitions:
        if not any(path == CRATES / file and name in it.names for path, it in found):
            raise NotFound(f"{file} has no {name} that the headline rests on")
        yield f"`{name}` ({file.replace('/specs', '').removesuffix('.antt')})"


def rules(found):
    """A row for each rule: what it is about, and its definitions."""
    for codes, about, kept, broken in RULES:
        yield f"| {codes} | {about} | {', '.join(named(found, kept))} | {', '.join(named(found, broken))} |"


def variants(file, name):
    """The variants of an enum of the code, in order."""
    text = re.sub(r"//.*", "", (CRATES / file).read_text(encoding="utf-8"))
    body = re.search(rf"pub enum {name} \{{(.*?)\n\}}", text, re.S)
    if not body:
        raise NotFound(f"{file} has no enum {name}")
    return re.findall(r"^\s*(\w+)\b", body[1], re.M)


def opcodes():
    """The constants of opcodes, each with its number, in the order of the code."""
    text = (CRATES / OPCODES).read_text(encoding="utf-8")
    found = re.findall(r"^pub const (\w+): u16 = (\d+);", text, re.M)
    if not found:
        raise NotFound(f"{OPCODES} has no constants")
    return ", ".join(f"{name} {number}" for name, number in found)


def orders():
    """The enums whose order counts, with their variants."""
    parts = [f"`{name}` ({', '.join(variants(file, name))})" for file, name in ORDERS]
    return "; ".join(parts)


def tables():
    """A line for each table of the code that definitions name, with the number of its rows, and one for the lists."""
    for crate, file, about, pattern, row in TABLES:
        path = CRATES / crate / "src" / file
        parts = re.findall(pattern, path.read_text(encoding="utf-8"), re.S)
        if not parts:
            raise NotFound(f"{crate}/src/{file} has no table")
        count = sum(len(re.findall(row, part)) for part in parts)
        yield f"- `TABLE` of {crate}/src/{file}, the table of {about}: {count} rows"
    crate, file, about = LISTS
    text = (CRATES / crate / "src" / file).read_text(encoding="utf-8")
    found = [f"`{name}` ({count})" for name, count in re.findall(r"pub static (\w+): \[u32; (\d+)\]", text)]
    yield f"- {', '.join(found)} of {crate}/src/{file}, {about}"


def constants(found):
    """A line for each file of the code with constants that these definitions name, but for opcodes and the tables."""
    told = {OPCODES, *(f"{crate}/src/{file}" for crate, file, *_ in (*TABLES, LISTS))}
    named_in = {}
    for path, definition in found:
        scope = read(path)[1]
        code = "\n".join(re.sub(r"--.*", "", line) for line in definition.lines)
        for first in (whole.partition(".")[0] for whole in NAME.findall(code)):
            module, name = scope.names.get(first, ("", ""))
            place = re.fullmatch(r"Rattle\.(\w+)\.specs\.declared\.(.+)\.TheConstants", module)
            if place:
                named_in.setdefault(f"{place[1]}/src/{place[2].replace('.', '/')}.rt", {})[name] = True
    for file, names in named_in.items():
        if file not in told:
            if file not in CONSTANTS:
                raise NotFound(f"{file} has constants that definitions name, and nothing says what they are")
            yield f"- {', '.join(f'`{it}`' for it in names)} of {file}: {CONSTANTS[file]}"


def counted(found):
    """How many definitions there are, and their lines with those of comments."""
    lines, comments = lines_in(it for _, it in found)
    return f"{sum(len(it.heads) for _, it in found)} definitions, {lines + comments} lines with comments"


def of_valid():
    """How much there is to read to know what a valid module is: for the profile, and what each option adds."""
    module, name = VALID
    closure = Closure(BY_EXTENDED + BY_OPENCL)
    closure.follow(name, Scope({name: (module, name)}, {}))
    counts = [counted(closure.found)]
    for without in (BY_OPENCL, ()):
        begun = len(closure.found)
        closure.go_on(without)
        counts.append(counted(closure.found[begun:]))
    return dict(zip(("profile", "extended", "opencl"), counts))


def rows(found):
    """A row for each file: its definitions, their lines, those of comments, and the sections that they name."""
    files = {}
    for path, definition in found:
        files.setdefault(path, []).append(definition)
    for path, definitions in files.items():
        names = ", ".join(f"`{name}`" for it in definitions for name in it.heads)
        lines, comments = lines_in(definitions)
        yield f"| {path.relative_to(CRATES)} | {names} | {lines} | {comments} | {sections(definitions)} |"


def listed(found):
    """A table of definitions by their files."""
    head = "| File | Definitions | Lines | Comments | Sections |\n|---|---|---:|---:|---|"
    return head + "\n" + "\n".join(rows(found)) + "\n"


def page():
    """The page as it is to be."""
    closure = Closure(BY_EXTENDED + BY_OPENCL)
    parts = [HEADING.replace("{orders}", orders()).replace("{opcodes}", opcodes())]
    for title, about, calls in PROMISES:
        begun = len(closure.found)
        for call in calls:
            closure.follow(*clauses(*call))
        found = closure.found[begun:]
        lines, comments = lines_in(it for _, it in found)
        count = sum(len(it.heads) for _, it in found)
        parts.append(f"## {title}\n\n{about} {count} definitions, {lines} lines, and {comments} of comments.\n")
        if begun == 0:
            closure.go_on(())
            besides = closure.found[len(found) :]
            parts.append(BY_VALID.format(**of_valid()))
            parts.append(TABLES_HEAD + "\n\n" + "\n".join(tables()) + "\n")
            parts.append(BY_RULE)
            parts.append("\n".join(rules(closure.found)) + "\n")
        parts.append(listed(found))
        if begun == 0:
            parts.append(BESIDES_HEAD.format(count=counted(besides)))
            parts.append(listed(besides))
    parts.append(CONSTANTS_HEAD + "\n\n" + "\n".join(constants(closure.found)) + "\n")
    return "\n".join(parts)


def inner():
    """The definitions of the page that serve the code alone, as their files say: there may be none."""
    closure = Closure()
    for _, _, calls in PROMISES:
        for call in calls:
            closure.follow(*clauses(*call))
    marked = "(For the code alone.)"
    alone = {path for path, _ in closure.found if "/inner/" in str(path) or marked in path.read_text("utf-8")[:400]}
    return sorted(str(Path(path).relative_to(CRATES)) for path in alone)


def is_kept(_program, _folder):
    """The page lists what the contracts rest on, and no definition that serves the code alone is among it."""
    try:
        wanted = page()
    except NotFound as reason:
        return f"  {reason}"
    if inner():
        return "  for the code alone, and yet contracts rest on them: " + ", ".join(inner())
    if PAGE.read_text(encoding="utf-8") != wanted:
        return f"  {PAGE.name} differs from what tests/believe prints"
    return None


def checks():
    """The one check."""
    return [Check("what to believe", frozenset(LAYERS[:1]), is_kept)]
