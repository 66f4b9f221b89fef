"""Whether each line of `explain` is true of its module, judged from docs/PROFILE.md and the module's words alone.

Where several lines are true of a fault (any of two operands that are not defined, any of two walks as
short), any of them will do.
"""

import re
from collections import deque

from . import conditions, extended, objects, opencl_std, owners
from .facts import FUNCTION, FUNCTION_END, LABEL, Facts, open_at
from .flow import CALL, TOLD, ToldOfTargets
from .forms import UNLIKE, VECTOR, VOID
from .order import BEGIN, MOST_NAMES, after, kinds_of, may_come, may_end, row_text
from .profiles import Profile
from .standard import told as standard
from .text import CONTROL, bits_of, visible
from .types import NEEDED, is_defined, is_import, parameters_of, plays

LINE = re.compile(r"([a-z]+(?: [a-z]+)*):(?: (.*))?")
# The lines after that of the sentence, by code: each key with a semicolon after it.
PLACE = "at;(in;)?"
OPERAND = "operand;"
FORMS = {
    "W": "found;(help;)?",
    "I1 I2 I3": "words;word;opcode;",
    "I4 I5 I6 I7 I8 I9 I10 I11 I12": "words;word;opcode;operand;due;",
    "P1": f"{PLACE}opcode;row;",
    "L1": f"{PLACE}may come;(missing;)?",
    "L2": "may come;(open;)?",
    "D1": f"{PLACE}operand;bound;",
    "D3 M1": f"{PLACE}operand;",
    "D2 Y3": f"{PLACE}earlier;",
    "D4": f"{PLACE}operand;defined;",
    "D5": f"{PLACE}operand;defined;local to;",
    "Y1": f"{PLACE}operand;role;defined;",
    "C1": f"{PLACE}(not implied|implied);",
    "C2": f"{PLACE}(operand;(bit;)?)?needs one of;",
    "E1": f"{PLACE}missing;",
    "E2": f"{PLACE}(called;|imported;|part;)",
    "Y2 Y4 Y5": f"{PLACE}condition;(operand;(defined;)?)?(type;)*(wanted;)?(found;(size;)?)?",
    "Y6": f"{PLACE}(place|parameter);(type;)?wanted;found;",
    "Y7": f"{PLACE}place;wanted;found;",
    "Y8": f"{PLACE}(place|argument);(type;)?wanted;found;",
    **{
        codes: f"{PLACE}{form}"
        for told in (TOLD, extended.TOLD, opencl_std.TOLD, standard.TOLD)
        for codes, form in told.items()
    },
    "A1 A2": f"{PLACE}operand;defined;walk;",
    "G1": f"{PLACE}calls;cycle;",
}
FORM_OF = {code: form for codes, form in FORMS.items() for code in codes.split()}
MOST_WORDS = 16


def ids_in(text):
    """The ids of a line that has nothing but ids, or None."""
    words = text.split(" ")
    return [int(it[1:]) for it in words] if all(re.fullmatch(r"%\d+", it) for it in words) else None


def length(start, goal, following):
    """How many steps a shortest way has from any of some places to one, the first and the last among them."""
    far, todo = {it: 1 for it in start}, deque(start)
    while todo:
        at = todo.popleft()
        if at == goal:
            return far[at]
        for to in following(at):
            if to not in far:
                far[to] = far[at] + 1
                todo.append(to)
    return None


class Judge(ToldOfTargets, extended.ToldOfCalls, opencl_std.ToldOfTypes, standard.ToldOfStandard):
    """The lines of one fault, in full or not. A method of the name of a key says whether a line with that key is
    true."""

    def __init__(self, facts, sentences, lines, is_full):
        self.facts, self.sentences, self.is_full = facts, sentences, is_full
        self.code = facts.broken.line.split()[1]
        self.number = facts.broken.inst
        self.pairs = [LINE.fullmatch(line) for line in lines]
        self.ill_formed = [line for line, pair in zip(lines, self.pairs) if pair is None]
        self.pairs = [(pair[1], pair[2] or "") for pair in self.pairs if pair]
        self.types_told = set()

    def one(self, key):
        """The text of the first line with a key."""
        return next((text for name, text in self.pairs if name == key), "")

    def wrong(self):
        """What is untrue, a text for each line."""
        found = [f"no line of a key and a text: {line!r}" for line in self.ill_formed]
        keys = "".join(f"{key};" for key, _ in self.pairs)
        form = FORM_OF["W" if self.code[0] == "W" else self.code]
        if not re.fullmatch(f"rule;{form}", keys):
            found.append(f"the keys are {keys}")
        for key, text in self.pairs:
            if CONTROL.search(text):
                found.append(f"a control character: {text!r}")
            judged = getattr(self, "is_" + key.replace(" ", "_"), None)
            try:
                fine = judged is not None and judged(text)
            except (LookupError, ValueError, TypeError, AttributeError) as error:
                fine, text = False, f"{text} ({type(error).__name__} {error})"
            if not fine:
                found.append(f"untrue: {key}: {text}")
        return found

    # The instruction that is told, and its place.

    @property
    def inst(self):
        return self.facts.insts[self.number]

    def is_rule(self, text):
        return text.replace("`", "") == self.sentences[self.code]

    def is_at(self, text):
        return text == self.facts.shown(self.number)

    def place(self, number):
        """The text of the function and the block that an instruction is of, None where it is of no function."""
        function, block = open_at(self.facts.insts, number)
        if function is None or function.result is None:
            return None
        within = f", block %{block.result}" if block and block.result is not None else ""
        return f"function %{function.result}{owners.name(self.facts, function.result)}{within}"

    def is_in(self, text):
        return text == self.place(self.number)

    def lacks(self):
        """What should be told and is not: where the instruction is or what is open, what imports, and types."""
        keys = [key for key, _ in self.pairs]
        found = []
        if self.code[0] not in "WI" and self.code != "L2" and "in" not in keys and self.place(self.number):
            found.append("no line in")
        if self.code == "L2" and "open" not in keys and self.place(self.number):
            found.append("no line open")
        if self.code == "L1" and "missing" not in keys and self.unended():
            found.append("no line missing")
        if "help" not in keys and self.due_help() is not None:
            found.append("no line help")
        if self.code == "E2" and "imported" not in keys and self.one("part") == "a definition is imported":
            found.append("no line imported")
        if self.code in ("Y6", "Y8") and "type" not in keys and self.signature() is not None:
            found.append("no line type")
        if self.code == "O21":
            found += self.lacks_of_version(keys)
        return found + (self.lacks_of_condition(keys) if self.code in ("Y2", "Y4", "Y5") else [])

    def lacks_of_condition(self, keys):
        """What should be told of a condition that fails: what defines the operand, its type, and where two types are
        compared both."""
        if "operand" not in keys:
            return []
        at, row = self.operand(), conditions.Row(self.facts, self.number)
        is_id, subject = self.inst.operands[at][0] in ("Id", "Type"), row.subject(at)
        shown = {self.of_line(text) for key, text in self.pairs if key in ("type", "wanted", "found")}
        if is_id and "defined" in keys:
            shown.add(self.inst.operands[at][1])
        found = ["no line defined"] if is_id and "defined" not in keys else []
        is_of_id = conditions.WORDS[self.one("condition")] in conditions.OF_IDS
        if subject is not None and subject not in shown and not is_of_id:
            found.append("no line of the operand's type")
        if conditions.compares(self.one("condition")) and not {"wanted", "found"} <= set(keys):
            found.append("no line wanted and found")
        if "size" not in keys and self.due_size() is not None:
            found.append("no line size")
        return found

    # Words and instructions.

    def is_found(self, text):
        if self.code[0] == "W":
            return self.is_found_in_header(text)
        return self.is_side(text, 1)

    def is_found_in_header(self, text):
        content = self.facts.content
        if self.code in ("W2", "W3"):
            return text == f"{len(content)} byte{'s' * (len(content) != 1)}"
        if self.code == "W8":
            return re.fullmatch(r"more than 16777216 bytes", text) is not None
        words = self.header()
        if self.code == "W4":
            return text == f"0x{words[0]:08x}"
        if self.code == "W5":
            is_version = words[1] & 0xFF0000FF == 0
            return text == (f"version {words[1] >> 16}.{words[1] >> 8 & 0xFF}" if is_version else f"0x{words[1]:08x}")
        return text == str(words[{"W6": 4, "W7": 3}[self.code]])

    def header(self):
        """The words of the header, in the order of bytes in which the first is the magic number, or else the little
        one."""
        content = self.facts.content
        order = "big" if content[:4] == b"\7\x23\2\3" else "little"
        return [int.from_bytes(content[at : at + 4], order) for at in range(0, 20, 4)]

    def is_older(self):
        """Whether the version is one of 1.0 to 1.5."""
        return self.header()[1] in range(0x00010000, 0x00010600, 0x100)

    def due_help(self):
        """What is told to help, None where nothing is."""
        front = self.facts.content[:4]
        if self.code in ("W3", "W4") and front in (b"BC\xc0\xde", b"\xde\xc0\x17\x0b"):
            return "it begins as LLVM bitcode, of which llvm-spirv makes a module"
        if self.code in ("W3", "W4") and all(it in b"\t\n\r" or 32 <= it < 127 for it in front):
            return "it begins as a text, of which spv asm makes a module"
        if self.code == "W5" and self.is_older():
            return "--as-1.6 reads it as a module of version 1.6"
        return None

    def is_help(self, text):
        return text == self.due_help()

    def span(self):
        """The places of the words of the instruction that is told, as many as its first word counts: one at least."""
        words, at = self.facts.words, self.facts.place_of(self.number)
        return range(at, min(at + max(1, words[at] >> 16), len(words)))

    def is_words(self, text):
        span, told = self.span(), text.split(" ")
        before, behind = told[0] == "..", told[-1] == ".."
        told = told[before : len(told) - behind]
        whole = [f"{self.facts.words[at]:08x}" for at in span]
        if len(whole) <= MOST_WORDS:
            return told == whole and not before and not behind
        failing = min(self.facts.broken.word - span[0], len(whole) - 1)
        return any(
            told == whole[at : at + MOST_WORDS]
            and before == (at > 0)
            and behind == (at + MOST_WORDS < len(whole))
            and at <= failing < at + MOST_WORDS
            for at in range(len(whole) - MOST_WORDS + 1)
        )

    def is_opcode(self, text):
        if self.code == "O21" and not self.lacks_opcode():
            return False
        opcode = self.facts.words[self.facts.place_of(self.number)] & 0xFFFF
        entry = self.facts.grammar.entries.get(opcode)
        return text == (f"{opcode} {visible(entry['opname'])}" if entry else str(opcode))

    def is_word(self, text):
        at, words = self.facts.broken.word, self.facts.words
        value = f", 0x{words[at]:08x}" if at < len(words) else ""
        return text == f"{at - self.facts.place_of(self.number)}{value}"

    def is_due(self, text):
        return text == visible(self.facts.broken.due)

    # Shapes and layout.

    def is_row(self, text):
        return text == row_text(self.inst.opcode, self.facts.profile)

    def state(self):
        """The state of the layout before the instruction that is told."""
        state = BEGIN
        for inst in self.facts.insts[: self.number]:
            state = after(state, inst.opcode, self.facts.profile)
        return state

    def is_may_come(self, text):
        state, entries = self.state(), self.facts.grammar.entries
        come, end = may_come(state, self.facts.profile), ["end of module"] * may_end(state)
        if len(come) > MOST_NAMES and not self.is_full:
            return text == "; ".join([*kinds_of(come), *end])
        return text == " ".join([*(visible(entries[it]["opname"]) for it in come if it in entries), *end])

    def unended(self):
        """What is open before the instruction, and has to end first; None where there is none."""
        before = self.facts.insts[: self.number]
        function, block = open_at(before, len(before))
        if block is not None and self.inst.opcode in (FUNCTION, FUNCTION_END, LABEL):
            return f"the end of block %{block.result}"
        if block is None and function is not None and self.inst.opcode == FUNCTION:
            return f"the end of function %{function.result}"
        return None

    def is_open(self, text):
        return text == self.place(self.number)

    # Operands.

    def operand(self):
        """The number of the operand that is told."""
        return int(self.one("operand").split(" ")[0])

    def used(self):
        """The id of the operand that is told, and its role."""
        return self.facts.uses(self.number)[self.operand()]

    def is_operand(self, text):
        at, _, rest = text.partition(" ")
        at = int(at)
        if self.code[0] == "I":
            return at == self.facts.broken.operand and not rest
        return rest in self.told(at) and self.is_at_fault(at)

    def told(self, at):
        """The texts that an operand may have: a value by its name, plain or not, and a mask by its number or its
        names."""
        sort, *what = self.inst.operands[at]
        if sort in ("Text", "Number"):
            return [""]
        names = [visible(self.named(what[0], it)) for it in what[1:]] if sort == "Value" else []
        if sort == "Mask":
            names = [str(what[1]), "|".join(visible(self.named(what[0], it)) for it in bits_of(what[1]))]
        return names or [self.facts.text.operand(self.number, at)]

    def named(self, kind, value):
        """The name of a value of a kind or of a bit, plain or not, or its number where it has none."""
        known = self.facts.grammar.enumerants[kind].get(value)
        return known["enumerant"] if known else str(value)

    def is_at_fault(self, at):
        """Whether the rule fails at an operand."""
        judged = getattr(self, f"fails_{self.code}", None)
        return judged is None or judged(at)

    def fails_D1(self, at):
        sort, of = self.inst.operands[at][:2]
        return (sort == "Result" or at in self.facts.named(self.number)) and not 1 <= of < self.facts.bound

    def fails_D3(self, at):
        return self.facts.named(self.number)[at] not in self.facts.first

    def fails_D4(self, at):
        facts, of = self.facts, self.facts.uses(self.number)[at][0]
        named = {it.operands[0][1] for it in facts.insts[: self.number] if it.opcode == 39}
        is_ahead = facts.places.section[self.number] == 10 and (
            self.inst.opcode == 39 or self.inst.opcode == 30 and of in named
        )
        return facts.places.section[self.number] in (6, 10) and facts.first[of] >= self.number and not is_ahead

    def fails_D5(self, at):
        places, of = self.facts.places, self.facts.uses(self.number)[at][0]
        functions = self.facts.local[of]
        return places.section[self.number] >= 10 and functions and places.function[self.number] not in functions

    def fails_Y1(self, at):
        of, role = self.facts.uses(self.number)[at]
        return not plays(self.facts.types, role, of)

    def fails_M1(self, at):
        return self.inst.operands[at][2] not in ((1, 2), (2,))[at]

    def fails_A1(self, at):
        return self.is_local_value(self.facts.uses(self.number)[at][0])

    def fails_A2(self, at):
        of, role = self.facts.uses(self.number)[at]
        return role == "value" and self.is_local_value(of)

    def is_local_value(self, of):
        """Whether an id is local to a function, and the result of an instruction with a result type."""
        return bool(self.facts.local[of]) and self.facts.definition(of).type is not None

    def numbered(self, text):
        """The number of the instruction of a line `inst N, TEXT`, None where its text is another."""
        found = re.fullmatch(r"inst (\d+), (.*)", text)
        number = int(found[1]) if found else None
        return number if found and found[2] == self.facts.shown(number) else None

    def is_defined(self, text):
        number = self.numbered(text)
        if number is None:
            return False
        if self.code == "O4":
            return self.is_lacking(number)
        of = self.inst.operands[self.operand()][1]
        if self.facts.insts[number].result != of:
            return False
        if self.code == "D4":
            return number >= self.number
        judged = getattr(self, f"defines_{self.code}", None)
        return judged(number, of) if judged else self.code == "D5" or number == self.facts.first[of]

    def is_local_to(self, text):
        number = self.numbered(self.one("defined"))
        function = self.facts.places.function[number]
        is_inside = function is not None and self.facts.insts[number].opcode not in (54, 56)
        return is_inside and text == f"%{self.facts.insts[function].result}"

    def is_role(self, text):
        return text == self.used()[1]

    def is_bound(self, text):
        return text == str(self.facts.bound)

    def is_earlier(self, text):
        number = self.numbered(text)
        if self.code[0] == "O":
            return number is not None and self.speaks_against(number)
        if number is None or number >= self.number:
            return False
        other = self.facts.insts[number]
        if self.code == "D2":
            return other.result == self.inst.result
        is_alike = other.opcode == self.inst.opcode and other.operands[1:] == self.inst.operands[1:]
        return self.inst.opcode in UNLIKE and is_alike

    # Capabilities and entry points.

    def capability(self, number):
        """The name of a capability, or its number where the grammar has none."""
        known = self.facts.grammar.enumerants.get("Capability", {}).get(number)
        return visible(known["enumerant"]) if known else str(number)

    def is_not_implied(self, text):
        return text == self.capability(6) and 6 not in self.facts.types.implied

    def is_implied(self, text):
        number = standard.IMPLIED.get(self.code, 1)
        return text == self.capability(number) and number in self.facts.types.implied

    def listed(self):
        """The names that what needs a capability lists."""
        grammar = self.facts.grammar
        if not self.one("operand"):
            return grammar.entries[self.inst.opcode].get("capabilities", ())
        operand = self.inst.operands[self.operand()]
        if operand[0] not in ("Value", "Mask") or operand[1] == "Capability":
            return ()
        sort, kind, value = operand
        return grammar.enumerants[kind][self.bit() if sort == "Mask" else value].get("capabilities", ())

    def bit(self):
        """The bit of the mask that is told, by its value."""
        _, kind, value = self.inst.operands[self.operand()]
        names = {visible(self.named(kind, it)): it for it in bits_of(value)}
        return names[self.one("bit")]

    def is_bit(self, text):
        return self.inst.operands[self.operand()][0] == "Mask" and text and self.bit() > 0

    def is_needs_one_of(self, text):
        if self.code == "O21":
            return self.are_extensions(text)
        types, listed = self.facts.types, self.listed()
        if listed and not types.is_covered(listed):
            return text == " ".join(map(visible, listed))
        lacking = next((it for it in objects.needed(self.inst) if it not in types.implied), None)
        if lacking is not None:
            place = self.operand() if self.one("operand") else None
            return place == objects.NEEDED_AT[lacking] and text == self.capability(lacking)
        needed = NEEDED.get((self.inst.opcode, self.inst.operands[1][1]), ()) if self.inst.opcode in (21, 22) else ()
        if self.inst.opcode == VECTOR and self.inst.operands[2][1] in (8, 16):
            needed = (7,)
        if not needed or not self.one("operand") or self.operand() != (2 if self.inst.opcode == VECTOR else 1):
            return False
        return text == " ".join(map(self.capability, needed)) and not set(needed) & types.implied

    def is_most(self, text):
        return self.is_limit(text) if self.code == "O22" else super().is_most(text)

    def is_missing(self, text):
        if self.code == "L1":
            return text == self.unended()
        entries = [it for it in self.facts.insts if it.opcode == 15]
        return text == "OpEntryPoint" and not entries and 5 not in self.facts.types.implied

    def imports(self):
        """The numbers of the instructions that import the function."""
        imports = [(at, it) for at, it in enumerate(self.facts.insts) if it.opcode == 71 and is_import(it)]
        return [at for at, it in imports if it.operands[0][1] == self.inst.result]

    def is_part(self, text):
        types, inst = self.facts.types, self.inst
        if inst.opcode in (16, 331):
            entries = [it.operands[1][1] for it in self.facts.insts if it.opcode == 15]
            return text == "the function is that of no OpEntryPoint" and inst.operands[0][1] not in entries
        if inst.opcode == 54:
            is_body = is_defined(types, self.number)
            return text == {True: "a definition is imported", False: "a declaration is not imported"}[is_body] and (
                bool(self.imports()) == is_body
            )
        at = self.facts.first[inst.operands[1][1]]
        return {
            "the execution model is not Kernel": inst.operands[0][2] != 6,
            "the function is a declaration": not is_defined(types, at),
            "the function does not return void": types.form(self.facts.insts[at].type) != VOID,
        }[text]

    def is_imported(self, text):
        is_definition = self.inst.opcode == 54 and is_defined(self.facts.types, self.number)
        return is_definition and self.numbered(text) in self.imports()

    def is_called(self, text):
        number = self.numbered(text)
        call = self.facts.insts[number]
        return self.inst.opcode == 15 and call.opcode == CALL and call.operands[2][1] == self.inst.operands[1][1]

    # Types.

    def is_condition(self, text):
        at = self.operand() if self.one("operand") else None
        return conditions.fails(self.facts, self.number, text, at, self.of_line(self.one("wanted")))

    def of_line(self, text):
        """The id of a line that shows a definition, or begins with an id alone; None where it is neither."""
        found = re.match(r"%(\d+)( = |, |$)", text)
        return int(found[1]) if found else None

    def behind(self, text):
        """The id of a line that shows a type, and what stands behind its definition or the id; none where it is no
        definition."""
        of = self.of_line(text)
        full = None if of is None or of not in self.facts.first else self.facts.shown(self.facts.first[of])
        for front in (full, f"%{of}"):
            if front is not None and text.startswith(front) and self.is_definition(front):
                return of, text[len(front) :]
        return None, None

    def is_read(self, text):
        """Whether a line shows a type that a condition reads, and whose it is: of operands, or a part of one that was
        told."""
        told = set(self.types_told)
        of, whose = self.behind(text)
        if of is None or of not in conditions.types_at(self.facts, self.number):
            return False
        found = owners.places(self.facts, self.number, of)
        if found:
            return whose == owners.owners(self.facts, self.number, found)
        return whose == owners.ABOVE and any(of in self.facts.types.rest(it) for it in told)

    def is_compared(self, text, at):
        """Whether a line shows a type that is compared, and whose it is: what is wanted of other operands than the one
        at which the condition fails, what is found of that one."""
        of, whose = self.behind(text)
        operand = self.operand() if self.one("operand") else None
        found = [it for it in owners.places(self.facts, self.number, of) if (it == operand) == (at == 1)]
        return of is not None and whose == owners.owners(self.facts, self.number, found)

    def due_size(self):
        """How many parts the type has that is found, None where that is not told."""
        name = conditions.WORDS[self.one("condition")]
        return owners.size(self.facts, self.of_line(self.one("found"))) if name in owners.SIZED else None

    def is_size(self, text):
        return text == str(self.due_size())

    def is_definition(self, text):
        """Whether a line shows the definition of its id, or of an id whose definition was told is that id."""
        of = self.of_line(text)
        if of is None or of not in self.facts.first:
            return False
        is_told, full = of in self.types_told, self.facts.shown(self.facts.first[of])
        self.types_told.add(of)
        return text == full or is_told and text == f"%{of}"

    def is_type(self, text):
        if self.code in ("Y6", "Y8"):
            return self.is_definition(text) and self.of_line(text) == self.asked()
        return self.is_read(text)

    def asked(self):
        """The id that is asked as the type of a function."""
        if self.inst.opcode == 57:
            return self.facts.types.definition(self.inst.operands[2][1]).operands[-1][1]
        return self.facts.insts[self.facts.places.function[self.number]].operands[-1][1]

    def signature(self):
        """The id of the OpTypeFunction that is asked, None where it is none."""
        of = self.asked()
        return of if self.facts.types.form(of) == 33 else None

    def sides(self):
        """What is wanted and what is found at the place that is told: ids, or texts."""
        types, inst, signature = self.facts.types, self.inst, self.signature()
        place = self.one("place")
        if self.code == "Y7":
            function = self.facts.insts[self.facts.places.function[self.number]]
            given = types.type_of(inst.operands[0][1]) if inst.opcode == 254 else "nothing"
            return (function.type, given) if place == "return type" else (None, None)
        if signature is None:
            of = inst if inst.opcode == 54 else types.definition(inst.operands[2][1])
            return ("nothing", of.operands[-1][1]) if place == "function type" else (None, None)
        returned, *parameters = types.rest(signature)
        if inst.opcode == 55:
            number = parameters_of(types, self.facts.places.function[self.number]).index(self.number)
            if self.one("parameter") != str(number):
                return None, None
            return (parameters[number] if number < len(parameters) else "nothing"), inst.type
        given = [types.type_of(it[1]) for it in inst.operands[3:]]
        count = len(given) if inst.opcode == 57 else len(parameters_of(types, self.number))
        if place == "return type":
            return returned, inst.type
        if place == "number of parameters or arguments":
            return str(len(parameters)), str(count)
        argument = int(self.one("argument"))
        return parameters[argument], given[argument]

    def is_side(self, text, at):
        if self.code in ("Y2", "Y4", "Y5"):
            return self.is_compared(text, at)
        wanted = self.sides()
        if wanted[0] == wanted[1]:
            return False
        if isinstance(wanted[at], str):
            return text == wanted[at]
        return self.is_definition(text) and self.of_line(text) == wanted[at]

    def is_wanted(self, text):
        return self.is_side(text, 0)

    def is_place(self, text):
        return text in ("function type", "return type", "number of parameters or arguments")

    def is_parameter(self, text):
        return self.inst.opcode == 55 and text.isdigit()

    def is_argument(self, text):
        return self.inst.opcode == 57 and text.isdigit()

    # Values on walks.

    def is_walk(self, text):
        steps, (body, label) = ids_in(text), self.facts.body_of(self.number)
        at, insts = self.operand(), self.facts.insts
        of, is_phi = self.inst.operands[at][1], self.code == "A2"
        goal = self.inst.operands[at + 1][1] if is_phi else label
        if is_phi and (steps.pop() != label or steps[-1:] != [goal]):
            return False

        def makes(block):
            return any(insts[it].result == of for it in body.blocks[block])

        def following(block):
            return [] if makes(block) else body.leads[block]

        if of in body.parameters or not steps or steps[0] != body.entry or steps[-1] != goal:
            return False
        if any(to not in following(block) for block, to in zip(steps, steps[1:])):
            return False
        before = [it for it in body.blocks[goal] if is_phi or it < self.number]
        if any(insts[it].result == of for it in before):
            return False
        return len(steps) == length([body.entry], goal, following)

    # Calls.

    def callees(self):
        """Of each definition the definitions that it calls."""
        insts, found = self.facts.insts, {}
        known = self.facts.bodies
        defined = {insts[body.first].result for body in known}
        for body in known:
            calls = [insts[at] for numbers in body.blocks.values() for at in numbers if insts[at].opcode == CALL]
            found[insts[body.first].result] = {it.operands[2][1] for it in calls} & defined
        return found

    def is_chain(self, steps, starts, goal):
        """Whether each calls the next, from one of some to one, in as few steps as may be."""
        calls = self.callees()
        leads = all(to in calls[at] for at, to in zip(steps, steps[1:]))
        is_whole = bool(steps) and steps[0] in starts and steps[-1] == goal
        return leads and is_whole and len(steps) == length(sorted(starts & set(calls)), goal, calls.__getitem__)

    def caller(self):
        return self.facts.insts[self.facts.places.function[self.number]].result

    def is_calls(self, text):
        if self.code == "O4":
            return self.is_chain(ids_in(text), *self.ends_of_calls())
        starts = {it.operands[1][1] for it in self.facts.insts if it.opcode == 15}
        return self.is_chain(ids_in(text), starts, self.caller())

    def is_cycle(self, text):
        first, *steps = ids_in(text)
        callee = self.inst.operands[2][1]
        return first == self.caller() and self.is_chain(steps, {callee}, first)


def judged(grammar, sentences, content, lines, is_full=False, profile=Profile.OWN):
    """What is untrue in the lines that `explain` writes of a module, in full or not, by how far it is looked at, and
    its facts."""
    facts = Facts(grammar, content, profile)
    verdict = facts.broken.line if facts.broken else "valid"
    if lines[:1] != [verdict]:
        return facts, [], [f"{lines[:1]}, and not {verdict}"]
    if facts.broken is None:
        return facts, [], [f"a line after valid: {line!r}" for line in lines[1:]]
    judge = Judge(facts, sentences, lines[1:], is_full)
    return facts, [f"{judge.code} {key}" for key, _ in judge.pairs], judge.wrong() or judge.lacks()
