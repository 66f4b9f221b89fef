"""Checks, explains, shows and assembles SPIR-V 1.6 kernel modules, by the proved library spvk.

    import spvk

    grammar = spvk.Grammar()
    with open("kernel.spv", "rb") as file:
        module = file.read()
    verdict = grammar.check(module, opencl=True)
    if verdict:
        load(module)
    else:
        print(verdict, verdict.sentence)

A grammar is made once, the built-in one of SPIR-V 1.6 or that of a grammar file, and then answers about
any number of modules, also from several threads at the same time: the calls run without Python's global
lock. It is freed with its last reference. `opencl` accepts all that compilers make of OpenCL C; without it only
the profile of SPIR-V 1.6 is accepted. `extended` checks extended instructions too: set it for untrusted modules.

The shared library is the file that SPVK_LIBRARY names in the environment, or else libspvk.so.1 beside this
file, as in the wheel, or where the system finds it. Python 3.8 or later, and nothing else.
"""

import ctypes
import json
import os
from dataclasses import dataclass, field, fields
from typing import Any, Callable, Dict, List, Mapping, NamedTuple, Optional, Tuple, Union

__all__ = [
    "Error",
    "Evidence",
    "Explanation",
    "FailingWord",
    "Grammar",
    "GrammarError",
    "Id",
    "Instruction",
    "ModuleFault",
    "NamedNumber",
    "NotText",
    "Operand",
    "OutOfMemory",
    "TextFault",
    "Thing",
    "Verdict",
    "Words",
    "rule_name",
    "rule_sentence",
    "version",
]

__version__ = "1.2.0"

_FILE = "libspvk.so.1"
_OK, _MEMORY, _NOT_TEXT, _J1 = 0, 1, 4, 101
_VALID, _ASSEMBLED, _S1 = 0, 0, 1201
_NOWHERE = 0xFFFFFFFF
_AS_1_6, _EXTENDED, _OPENCL = 1, 2, 4


class Error(Exception):
    """A call was refused, or a module or a text has a fault."""


class OutOfMemory(Error, MemoryError):
    """There was no memory. The same call may succeed later."""


class GrammarError(Error, ValueError):
    """A grammar file is refused. `code` is the first code that it breaks, "J1" to "J7" (docs/PROFILE.md).

    `lines` says where, what stands there and what is wanted, in the lines `at: ..`, `found: ..` and
    `wanted: ..` that `spv --verbose` writes. It is empty where there was no memory to tell it.
    """

    def __init__(self, code: str, lines: str = "") -> None:
        super().__init__(f"the grammar file is refused: {code}")
        self.code = code
        self.lines = lines


class NotText(Error, ValueError):
    """What is to be assembled is no UTF-8."""


class ModuleFault(Error):
    """A module has no text: its bytes are no list of instructions. `verdict` has the rule of W or I."""

    def __init__(self, verdict: "Verdict") -> None:
        super().__init__(str(verdict))
        self.verdict = verdict


class TextFault(Error):
    """A text stands for no module. `code` is its first fault, "S1" to "S5", and `line` its line, from 1."""

    def __init__(self, code: str, line: int) -> None:
        super().__init__(f"fault {code} line {line}")
        self.code = code
        self.line = line


@dataclass(frozen=True)
class Verdict:
    """The verdict on a module. As a text it is the line of `spv check`; it is true where the module is valid.

    `number` is 0 for a valid module, else the number of the first rule that the module breaks, as in
    the header spvk.h. `inst` is the number of the instruction, from 0, and `word` that of the word in
    the whole module, which stands at byte 4 * word; both are None where the module is valid, and where
    its bytes are no words of a module (W2 to W8).
    """

    number: int
    inst: Optional[int]
    word: Optional[int]

    @property
    def is_valid(self) -> bool:
        """Whether the module breaks no rule."""
        return self.number == _VALID

    def __bool__(self) -> bool:
        return self.is_valid

    @property
    def code(self) -> Optional[str]:
        """The name of the broken rule, as "I7", or None for a valid module."""
        return rule_name(self.number)

    @property
    def sentence(self) -> Optional[str]:
        """What the broken rule says, or None for a valid module."""
        return rule_sentence(self.number)

    def __str__(self) -> str:
        if self.is_valid:
            return "valid"
        place = "" if self.inst is None else f" inst {self.inst} word {self.word}"
        return f"fault {self.code}{place}"


class Explanation(NamedTuple):
    """A verdict, and the lines of `spv explain`: its own, and after that of a fault those that explain it.

    It is true where the verdict is: where the module is valid.
    """

    verdict: Verdict
    text: str

    def __bool__(self) -> bool:
        return self.verdict.is_valid


@dataclass(frozen=True)
class Instruction:
    """An instruction of a module: its number, from 0, and its line as `spv show` writes it."""

    inst: int
    text: str
    operands: Tuple[int, ...] = ()


@dataclass(frozen=True)
class Id:
    """An id; of a type that a condition speaks of, also the numbers of the operands that are of it."""

    id: int
    operands: Tuple[int, ...] = ()


@dataclass(frozen=True)
class Operand:
    """An operand: its number in the instruction, from 0, and its id, or else its number, with a name if it has one."""

    index: int
    id: Optional[int] = None
    number: Optional[int] = None
    name: Optional[str] = None


@dataclass(frozen=True)
class NamedNumber:
    """A number, as an opcode or a bit, and its name in the grammar, if it has one."""

    value: int
    name: Optional[str] = None


@dataclass(frozen=True)
class FailingWord:
    """The word of an instruction at which it is malformed: its number, from 0, and its value, if it is there."""

    index: int
    value: Optional[int] = None


@dataclass(frozen=True)
class Words:
    """Words of an instruction, and whether there are more before them and after them."""

    before: bool
    values: Tuple[int, ...]
    after: bool


# A type, or what is wanted or found: nothing, a number, words for people, an instruction, or an id alone.
Thing = Union[None, int, str, Instruction, Id]


@dataclass(frozen=True)
class Evidence:
    """A verdict, and what shows the fault: what the lines of `spv explain` say, as values.

    Each member is None, or empty, where it is not told of the rule. docs/explain.schema.json describes them by
    their names in JSON, as `mayComeNext` for `may_come_next`. `members` is the JSON object itself: there stands
    also what a later version of the library may add. It is true where the module is valid.
    """

    verdict: Verdict
    members: Mapping[str, Any] = field(repr=False, hash=False)
    rule: Optional[str] = None
    section: Optional[str] = None
    profile: Optional[str] = None
    at: Optional[Instruction] = None
    function: Optional[int] = None
    function_name: Optional[str] = None
    block: Optional[int] = None
    words: Optional[Words] = None
    failing_word: Optional[FailingWord] = None
    opcode: Optional[NamedNumber] = None
    row: Optional[str] = None
    may_come_next: Tuple[str, ...] = ()
    may_end: bool = False
    missing: Optional[str] = None
    operand: Optional[Operand] = None
    due: Optional[str] = None
    bound: Optional[int] = None
    defined: Optional[Instruction] = None
    local_to: Optional[int] = None
    role: Optional[str] = None
    earlier: Optional[Instruction] = None
    implied: Optional[str] = None
    not_implied: Optional[str] = None
    bit: Optional[NamedNumber] = None
    needs_one_of: Tuple[str, ...] = ()
    part: Optional[str] = None
    called: Optional[Instruction] = None
    imported: Optional[Instruction] = None
    condition: Optional[str] = None
    types: Tuple[Thing, ...] = ()
    place: Optional[str] = None
    parameter: Optional[int] = None
    argument: Optional[int] = None
    wanted: Thing = None
    found: Thing = None
    size: Optional[int] = None
    help: Optional[str] = None
    missing_parent: Optional[int] = None
    no_predecessor: Optional[Operand] = None
    twice: Optional[Operand] = None
    predecessors: Tuple[int, ...] = ()
    walk: Tuple[int, ...] = ()
    calls: Tuple[int, ...] = ()
    cycle: Tuple[int, ...] = ()
    number: Optional[int] = None
    operands: Optional[int] = None
    least: Optional[int] = None
    most: Optional[int] = None
    other_operand: Optional[Operand] = None
    on_the_way: Optional[int] = None
    given: Optional[Instruction] = None
    used_by: Optional[Instruction] = None
    since: Optional[str] = None

    def __bool__(self) -> bool:
        return self.verdict.is_valid


def _same(it: Any) -> Any:
    """A number, a text or a truth of JSON."""
    return it


def _frozen(it: Any) -> Any:
    """A value of JSON, a list as a tuple."""
    return tuple(it) if isinstance(it, list) else it


def _made_of(kind: Any) -> Callable[[Any], Any]:
    """What makes a value of a JSON object; members for which it has no field are left out."""
    names = {it.name for it in fields(kind)}
    return lambda it: kind(**{name: _frozen(value) for name, value in it.items() if name in names})


_instruction, _id = _made_of(Instruction), _made_of(Id)


def _thing(it: Any) -> Thing:
    """A thing of JSON."""
    if not isinstance(it, dict):
        return it if isinstance(it, (int, str)) else None
    thing: Thing = _instruction(it) if "text" in it else _id(it)
    return thing


def _things(them: List[Any]) -> Tuple[Thing, ...]:
    """Things of JSON."""
    return tuple(map(_thing, them))


def _words(it: Dict[str, Any]) -> Words:
    """Words of JSON."""
    return Words(it["before"], tuple(it["values"]), it["after"])


# The members of the object of an explanation: what they are called in Python, and what makes their values.
_MEMBERS: Dict[str, Tuple[str, Callable[[Any], Any]]] = {
    "rule": ("rule", _same),
    "section": ("section", _same),
    "profile": ("profile", _same),
    "at": ("at", _instruction),
    "function": ("function", _same),
    "functionName": ("function_name", _same),
    "block": ("block", _same),
    "words": ("words", _words),
    "failingWord": ("failing_word", _made_of(FailingWord)),
    "opcode": ("opcode", _made_of(NamedNumber)),
    "row": ("row", _same),
    "mayComeNext": ("may_come_next", tuple),
    "mayEnd": ("may_end", _same),
    "missing": ("missing", _same),
    "operand": ("operand", _made_of(Operand)),
    "due": ("due", _same),
    "bound": ("bound", _same),
    "defined": ("defined", _instruction),
    "localTo": ("local_to", _same),
    "role": ("role", _same),
    "earlier": ("earlier", _instruction),
    "implied": ("implied", _same),
    "notImplied": ("not_implied", _same),
    "bit": ("bit", _made_of(NamedNumber)),
    "needsOneOf": ("needs_one_of", tuple),
    "part": ("part", _same),
    "called": ("called", _instruction),
    "imported": ("imported", _instruction),
    "condition": ("condition", _same),
    "types": ("types", _things),
    "place": ("place", _same),
    "parameter": ("parameter", _same),
    "argument": ("argument", _same),
    "wanted": ("wanted", _thing),
    "found": ("found", _thing),
    "size": ("size", _same),
    "help": ("help", _same),
    "missingParent": ("missing_parent", _same),
    "noPredecessor": ("no_predecessor", _made_of(Operand)),
    "twice": ("twice", _made_of(Operand)),
    "predecessors": ("predecessors", tuple),
    "walk": ("walk", tuple),
    "calls": ("calls", tuple),
    "cycle": ("cycle", tuple),
    "number": ("number", _same),
    "operands": ("operands", _same),
    "least": ("least", _same),
    "most": ("most", _same),
    "otherOperand": ("other_operand", _made_of(Operand)),
    "onTheWay": ("on_the_way", _same),
    "given": ("given", _instruction),
    "usedBy": ("used_by", _instruction),
    "since": ("since", _same),
}


def _evidence(verdict: Verdict, text: str) -> Evidence:
    """What an object of JSON tells of a verdict."""
    members = json.loads(text)
    told = {name: make(members[key]) for key, (name, make) in _MEMBERS.items() if key in members}
    return Evidence(verdict, members, **told)


class _Grammar(ctypes.Structure):
    _fields_ = [("held", ctypes.c_void_p)]


class _Answer(ctypes.Structure):
    _fields_ = [
        ("status", ctypes.c_uint32),
        ("code", ctypes.c_uint32),
        ("inst", ctypes.c_uint32),
        ("word", ctypes.c_uint32),
    ]


class _Buffer(ctypes.Structure):
    _fields_ = [("data", ctypes.c_void_p), ("size", ctypes.c_size_t), ("held", ctypes.c_void_p)]


class _Text(ctypes.Structure):
    _fields_ = [
        ("code", ctypes.c_uint32),
        ("inst", ctypes.c_uint32),
        ("word", ctypes.c_uint32),
        ("buffer", _Buffer),
    ]


class _Image(ctypes.Structure):
    _fields_ = [("code", ctypes.c_uint32), ("line", ctypes.c_uint32), ("buffer", _Buffer)]


def _library() -> ctypes.CDLL:
    """The shared library, with what its calls take and answer."""
    beside = os.path.join(os.path.dirname(os.path.abspath(__file__)), _FILE)
    named = os.environ.get("SPVK_LIBRARY")
    try:
        found = ctypes.CDLL(named or (beside if os.path.exists(beside) else _FILE))
    except OSError as error:
        what = "the file that SPVK_LIBRARY names in the environment" if named else f"the shared library {_FILE}"
        advice = "" if named else ": SPVK_LIBRARY in the environment may name its file"
        raise OSError(f"{what} is not loaded ({error}){advice}") from None
    to = ctypes.POINTER
    given = [ctypes.c_char_p, ctypes.c_size_t]
    asked = [ctypes.c_void_p, *given]
    calls = {
        "grammar_new": (ctypes.c_uint32, [*given, to(_Grammar)]),
        "grammar_default": (ctypes.c_uint32, [to(_Grammar)]),
        "grammar_delete": (None, [to(_Grammar)]),
        "grammar_explain": (ctypes.c_uint32, [*given, to(_Buffer)]),
        "check_with": (_Answer, [*asked, ctypes.c_uint32]),
        "explain_with": (ctypes.c_uint32, [*asked, ctypes.c_uint32, to(_Text)]),
        "explain_json_with": (ctypes.c_uint32, [*asked, ctypes.c_uint32, to(_Text)]),
        "show": (ctypes.c_uint32, [*asked, to(_Text)]),
        "show_as_1_6": (ctypes.c_uint32, [*asked, to(_Text)]),
        "show_opencl": (ctypes.c_uint32, [*asked, to(_Text)]),
        "assemble_little": (ctypes.c_uint32, [*asked, to(_Image)]),
        "assemble_big": (ctypes.c_uint32, [*asked, to(_Image)]),
        "buffer_delete": (None, [to(_Buffer)]),
        "rule_name": (ctypes.c_bool, [ctypes.c_uint32, to(ctypes.c_char_p)]),
        "rule_sentence": (ctypes.c_bool, [ctypes.c_uint32, to(ctypes.c_char_p)]),
        "version": (None, [to(ctypes.c_char_p)]),
    }
    for name, (answer, words) in calls.items():
        call = getattr(found, f"spvk_raw_{name}")
        call.restype, call.argtypes = answer, words
    return found


_C = _library()


def _static_text(call: Callable[..., bool], number: int) -> Optional[str]:
    """A text that the library has for a number, or None."""
    text = ctypes.c_char_p()
    is_there = 0 <= number <= _NOWHERE and call(number, ctypes.byref(text))
    return text.value.decode() if is_there and text.value is not None else None


def rule_name(number: int) -> Optional[str]:
    """The name of the rule with this number, as "I7" for 107, or None where there is none."""
    return _static_text(_C.spvk_raw_rule_name, number)


def rule_sentence(number: int) -> Optional[str]:
    """What the rule with this number says, or None where there is none."""
    return _static_text(_C.spvk_raw_rule_sentence, number)


def version() -> str:
    """The version of the library."""
    text = ctypes.c_char_p()
    _C.spvk_raw_version(ctypes.byref(text))
    return (text.value or b"").decode()


def _done(status: int) -> None:
    """Raises what a status stands for, if it is not that of a call that answered."""
    if status == _OK:
        return
    if status == _MEMORY:
        raise OutOfMemory("there was no memory")
    if status == _NOT_TEXT:
        raise NotText("the text is no UTF-8")
    if status >= _J1:
        raise GrammarError(f"J{status - _J1 + 1}")
    raise Error(f"status {status}")


def _verdict(it: Union[_Answer, _Text]) -> Verdict:
    """A verdict as Python has it."""
    inst, word = (None if number == _NOWHERE else number for number in (it.inst, it.word))
    return Verdict(it.code, inst, word)


def _held_by(buffer: _Buffer) -> bytes:
    """A copy of the bytes of a buffer."""
    return ctypes.string_at(buffer.data, buffer.size) if buffer.size else b""


def _flags(as_1_6: bool, extended: bool, opencl: bool) -> int:
    """The flags of the library."""
    if as_1_6 and opencl:
        raise ValueError("as_1_6 and opencl do not go together")
    return (_AS_1_6 if as_1_6 else 0) | (_EXTENDED if extended else 0) | (_OPENCL if opencl else 0)


def _made(
    call: Callable[..., int], held: "_Held", given: bytes, answer: Union[_Text, _Image], *flags: int
) -> bytes:
    """Makes a call that puts bytes into a buffer, and takes them out of it."""
    try:
        _done(call(held.grammar.held, given, len(given), *flags, ctypes.byref(answer)))
        return _held_by(answer.buffer)
    finally:
        _C.spvk_raw_buffer_delete(ctypes.byref(answer.buffer))


def _lines_of(text: bytes) -> str:
    """Why the text of a grammar file is refused; nothing where there is no memory to tell it."""
    buffer = _Buffer()
    try:
        status = _C.spvk_raw_grammar_explain(text, len(text), ctypes.byref(buffer))
        return _held_by(buffer).decode() if status == _OK else ""
    finally:
        _C.spvk_raw_buffer_delete(ctypes.byref(buffer))


class _Held:
    """A grammar of the library, which is let go with its last reference. So no call can lose it while it runs."""

    def __init__(self, text: Optional[bytes]) -> None:
        self.grammar = _Grammar()
        made = ctypes.byref(self.grammar)
        if text is None:
            _done(_C.spvk_raw_grammar_default(made))
            return
        try:
            _done(_C.spvk_raw_grammar_new(text, len(text), made))
        except GrammarError as error:
            raise GrammarError(error.code, _lines_of(text)) from None

    # (At the end of the process the module's names may be gone first: so they are parameters.)
    def __del__(self, delete: Any = _C.spvk_raw_grammar_delete, byref: Any = ctypes.byref) -> None:
        delete(byref(self.grammar))


def _octets(given: Union[bytes, bytearray, memoryview]) -> bytes:
    """The bytes of what holds bytes."""
    return given if isinstance(given, bytes) else memoryview(given).tobytes()


# The call that shows a module, by the flag that is set.
_SHOW = {0: _C.spvk_raw_show, _AS_1_6: _C.spvk_raw_show_as_1_6, _OPENCL: _C.spvk_raw_show_opencl}


class Grammar:
    """The table of a grammar file, in the form of Khronos' spirv.core.grammar.json; without one the built-in table.

    Raises GrammarError where the file is refused, and OutOfMemory. Each call below may raise
    OutOfMemory as well, and none changes the grammar.

    By `as_1_6` a module is read as one of version 1.6: where its bytes begin with the magic number, in
    either byte order, and a version from 1.0 to 1.6, version 1.6 stands in its place, and what is read is
    judged by the rules of 1.6. A module of another version breaks W5, and so does one of any version but
    1.6 without `as_1_6`.

    By `extended` extended instructions are looked at whole, also behind their number, as loaders that follow
    the ids there need it. Of the set `OpenCL.std` an id there is used as a value (D1, D3, D5, Y1, A1),
    and Y9 is broken where the set has no instruction of that number, or has one that takes fewer or more
    operands; of any other set each id is below the bound and defined (D1, D3), and nothing else is asked.

    By `opencl` a module is taken for what a kernel of OpenCL can be, of version 1.0 to 1.6: beside the instructions of
    the profile there are more, as those of images, events, pipes and groups, OpExtInst may stand outside blocks, and
    extended instructions are looked at as by `extended`; and Y10 is broken where an instruction of `OpenCL.std` has a
    result type, an operand of a type or a number among its operands that it does not take. O1 to O23 are what the
    standard asks of a kernel besides. The rules are those of 1.6, whatever the version is, but for F4, O4 and O21. It
    does not go with `as_1_6`: ValueError.
    """

    def __init__(self, text: Optional[bytes] = None) -> None:
        self._held = _Held(None if text is None else _octets(text))

    def check(
        self, module: bytes, *, as_1_6: bool = False, extended: bool = False, opencl: bool = False
    ) -> Verdict:
        """The verdict on the bytes of a module, in either byte order."""
        held, given, flags = self._held, _octets(module), _flags(as_1_6, extended, opencl)
        answer = _C.spvk_raw_check_with(held.grammar.held, given, len(given), flags)
        _done(answer.status)
        return _verdict(answer)

    def explain(
        self, module: bytes, *, as_1_6: bool = False, extended: bool = False, opencl: bool = False
    ) -> Explanation:
        """The verdict on the bytes of a module, with the lines that explain it."""
        answer = _Text()
        flags = _flags(as_1_6, extended, opencl)
        lines = _made(_C.spvk_raw_explain_with, self._held, _octets(module), answer, flags)
        return Explanation(_verdict(answer), lines.decode())

    def explain_json(
        self, module: bytes, *, as_1_6: bool = False, extended: bool = False, opencl: bool = False
    ) -> str:
        """The JSON object of `spv explain --json`, without a member `file`, and a line feed.

        docs/explain.schema.json of the library's repository is its JSON Schema.
        """
        return self._object(module, as_1_6, extended, opencl)[1]

    def evidence(
        self, module: bytes, *, as_1_6: bool = False, extended: bool = False, opencl: bool = False
    ) -> Evidence:
        """The verdict on the bytes of a module, and as values what the lines of `explain` say."""
        return _evidence(*self._object(module, as_1_6, extended, opencl))

    def _object(self, module: bytes, as_1_6: bool, extended: bool, opencl: bool) -> Tuple[Verdict, str]:
        """The verdict on a module, and the JSON object that explains it."""
        answer = _Text()
        flags = _flags(as_1_6, extended, opencl)
        text = _made(_C.spvk_raw_explain_json_with, self._held, _octets(module), answer, flags)
        return _verdict(answer), text.decode()

    def show(self, module: bytes, *, as_1_6: bool = False, opencl: bool = False) -> str:
        """The text of a module, which need not be valid. By `opencl` it tells the version of the module.

        Raises ModuleFault where its bytes are no list of instructions.
        """
        answer = _Text()
        call = _SHOW[_flags(as_1_6, False, opencl)]
        text = _made(call, self._held, _octets(module), answer)
        if answer.code != _VALID:
            raise ModuleFault(_verdict(answer))
        return text.decode()

    def assemble(self, text: Union[str, bytes], big: bool = False) -> bytes:
        """The bytes of the module that a text stands for, each word with its lowest byte first, or with its highest.

        Raises TextFault where the text stands for none, and NotText where its bytes are no UTF-8.
        """
        answer = _Image()
        given = text.encode("utf-8", "surrogatepass") if isinstance(text, str) else _octets(text)
        call = _C.spvk_raw_assemble_big if big else _C.spvk_raw_assemble_little
        module = _made(call, self._held, given, answer)
        if answer.code != _ASSEMBLED:
            raise TextFault(f"S{answer.code - _S1 + 1}", answer.line)
        return module
