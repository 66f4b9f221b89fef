"""Calls of OpenCL.std with types that it takes and with others (Y10): what the program says of each, the second reading,
and spirv-val.

The calls stand in the file `calls`, a line each; modules are made of them as typed_opencl.py makes them. Besides,
types and numbers of those that hold are exchanged for others, and there the second reading says what is due.
"""

import json
import random
import re
from dataclasses import dataclass
from itertools import islice
from typing import Optional

from reading.extended import OPENCL as SET
from reading.extended import counts, sets
from reading.facts import Facts
from reading.opencl_std import CLASS_OF, LETTERS, conditions_of
from reading.profiles import Profile
from reading.verdict import grammar_in

from .common import TESTS, Check, Unusable, joined, run
from .typed_opencl import BLOCK, GRAMMAR, module

CALLS = TESTS / "calls"
LINE = re.compile(r"(\d+) (\w+) +(\S+): ?(.*?) \| (?:holds|(\d+))")
FEWEST = 800
EXTENDED = 12
# How many files go into one run, and how many calls are changed.
BATCH, CHANGED = 200, 1_500
# What an operand is exchanged for: scalars, vectors, pointers, an array, and numbers where it is one.
SCALARS = ("bool", "i8", "i16", "i32", "i64", "f16", "f32", "f64")
TYPES = (
    *SCALARS,
    *(f"v{count}({scalar})" for count in (2, 3, 4, 8, 16) for scalar in SCALARS),
    *(f"ptr{of}({pointee})" for of in (0, 1, 4, 5, 7, 8) for pointee in ("i8", "f16", "f32", "v2(i32)", "arr2(f16)")),
    "arr4(f32)",
)
NUMBERS = ("#0", "#1", "#2", "#3", "#4", "#8", "#16", "#4294967295")


@dataclass(frozen=True)
class Call:
    """A call: the number of the instruction, the types of its result and its operands, and the operand that fails,
    None where all hold."""

    number: int
    result: str
    operands: tuple
    fails: Optional[int] = None

    @property
    def made(self):
        """The module, the number of the call's instruction, and its first word."""
        behind = " ".join((f"e/{SET}", f"#{self.number}", *self.operands))
        content, place = module("Y5", EXTENDED, f"{self.result}: {behind}", BLOCK)
        return content, *place

    def __str__(self):
        return f"{self.number} {self.result}: {' '.join(self.operands)}"


def calls():
    """The calls of the file."""
    for line in CALLS.read_text(encoding="utf-8").splitlines():
        if line.startswith("#"):
            continue
        found = LINE.fullmatch(line)
        if not found:
            raise Unusable(f"{CALLS} has an ill-formed line: {line}")
        number, _, result, operands, fails = found.groups()
        yield Call(int(number), result, tuple(operands.split()), fails and int(fails))


def changed():
    """Calls that hold, in which a type or a number is exchanged for another, at one place or wherever it stands; always
    the same ones."""
    chance, held = random.Random(10), [it for it in calls() if it.fails is None]
    while True:
        call = chance.choice(held)
        seats = [call.result, *call.operands]
        at, is_one = chance.randrange(len(seats)), chance.random() < 0.5
        old = seats[at]
        new = chance.choice(NUMBERS if old.startswith("#") else ("void", *TYPES) if at == 0 else TYPES)
        result, *operands = (new if place == at or it == old and not is_one else it for place, it in enumerate(seats))
        if "void" not in operands:
            yield Call(call.number, result, tuple(operands))


def due(call):
    """The verdict on the module of a call, and the operand that fails."""
    _, inst, word = call.made
    return ("valid", None) if call.fails is None else (f"fault Y10 inst {inst} word {word}", call.fails)


def read(call):
    """The same, as the second reading says it."""
    broken = Facts(grammar_in_use(), call.made[0], Profile.OPENCL).broken
    return ("valid", None) if broken is None else (broken.line, broken.operand)


def grammar_in_use():
    """The grammar, read once."""
    if not hasattr(grammar_in_use, "kept"):
        grammar_in_use.kept = grammar_in(GRAMMAR)
    return grammar_in_use.kept


def told(program, folder, found):
    """What the program says of the module of each of these calls: the verdict, and the operand that it explains."""
    for at in range(0, len(found), BATCH):
        paths = [folder / f"{number}.spv" for number in range(at, min(at + BATCH, len(found)))]
        for path, call in zip(paths, found[at:]):
            path.write_bytes(call.made[0])
        words = [*Profile.OPENCL.flags, "--grammar", GRAMMAR]
        verdicts = run(program, ["check", "--no-filename", *words, *paths], folder).out.decode().splitlines()
        objects = map(json.loads, run(program, ["explain", "--json", *words, *paths], folder).out.splitlines())
        yield from ((line, it.get("operand", {}).get("index")) for line, it in zip(verdicts, objects))


def differing(found, said, wanted):
    """A line for each call of which something else is said."""
    lines = [f"  {call}: {got}, and not {it}" for call, got, it in zip(found, said, wanted) if got != it]
    return "\n".join(lines) or (None if len(said) == len(found) else f"  {len(said)} of {len(found)} are told")


def program_tells(program, folder):
    """None where the program gives the verdict on each call, and the operand that fails."""
    found = list(calls())
    if len(found) < FEWEST:
        return f"  {len(found)} calls"
    return differing(found, list(told(program, folder, found)), map(due, found))


def program_reads(program, folder):
    """None where the program says of each changed call what the second reading does, and some of them hold."""
    found = list(islice(changed(), CHANGED))
    wanted = list(map(read, found))
    held = sum(line == "valid" for line, _ in wanted)
    if not CHANGED // 20 < held < CHANGED // 2:
        return f"  {held} of {len(found)} hold"
    return differing(found, list(told(program, folder, found)), wanted)


def reading_tells(_program, _folder):
    """None where the second reading says the same of each call."""
    found = list(calls())
    return differing(found, list(map(read, found)), map(due, found))


def peer_tells(_program, folder):
    """None where spirv-val accepts the calls that hold, and refuses those that break."""
    path, wrong = folder / "module.spv", []
    for call in calls():
        path.write_bytes(call.made[0])
        said, status = joined(["spirv-val", "--target-env", "spv1.6", path], folder)
        if (status == 0) != (call.fails is None):
            wrong.append(f"  {call}: {said.decode(errors='replace').strip() or 'accepted'}")
    return "\n".join(wrong) or None


def each_called(_program, _folder):
    """None where each instruction of OpenCL.std has a call that holds and one that breaks its row, and a class in the
    second reading whose seats are those of its operands."""
    known, found, wrong = sets()[SET], list(calls()), []
    for holds in (True, False):
        there = {it.number for it in found if (it.fails is None) == holds}
        wrong += [f"  {number}: none that {'holds' if holds else 'breaks'}" for number in sorted(set(known) ^ there)]
    wrong += [f"  {number}: in the second reading alone, or not there" for number in sorted(set(known) ^ set(CLASS_OF))]
    for number in set(known) & set(CLASS_OF):
        most = counts(SET, number)[1]
        places = [LETTERS.index(it) for it in conditions_of(CLASS_OF[number]) if it in LETTERS]
        if most is not None and not max(places, default=0) <= most <= len(LETTERS):
            wrong.append(f"  {number}: {CLASS_OF[number]} has {len(places)} seats")
    return "\n".join(wrong) or None


def checks():
    """All of these."""
    stands, none = frozenset({"opencl"}), frozenset()
    return [
        Check("types of OpenCL.std: verdicts and operands", stands, program_tells),
        Check("types of OpenCL.std: changed calls beside the second reading", stands, program_reads),
        Check("types of OpenCL.std: the second reading", none, reading_tells),
        Check("types of OpenCL.std: spirv-val", none, peer_tells, frozenset({"spirv-val"})),
        Check("types of OpenCL.std: each instruction", none, each_called),
    ]
