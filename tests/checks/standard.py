"""What `--opencl` asks of a module besides: the rules O1 to O23 (layer 'standard').

Of the second reading: that it answers the cases of that layer as they want, beside spirv-val too; modules at each limit
and one past it, of which the program is asked, too; its tables of versions and extensions beside Khronos' grammar; and
the order of random blocks beside what the standard says of it.
"""

import json
import random
import subprocess
from collections import defaultdict
from types import SimpleNamespace

from reading.assemble import Writer, assembled
from reading.decode import Grammar, Inst
from reading.flow import bodies
from reading.order import SHAPE_OF, parts_of, words_in
from reading.profiles import Profile
from reading.standard import blocks, limits, versions
from reading.verdict import verdict
from shapes.standard import local_variables

from .cases import OPENCL, every_case, grammar, grammar_read, pieces
from .common import SECONDS, Answer, Check, difference, layers_of, run
from .khronos import GRAMMAR

LAYER = "standard"
FEWEST = 600
# The cases that break a rule and that spirv-val accepts, and those that hold and that it refuses; docs/COMPARED.md has
# what they are about.
ACCEPTED = """
    loop-of-infinite-dependency-and-of-some weights-of-nothing weights-too-large-together weights-far-too-large-together
    cases-that-are-equal cases-that-are-equal-and-lead-to-one-block cases-of-64-bits-that-are-equal case-of-zero-twice
    text-of-one-member-too-many text-of-a-member-of-no-struct constant-variable-of-a-function
    saturated-bits-as-a-float saturated-bits-as-a-pointer saturated-int-to-float saturated-float-to-float saturated-sum
    saturated-undefined-value saturated-pointer linked-constant linked-variable-of-a-function linked-type linked-label
    aligned-number aligned-struct aligned-pointer-type aligned-function-that-gives-a-number aligned-label
    offset-at-most-of-a-number offset-at-most-of-a-number-by-an-id group-on-what-it-may-not-stand-on
    group-of-a-later-decoration group-of-an-offset-by-an-id second-group-on-what-it-may-not-stand-on
    group-of-two-decorations-one-of-which-may-not-stand group-on-a-member-that-cannot-have-it group-by-an-id-on-a-member
    group-on-two-members-of-two-structs restricted-and-aliased-by-a-group restricted-and-aliased-by-two-groups
    text-of-65536-characters text-of-65536-characters-of-two-octets name-of-65536-characters
    entry-point-of-a-name-of-65536-characters modes-256-of-one-function modes-256-of-one-function-by-both-instructions
    modes-256-of-one-function-with-two-entry-points print-of-255-values load-of-scope-6 group-sum-of-scope-0
    group-sum-of-scope-1 group-sum-of-scope-4 copy-of-a-device wait-of-a-device broadcast-of-a-device all-of-a-device
    greatest-of-a-device reserved-packets-of-a-device committed-packets-of-a-device set-of-events-of-a-far-scope
    exchange-that-is-stronger-where-different exchange-that-acquires-where-different-alone
    exchange-that-acquires-where-different-of-memory-alone exchange-that-acquires-where-a-release-is
    exchange-that-acquires-where-the-other-is-null atomic-load-of-i8 atomic-store-of-i8 atomic-load-of-i16
    atomic-store-of-i16 atomic-load-of-f16 atomic-store-of-f16 atomic-load-of-i16-with-capability-6095 atomic-sum-of-i16
    atomic-exchange-of-f16 atomic-step-of-i8 atomic-bits-of-i16 copy-to-class-0 copy-to-class-1 sized-copy-to-class-0
    sized-copy-to-class-1 size-of-a-type-of-version-1-0 pointers-difference-of-version-1-3
""".split()
REFUSED = """
    nonwritable-variable nonwritable-pointer-parameter interface-without-an-initializer
    interface-without-what-is-mentioned mention-of-a-later-value-in-a-dead-block
    uniform-label uniform-void uniform-value-in-a-far-scope uniform-member interface-of-members-that-are-built-in
    group-of-a-text group-restricted-and-aliased forward-pointer-named-twice-to-a-struct
""".split()


def cases():
    """The cases of the layer that ask for a verdict."""
    of_layer = (case for case in every_case() if LAYER in layers_of(case.one("layer")))
    return [case for case in of_layer if case.one("run").startswith("check ")]


def content_of(case):
    """The bytes of a case's module."""
    return b"".join(part * times for part, times in pieces(case))


def cases_read(_program, _folder):
    """None where the second reading says of each case what it wants."""
    wrong, found = [], cases()
    for case in found:
        name, wanted = case.one("case"), case.one("out")
        read = Grammar(json.loads(grammar(case))) if case.all("old") else grammar_read(case.one("G"))
        got = verdict(read, content_of(case), profile=Profile.OPENCL)
        wrong += [] if got == wanted else [f"  {name}: {got}, and not {wanted}"]
    return "\n".join(wrong) or (None if len(found) > FEWEST else f"  {len(found)} cases")


def cases_beside(_program, folder):
    """None where spirv-val refuses what breaks a rule and accepts what holds, but for those cases that are listed."""
    wrong = []
    for case in cases():
        name, is_broken, path = case.one("case"), case.one("out") != "valid", folder / "module.spv"
        path.write_bytes(content_of(case))
        words = ["spirv-val", "--target-env", f"spv1.{path.read_bytes()[5]}", path]
        said = subprocess.run([str(it) for it in words], capture_output=True, timeout=SECONDS, check=False)
        differs = (said.returncode != 0) != is_broken
        if differs != (name in (ACCEPTED if is_broken else REFUSED)):
            wrong.append(f"  {name}: {said.stderr.decode(errors='replace').strip() or 'accepted'}")
    return "\n".join(wrong) or None


def minor(entry):
    """The minor version from which on an entry of Khronos' grammar is there."""
    said = entry.get("version", "1.0")
    return versions.NEVER if said == "None" else int(said.split(".")[1])


class Khronos:
    """Khronos' grammar file: of each kind and number its entries."""

    def __init__(self):
        tree = json.loads(GRAMMAR.read_text(encoding="utf-8"))
        self.entries, self.parameters = defaultdict(list), defaultdict(set)
        for inst in tree["instructions"]:
            self.entries[versions.OPCODE, inst["opcode"]].append(inst)
        for kind in tree["operand_kinds"]:
            for it in kind.get("enumerants", ()):
                value = it["value"] if isinstance(it["value"], int) else int(it["value"], 16)
                self.entries[kind["kind"], value].append(it)
                self.parameters[kind["kind"]].update(each["kind"] for each in it.get("parameters", ()))
        capabilities = [(key, it) for key, found in self.entries.items() if key[0] == "Capability" for it in found]
        self.number_of = {it["enumerant"]: number for (_, number), it in capabilities}
        self.of_shaders = {1}
        for _ in capabilities:
            more = {key[1] for key, it in capabilities if self.of_shaders & set(self.needed(it))}
            if more <= self.of_shaders:
                break
            self.of_shaders |= more

    def needed(self, entry):
        """The capabilities that an entry lists."""
        return [self.number_of[name] for name in entry.get("capabilities", ())]

    def row(self, key):
        """The first version of a pair of a kind and a number, and the extensions that have it."""
        found = self.entries[key]
        return min(map(minor, found)), frozenset(name for it in found for name in it.get("extensions", ()))

    def is_left_out(self, key):
        """Whether a pair needs no row: it came with 1.0, or with a capability that has one, or is for shaders."""
        first, needed = self.row(key)[0], self.needed(self.entries[key][0])
        if key[0] == "Capability" and key[1] in self.of_shaders:
            return True
        own = [it for it in needed if it not in self.of_shaders]
        late = [versions.ROWS.get(("Capability", it), (0, ()))[0] for it in own]
        return first == 0 or bool(needed) and all(it >= first for it in late)

    def kinds(self):
        """The kinds that the shapes of instructions have, and those of parameters."""
        words = {word for shape in SHAPE_OF.values() for part in parts_of(shape) for word in words_in(part)}
        for _ in self.parameters:
            words |= {it for kind in words for it in self.parameters.get(kind, ())}
        return words


def tables_agree(_program, _folder):
    """None where the tables of versions and extensions are what Khronos' grammar file says."""
    khronos, wrong = Khronos(), []
    for key, row in versions.ROWS.items():
        told = khronos.row(key) if khronos.entries.get(key) else None
        wrong += [] if told == row else [f"  {key}: {row}, and not {told}"]
    kinds = khronos.kinds()
    for key in list(khronos.entries):
        is_there = key[1] in SHAPE_OF if key[0] == versions.OPCODE else key[0] in kinds
        if is_there and key not in versions.ROWS and not khronos.is_left_out(key):
            wrong.append(f"  {key}: no row, and not {khronos.row(key)}")
    lasts = {
        key[1]: int(it["lastVersion"].split(".")[1])
        for key, found in khronos.entries.items()
        for it in found
        if key[0] == versions.OPCODE and key[1] in SHAPE_OF and "lastVersion" in it
    }
    wrong += [] if lasts == versions.LAST else [f"  last versions: {versions.LAST}, and not {lasts}"]
    return "\n".join(wrong) or None


def tangle(chance):
    """A function of a few random blocks, each with an end of a random kind."""
    count = chance.randrange(2, 9)
    labels = range(10, 10 + count)
    insts = [Inst(54, [("Type", 1), ("Result", 2), ("Mask", "FunctionControl", 0), ("Id", 3)], 0)]
    for label in labels:
        targets = [("Id", it) for it in chance.choices(labels[1:], k=chance.choice((0, 1, 1, 2)))]
        ends = {0: Inst(253, [], 0), 1: Inst(249, targets, 0), 2: Inst(250, [("Id", 4), *targets], 0)}
        insts += [Inst(248, [("Result", label)], 0), ends[len(targets)]]
        insts += [Inst(317, [], 0)] * (chance.random() < 0.2)
    return [*insts, Inst(56, [], 0)]


def out_of_order(body):
    """The first block that stands before one that is on every walk to it, as the standard says it: its OpLabel, None
    where there is none."""
    labels = list(body.blocks)
    there = blocks.reached(body)
    for at, label in enumerate(labels):
        if label in there and any(label not in blocks.reached(body, other) for other in labels[at + 1 :]):
            return body.blocks[label][0]
    return None


def blocks_ordered(_program, _folder):
    """None where O1 gives the block of random functions that the standard gives."""
    chance, told = random.Random(7), 0
    for number in range(3_000):
        found = list(bodies(tangle(chance)))
        got, wanted = min(blocks.O1(SimpleNamespace(bodies=found)), default=None), out_of_order(found[0])
        told += wanted is not None
        if got != wanted:
            return f"  function {number}: {got}, and not {wanted}"
    return None if told > 500 else f"  {told} functions out of order"


BEGIN = ("OpCapability Addresses", "OpCapability Kernel", '%1 = OpExtInstImport "OpenCL.std"')
TYPES = ("%2 = OpTypeVoid", "%3 = OpTypeFunction %2", "%5 = OpTypeInt 32 0", "%6 = OpConstant %5 1")
LAST_LINES = ("OpReturn", "OpFunctionEnd")


def kernel(before=(), types=(), body=()):
    """The lines of a kernel with lines in its sections, up to its last block. The last of these lines is the one that
    is reported, if any is."""
    lines = [*BEGIN, "OpMemoryModel Physical64 OpenCL", 'OpEntryPoint Kernel %4 "k"', *before, *TYPES, *types]
    end = len(before) + 5 if not types else len(lines)
    lines += ["%4 = OpFunction %2 None %3", "%7 = OpLabel", *body]
    return lines, (len(lines) if body else end) - 1


def deep(count):
    """A struct of so many structs within one another."""
    return kernel(types=["%20 = OpTypeStruct %5", *(f"%{20 + at} = OpTypeStruct %{19 + at}" for at in range(1, count))])


def indexed(opcode, count):
    """An access by so many indexes, of arrays within one another."""
    arrays = ["%20 = OpTypeArray %5 %6", *(f"%{20 + at} = OpTypeArray %{19 + at} %6" for at in range(1, count))]
    whole, given = 19 + count, " %6" * count
    arrays += [f"%9000 = OpTypePointer Function %{whole}", "%9001 = OpTypePointer Function %5"]
    arrays += ["%9002 = OpUndef %9000", f"%9003 = OpUndef %{whole}"]
    by_opcode = {
        65: f"%9010 = OpAccessChain %9001 %9002{given}",
        66: f"%9010 = OpInBoundsAccessChain %9001 %9002{given}",
        67: f"%9010 = OpPtrAccessChain %9001 %9002 %6{given}",
        70: f"%9010 = OpInBoundsPtrAccessChain %9001 %9002 %6{given}",
        81: f"%9010 = OpCompositeExtract %5 %9003{' 0' * count}",
        82: f"%9010 = OpCompositeInsert %{whole} %6 %9003{' 0' * count}",
    }
    return kernel(types=arrays, body=[by_opcode[opcode]])


def switched(count):
    """A switch of so many pairs, which ends the block."""
    pairs = "".join(f" {at} %8" for at in range(count))
    lines, at = kernel(body=[f"OpSwitch %6 %8{pairs}", "%8 = OpLabel"])
    return lines, at - 1


def many_variables(count):
    """So many variables outside functions."""
    variables = [f"%{20 + at} = OpVariable %9 CrossWorkgroup" for at in range(count)]
    return kernel(types=["%9 = OpTypePointer CrossWorkgroup %5", *variables])


# Modules that pass a limit by a number, which cases cannot have: a name, the greatest number, and the lines with the
# place of the line told.
LIMITS = (
    ("depth", limits.DEPTH, deep),
    *(
        (f"indexes of {opcode}", limits.INDEXES, lambda count, opcode=opcode: indexed(opcode, count))
        for opcode in limits.BEFORE_INDEXES
    ),
    ("cases", limits.CASES, switched),
    ("variables", limits.GLOBALS, many_variables),
)


def at_limits():
    """The modules at each limit and one past it: the name, the bytes and the verdict."""
    read = grammar_read(OPENCL)
    for name, most, lines_of in LIMITS:
        for count in (most, most + 1):
            lines, at = lines_of(count)
            writer = Writer(read)
            word = 5 + sum(len(writer.instruction(line)) for line in lines[:at])
            wanted = "valid" if count == most else f"fault O22 inst {at} word {word}"
            yield f"{count} {name}", assembled(read, [*lines, *LAST_LINES]), wanted


def limits_read(_program, _folder):
    """None where the second reading says of a module with each number of a limit that it is valid, and of one with one
    more that it is not."""
    wrong, read = [], grammar_read(OPENCL)
    for name, content, wanted in at_limits():
        got = verdict(read, content, profile=Profile.OPENCL)
        wrong += [] if got == wanted else [f"  {name}: {got}, and not {wanted}"]
    return "\n".join(wrong) or None


def limits_kept(program, folder):
    """None where the program says the same; and of variables in functions, which are too many for the second
    reading."""
    path, wrong, modules = folder / "module.spv", [], list(at_limits())
    for count in (limits.LOCALS, limits.LOCALS + 1):
        module, inst, word = local_variables(count)
        module.write(path)
        wanted = "valid" if count == limits.LOCALS else f"fault O22 inst {inst} word {word}"
        modules.append((f"{count} variables of functions", path.read_bytes(), wanted))
    for name, content, wanted in modules:
        path.write_bytes(content)
        got = run(program, ["check", *Profile.OPENCL.flags, path], folder)
        differs = difference(Answer(f"{wanted}\n".encode(), b"", int(wanted != "valid")), got)
        wrong += [f"  {name}\n{differs}"] if differs else []
    return "\n".join(wrong) or None


def checks():
    """All of these; what the program says waits for the layer."""
    khronos, peer, none = frozenset({"khronos"}), frozenset({"spirv-val"}), frozenset()
    return [
        Check("standard: the second reading of the cases", none, cases_read),
        Check("standard: the cases beside spirv-val", none, cases_beside, peer),
        Check("standard: versions and extensions beside Khronos' grammar", none, tables_agree, khronos),
        Check("standard: the order of random blocks", none, blocks_ordered),
        Check("standard: limits and one past them, read", none, limits_read),
        Check("standard: limits and one past them", frozenset({LAYER}), limits_kept),
    ]
