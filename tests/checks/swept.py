"""Small kernels that sweep over what the rules O look at: each decoration on each kind of target and on a member, each
mode and capability in each version, each built-in value, each control of a loop, scopes and semantics of each sort of
instruction. The program beside the second reading, and that beside spirv-val.

They go by Khronos' grammar file, which has what is of extensions, too.
"""

import re
import subprocess
from functools import lru_cache
from itertools import islice, product

from reading.assemble import assembled
from reading.profiles import Profile
from reading.standard.versions import NEVER, ROWS
from reading.verdict import grammar_in, verdict
from shapes.short import Short

from .common import SECONDS, Check, run
from .khronos import GRAMMAR

BATCH = 500
FEWEST = 4_000
SHADER = "Shader"
# Beside spirv-val one module of so many is looked at. What it says of modules that hold, and by which rule of which
# sweep it accepts modules that break one (docs/COMPARED.md).
OF = 4
REFUSED = (
    "can only be applied to structure members",
    "cannot be applied to structure members",
    "decoration applied to",
    "Decorations that don't take ID parameters",
    "Invalid use of function result id",
    "Missing required OpSamplerImageAddressingModeNV",
    "Target of NonWritable decoration is invalid",
)
ACCEPTED = {("decorated", "O7"), ("looped", "O18"), ("scoped", "O14"), ("with_modes", "Y5")}
# What stands for a parameter of a kind; for one of values the second value of the kind, or its only one.
GIVEN = {
    "LiteralInteger": "4",
    "LiteralFloat": "1",
    "LiteralString": '"s"',
    "IdRef": "%c.i32.4",
    "IdScope": "%c.i32.2",
    "BuiltIn": "WorkDim",
}
INT_FUNCTION = ("%g = OpFunction %i32 None %fn.i32", "%gl = OpLabel", "OpReturnValue %c.i32.1", "OpFunctionEnd")
# What is decorated: an id, and where a line that defines it stands, if it does not tell by its name what it is.
TARGETS = {
    "label": ("%entry", {}),
    "kernel": ("%k", {}),
    "int type": ("%i32", {}),
    "array type": ("%a2.i32", {}),
    "pointer type": ("%p5.i32", {}),
    "constant": ("%c.i32.1", {}),
    "undefined value": ("%u.i32", {}),
    "struct": ("%s", {"types": ("%s = OpTypeStruct %i32",)}),
    "specialized constant": ("%s", {"types": ("%s = OpSpecConstant %i32 3",)}),
    "variable": ("%v", {"types": ("%v = OpVariable %p5.i32 CrossWorkgroup",)}),
    "input": ("%v", {"types": ("%v = OpVariable %p1.i32 Input",)}),
    "constant variable": ("%v", {"types": ("%v = OpVariable %p0.i32 UniformConstant",)}),
    "image variable": ("%v", {"types": ("%v = OpVariable %p0.image UniformConstant",)}),
    "text": ("%t", {"before": ('%t = OpString "s"',)}),
    "int parameter": ("%p", {"parameters": ("%p = OpFunctionParameter %i32",)}),
    "pointer parameter": ("%p", {"parameters": ("%p = OpFunctionParameter %p5.i32",)}),
    "variable of a function": ("%v", {"body": ("%v = OpVariable %p7.i32 Function",)}),
    "sum": ("%x", {"body": ("%x = OpIAdd %i32 %u.i32 %u.i32",)}),
    "sum of floats": ("%x", {"body": ("%x = OpFAdd %f32 %u.f32 %u.f32",)}),
    "conversion": ("%x", {"body": ("%x = OpConvertFToU %i32 %u.f32",)}),
    "loaded pointer": ("%x", {"body": ("%x = OpLoad %p5.i32 %u.p7.p5.i32",)}),
    "function": ("%g", {"functions": INT_FUNCTION}),
    "call": ("%x", {"body": ("%x = OpFunctionCall %i32 %g",), "functions": INT_FUNCTION}),
}
SCOPED = {
    "load": ("", "%x = OpAtomicLoad %i32 %u.p5.i32 {} %c.i32.0"),
    "control": ("", "OpControlBarrier {} %c.i32.2 %c.i32.0"),
    "memory of a control": ("", "OpControlBarrier %c.i32.2 {} %c.i32.0"),
    "memory": ("", "OpMemoryBarrier {} %c.i32.0"),
    "flag": ("", "%x = OpAtomicFlagTestAndSet %bool %u.p5.i32 {} %c.i32.0"),
    "clear": ("", "OpAtomicFlagClear %u.p5.i32 {} %c.i32.0"),
    "all of a group": ("Groups", "%x = OpGroupAll %bool {} %true"),
    "sum of a group": ("Groups", "%x = OpGroupFAdd %f32 {} Reduce %u.f32"),
    "broadcast": ("Groups", "%x = OpGroupBroadcast %i32 {} %u.i32 %u.i32"),
    "elect": ("GroupNonUniform", "%x = OpGroupNonUniformElect %bool {}"),
    "shuffle": ("GroupNonUniformShuffle", "%x = OpGroupNonUniformShuffle %i32 {} %u.i32 %u.i32"),
    "sum of some": ("GroupNonUniformArithmetic", "%x = OpGroupNonUniformIAdd %i32 {} Reduce %u.i32"),
}
SCOPES = (*range(8), 0xFFFFFFFF)
EXCHANGED = "%x = OpAtomicCompareExchange %i32 %u.p5.i32 %c.i32.2"
ORDERED = {
    "load": "%x = OpAtomicLoad %i32 %u.p5.i32 %c.i32.2 {}",
    "store": "OpAtomicStore %u.p5.i32 %c.i32.2 {} %u.i32",
    "exchange": "%x = OpAtomicExchange %i32 %u.p5.i32 %c.i32.2 {} %u.i32",
    "control": "OpControlBarrier %c.i32.2 %c.i32.2 {}",
    "memory": "OpMemoryBarrier %c.i32.2 {}",
    "clear": "OpAtomicFlagClear %u.p5.i32 %c.i32.2 {}",
    "flag": "%x = OpAtomicFlagTestAndSet %bool %u.p5.i32 %c.i32.2 {}",
    "equal": f"{EXCHANGED} {{}} %c.i32.0 %u.i32 %u.i32",
    **{f"unequal beside {it}": f"{EXCHANGED} %c.i32.{it} {{}} %u.i32 %u.i32" for it in (0, 2, 4, 8, 16, 256)},
}
ORDERS = (*range(0, 33, 2), 64, 128, 256, 258, 264, 272, 512, 514, 1024, 1026, 2048, 2056, 4096, 4104, 8192, 8196)
ORDERS += (16384, 16386, 32768, 32770, 65536, 131072, 0x80000000, 0xFFFFFFFF)
LOOP_BITS = tuple(1 << bit for bit in range(9))
# The least bit of a loop's control that has a number.
WITH_NUMBER = 8


@lru_cache(maxsize=1)
def known():
    """Khronos' grammar, as the second reading has it."""
    return grammar_in(GRAMMAR)


@lru_cache(maxsize=None)
def implied(name):
    """A capability and those that it implies, by name."""
    number = known().value_of["Capability"][name]
    listed = known().enumerants["Capability"][number].get("capabilities", ())
    return frozenset({name}).union(*map(implied, listed))


def capability_for(entry):
    """A capability of those that an entry lists that is not for shaders, none where it lists none; None where all
    are."""
    numbers = [known().value_of["Capability"][it] for it in entry.get("capabilities", ())]
    listed = [known().enumerants["Capability"][it]["enumerant"] for it in numbers]
    return next((it for it in listed if SHADER not in implied(it)), None if listed else "")


def extensions_for(kind, number, capability):
    """The extensions without which a value and a capability are in no version, or in late ones alone."""
    keys = [("Capability", known().value_of["Capability"][it]) for it in implied(capability)] if capability else []
    names = set().union(*(ROWS.get(key, (0, frozenset()))[1] for key in keys))
    first, own = ROWS.get((kind, number), (0, frozenset()))
    return tuple(sorted(names | (own if first == NEVER else frozenset())))


def entries_of(kind):
    """The values of a kind that a kernel can have: the number, the entry, a capability that it needs, extensions."""
    for number, entry in sorted(known().enumerants[kind].items()):
        capability = capability_for(entry)
        if capability is not None:
            yield number, entry, capability, extensions_for(kind, number, capability)


def parameters_of(entry):
    """What stands behind a value."""

    def given(kind):
        values = sorted(known().enumerants.get(kind, ()))
        return GIVEN.get(kind) or known().enumerants[kind][values[len(values) > 1]]["enumerant"]

    return " ".join(given(it["kind"]) for it in entry.get("parameters", ()))


def decorated():
    """Each decoration on each target, and on a member."""
    for number, entry, capability, extensions in entries_of("Decoration"):
        name, behind = entry["enumerant"], parameters_of(entry)
        common = {"capabilities": f"Linkage {capability}", "extensions": extensions}
        opcode = "OpDecorateId" if "%" in behind else "OpDecorate"
        for what, (target, more) in TARGETS.items():
            line = f"{opcode} {target} {name} {behind}"
            yield f"{name} {number} of {what}", {**more, **common, "before": (*more.get("before", ()), line)}
        line = f"OpMemberDecorate %s 0 {name} {behind}"
        yield f"{name} {number} of member", {**TARGETS["struct"][1], **common, "before": (line,)}


def with_modes():
    """Each execution mode by both instructions in each version, with its extensions."""
    for number, entry, capability, extensions in entries_of("ExecutionMode"):
        for version, opcode in product(range(7), ("OpExecutionMode", "OpExecutionModeId")):
            line = f"{opcode} %k {entry['enumerant']} {parameters_of(entry)}"
            more = {"capabilities": capability, "extensions": extensions, "version": version, "before": (line,)}
            yield f"{line} {number} of 1.{version}", more


def capable():
    """Each capability in each version, without and with its extensions."""
    for number, entry in sorted(known().enumerants["Capability"].items()):
        name = entry["enumerant"]
        lists = [(), *((it,) for it in (extensions_for("Capability", number, name),) if it)]
        if SHADER not in implied(name):
            for version, extensions in product(range(7), lists):
                given = extensions[0] if extensions else ()
                yield f"{name} of 1.{version} {given}", {"capabilities": name, "extensions": given, "version": version}


def built_in():
    """Each built-in value in some versions, with its extensions."""
    for number, entry, capability, extensions in entries_of("BuiltIn"):
        for version in (0, 3, 6):
            more = {"capabilities": capability, "extensions": extensions, "version": version}
            more["before"] = (f"OpDecorate %v BuiltIn {entry['enumerant']}",)
            more["entries"] = ('OpEntryPoint Kernel %k "k" %v',)
            yield f"{entry['enumerant']} {number} of 1.{version}", {**TARGETS["input"][1], **more}


def looped():
    """Each control of a loop, some of them in other versions, too."""
    entries = known().enumerants["LoopControl"]
    for mask in range(1 << len(LOOP_BITS)):
        bits = [bit for bit in LOOP_BITS if mask & bit]
        control = "|".join(entries[bit]["enumerant"] for bit in bits) or "None"
        control += "".join(f" {(mask * bit) % 5 // 2}" for bit in bits if bit >= WITH_NUMBER)
        lines = ("OpBranch %h", "%h = OpLabel", f"OpLoopMerge %o %n {control}")
        lines += ("OpBranchConditional %true %n %o", "%n = OpLabel", "OpBranch %h", "%o = OpLabel")
        for version in (6,) if mask % 7 else (0, 1, 3, 4, 6):
            yield f"{control} of 1.{version}", {"body": lines, "version": version}


def scoped():
    """Scopes and semantics."""
    for (what, (capability, line)), scope in product(SCOPED.items(), SCOPES):
        yield f"{what} of scope {scope}", {"capabilities": capability, "body": (line.format(f"%c.i32.{scope}"),)}
    for (what, line), order in product(ORDERED.items(), ORDERS):
        yield f"{what} of semantics {order}", {"body": (line.format(f"%c.i32.{order}"),)}


SWEEPS = (decorated, with_modes, capable, built_in, looped, scoped)


def modules():
    """All modules: of each the sweep, the name and the bytes."""
    for sweep in SWEEPS:
        for name, lines in sweep():
            yield sweep.__name__, name, assembled(known(), Short(**lines).numbered())


def read(content):
    """The verdict of the second reading."""
    return verdict(known(), content, profile=Profile.OPENCL)


def told(program, folder, contents):
    """What the program says of these modules."""
    paths = [folder / f"{number}.spv" for number in range(len(contents))]
    for path, content in zip(paths, contents):
        path.write_bytes(content)
    words = ["check", "--no-filename", *Profile.OPENCL.flags, "--grammar", GRAMMAR, *paths]
    return run(program, words, folder).out.decode().splitlines()


def program_reads(program, folder):
    """None where the program says of each module what the second reading does."""
    found, wrong = list(modules()), []
    for at in range(0, len(found), BATCH):
        some = found[at : at + BATCH]
        said = told(program, folder, [content for *_, content in some])
        wrong += [] if len(said) == len(some) else [f"  {len(said)} of {len(some)} are told"]
        pairs = [(sweep, name, got, read(content)) for (sweep, name, content), got in zip(some, said)]
        wrong += [f"  {sweep}: {name}: {got}, and not {wanted}" for sweep, name, got, wanted in pairs if got != wanted]
    return "\n".join(wrong) or (None if len(found) > FEWEST else f"  {len(found)} modules")


def said_by_peer(path, content):
    """What spirv-val says of a module of its own version, without its numbers: nothing where it accepts it."""
    path.write_bytes(content)
    words = ["spirv-val", "--target-env", f"spv1.{content[5]}", str(path)]
    ended = subprocess.run(words, capture_output=True, timeout=SECONDS, check=False)
    if ended.returncode == 0:
        return ""
    line = (ended.stderr.decode(errors="replace").strip().splitlines() or [f"exit {ended.returncode}"])[0]
    return re.sub(r"error: line \d+: |'[^']*'|\d+(\[%[^\]]*\])?", lambda it: "" if it[0][0] == "e" else "N", line)


def differs(sweep, mine, theirs):
    """Whether spirv-val says something else of a module than the second reading, where it may not."""
    if mine == "valid":
        return theirs != "" and not any(it in theirs for it in REFUSED)
    return theirs == "" and (sweep, mine.split()[1]) not in ACCEPTED


def peer_reads(_program, folder):
    """None where the second reading and spirv-val say the same of some of the modules, but for what is listed."""
    wrong, found = [], islice(modules(), 0, None, OF)
    for sweep, name, content in found:
        mine, theirs = read(content), said_by_peer(folder / "module.spv", content)
        wrong += [f"  {sweep}: {name}: {mine}, and {theirs or 'accepted'}"] if differs(sweep, mine, theirs) else []
    return "\n".join(wrong) or None


def checks():
    """The program beside the second reading, and this beside spirv-val."""
    khronos, peer = frozenset({"khronos"}), frozenset({"khronos", "spirv-val"})
    return [
        Check("standard: sweeps beside the second reading", frozenset({"standard"}), program_reads, khronos),
        Check("standard: sweeps beside spirv-val", frozenset(), peer_reads, peer),
    ]
