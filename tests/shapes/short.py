"""Kernels in a short form: ids have names, and what is not declared is declared, if its name says what it is.

    void, bool, i32, f16, sampler, event, image    types
    v4.f32, a2.i32, p5.i32                         a vector, an array, a pointer of a storage class by its number
    fn.void_i32, st.i32_f32                        a function type with its parameters, a struct with its members
    c.i32.5, n.i32, u.i32, true                    a constant, a null, an undefined value

The function of the kernel is `k`, its entry block `entry`, and `std` the set OpenCL.std. Capabilities that such types
need are declared, too.
"""

import re
from dataclasses import dataclass
from typing import Tuple

CLASSES = dict(zip((0, 1, 4, 5, 7, 8), "UniformConstant Input Workgroup CrossWorkgroup Function Generic".split()))
NAME = re.compile(r'("(?:[^"\\]|\\.)*")|%([A-Za-z_][\w.]*)')
RESULT = re.compile(r"%([\w.]+) = ")
NEEDED = {"i8": "Int8", "i16": "Int16", "i64": "Int64", "f16": "Float16", "f64": "Float64", "sampler": "ImageBasic"}
NEEDED.update(image="ImageBasic")
PLAIN = {
    "void": "OpTypeVoid",
    "bool": "OpTypeBool",
    "sampler": "OpTypeSampler",
    "event": "OpTypeEvent",
    "true": "OpConstantTrue %bool",
    "image": "OpTypeImage %void 2D 0 0 0 0 Unknown ReadOnly",
}


def declared(name):
    """What declares a name, None where it does not tell what it is."""
    form, _, rest = name.partition(".")
    letter, number = form[:1], form[1:]
    parts = "".join(f" %{it}" for it in rest.split("_"))
    of, _, value = rest.rpartition(".")
    if name in PLAIN:
        return PLAIN[name]
    if not rest:
        of = {"i": f"OpTypeInt {number} 0", "f": f"OpTypeFloat {number}"}
        return of.get(letter) if number.isdigit() else None
    return {
        "v": f"OpTypeVector %{rest} {number}",
        "a": f"OpTypeArray %{rest} %c.i32.{number}",
        "p": f"OpTypePointer {CLASSES.get(int(number)) if number.isdigit() else ''} %{rest}",
        "fn": f"OpTypeFunction{parts}",
        "st": f"OpTypeStruct{parts}",
        "c": f"OpConstant %{of} {value}",
        "u": f"OpUndef %{rest}",
        "n": f"OpConstantNull %{rest}",
    }[form if form in ("fn", "st", "c", "u", "n") else letter]


def names_in(line):
    """The names of ids of a line."""
    return [name for _, name in NAME.findall(line) if name]


@dataclass(frozen=True)
class Short:
    """The lines of a kernel in this form, by where they stand; what is not named is as in the smallest kernel."""

    capabilities: str = ""
    extensions: Tuple[str, ...] = ()
    entries: Tuple[str, ...] = ('OpEntryPoint Kernel %k "k"',)
    before: Tuple[str, ...] = ()
    types: Tuple[str, ...] = ()
    parameters: Tuple[str, ...] = ()
    body: Tuple[str, ...] = ()
    functions: Tuple[str, ...] = ()
    version: int = 6

    def function(self):
        """The lines of the kernel's function."""
        of = "".join(f"_{it.split()[-1].lstrip('%')}" for it in self.parameters)
        begin = [f"%k = OpFunction %void None %fn.void{of}", *self.parameters, "%entry = OpLabel"]
        return [*begin, *self.body, "OpReturn", "OpFunctionEnd"]

    def lines(self):
        """All lines, with names as ids."""
        told = [*self.entries, *self.before, *self.types, *self.function(), *self.functions]
        own = {found[1] for found in map(RESULT.match, told) if found} | {"std"}
        front = Declarations(own)
        for name in (name for line in told for name in names_in(line)):
            front.add(name)
        listed = dict.fromkeys(["Addresses", "Kernel", *self.capabilities.split(), *front.needed])
        sets = ['%std = OpExtInstImport "OpenCL.std"'] if any("%std" in line for line in told) else []
        return [
            f"; Version: 1.{self.version}",
            *(f"OpCapability {it}" for it in listed),
            *(f'OpExtension "{it}"' for it in self.extensions),
            *sets,
            "OpMemoryModel Physical64 OpenCL",
            *self.entries,
            *self.before,
            *front.lines,
            *told[len(self.entries) + len(self.before) :],
        ]

    def numbered(self):
        """All lines, with numbers as ids, in the order in which they are defined."""
        lines, number = self.lines(), {}
        for found in map(RESULT.match, lines):
            if found:
                number.setdefault(found[1], len(number) + 1)
        return [NAME.sub(lambda it: it[1] or f"%{number[it[2]]}", line) for line in lines]


class Declarations:
    """The lines that declare names, each behind what it is made of, and the capabilities that they need."""

    def __init__(self, own):
        self.lines, self.known, self.needed = [], set(own), {}

    def add(self, name):
        """Declares a name that is not known and says what it is."""
        said = None if name in self.known else declared(name)
        if said is None:
            return
        self.known.add(name)
        for part in names_in(said):
            self.add(part)
        self.lines.append(f"%{name} = {said}")
        self.needed.update({NEEDED[it]: None for it in (name,) if it in NEEDED})
