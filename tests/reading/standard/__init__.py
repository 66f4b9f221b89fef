"""What the standard asks besides: stage O, the rules O1 to O23. The standard is Khronos' SPIR-V Specification 1.6.

A rule is a function of its name, which tells the numbers of instructions at which it is broken, in any order, the least
among them. It may take for granted what the stages before ask.
"""

from ..decode import Broken
from .blocks import O1, O2, O18, O19, O20, O23
from .decorations import O6, O7, O8, O9, O10, O11
from .entries import O3, O4, O5
from .limits import O22
from .module import Module
from .values import O12, O13, O14, O15, O16, O17
from .versions import O21

RULES = (
    *(O1, O2, O3, O4, O5, O6, O7, O8, O9, O10, O11, O12),
    *(O13, O14, O15, O16, O17, O18, O19, O20, O21, O22, O23),
)


def faults(module):
    """The rules that are broken: of each the number of the least instruction at which it is, and its own."""
    for number, rule in enumerate(RULES, 1):
        at = min(rule(module), default=None)
        if at is not None:
            yield at, number


def check_standard(types, local, version):
    """Stage O: the least instruction at which a rule is broken, and there the least rule."""
    found = min(faults(Module(types, local, version)), default=None)
    if found is not None:
        at, number = found
        raise Broken(f"O{number}", at, types.insts[at].word)
