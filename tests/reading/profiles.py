"""How far a module is looked at: the profile alone, the operands of extended instructions too (`--extended`), or all
that an OpenCL kernel can be (`--opencl`). Each looks at what the one before looks at."""

from enum import IntEnum

VERSION_1_6 = 0x00010600


class Profile(IntEnum):
    """The three, the least first."""

    OWN = 0
    EXTENDED = 1
    OPENCL = 2

    @property
    def flags(self):
        """The words of a command line by which the program looks as far."""
        return {Profile.OWN: [], Profile.EXTENDED: ["--extended"], Profile.OPENCL: ["--opencl"]}[self]

    @property
    def versions(self):
        """The words of a header that tell a version which it takes: 1.6, or each from 1.0 on."""
        return range(0x00010000, VERSION_1_6 + 1, 0x100) if self == Profile.OPENCL else (VERSION_1_6,)
