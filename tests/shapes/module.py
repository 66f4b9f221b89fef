"""A module in the making, and the declarations that most shapes have."""

import sys
from array import array

from . import opcodes as op

MOST_BYTES = 16_777_216
LONGEST = 65_535
GREATEST_BOUND = 4_194_303
VOID, FUNCTION_TYPE, KERNEL, ENTRY, INT, ONE, TWO, POINTER, BOOL, TRUE = range(1, 11)
FIRST_FREE = 11


class Module:
    """The words of a module, and the next id that is free."""

    def __init__(self, most_words):
        self.words = array("I", [0x07230203, 0x00010600, 0, 0, 0])
        self.most = most_words
        self.next = FIRST_FREE
        # What chooses ids at random, and those that were chosen; None where ids come one after another.
        self.chance, self.chosen = None, set()

    def scatter(self, chance):
        """Has ids chosen at random from here on, up to the greatest bound."""
        self.chance = chance

    def put(self, opcode, *operands):
        """Adds an instruction."""
        self.words.append((len(operands) + 1) << 16 | opcode)
        self.words.extend(operands)

    def fresh(self):
        """An id that no instruction has yet."""
        if self.chance is not None:
            return self.scattered()
        self.next += 1
        return self.next - 1

    def scattered(self):
        """An id at random that no instruction has yet."""
        while True:
            chosen = self.chance.randrange(self.next, GREATEST_BOUND)
            if chosen not in self.chosen:
                self.chosen.add(chosen)
                return chosen

    def room(self):
        """How many words may still come, if a few are kept for the end."""
        return self.most - len(self.words) - 64

    def write(self, path):
        """Writes the module in little order, with its bound."""
        self.words[3] = self.next if self.chance is None else GREATEST_BOUND
        if sys.byteorder == "big":
            self.words.byteswap()
        path.write_bytes(self.words.tobytes())


def text_words(text):
    """The words of a literal string."""
    octets = text.encode() + b"\0"
    octets += bytes(-len(octets) % 4)
    return [int.from_bytes(octets[at : at + 4], "little") for at in range(0, len(octets), 4)]


def imported(module, own, name):
    """Imports a set of extended instructions for an id."""
    module.put(op.EXT_INST_IMPORT, own, *text_words(name))


def opened(module, after_entry=lambda module: None, sets=()):
    """Begins a module: all up to the declarations that every shape has, and imports of sets of extended instructions,
    each an id and a name."""
    module.put(op.CAPABILITY, 4)
    module.put(op.CAPABILITY, 6)
    for own, name in sets:
        imported(module, own, name)
    module.put(op.MEMORY_MODEL, 2, 2)
    module.put(op.ENTRY_POINT, 6, KERNEL, *text_words("k"))
    after_entry(module)
    module.put(op.TYPE_VOID, VOID)
    module.put(op.TYPE_FUNCTION, FUNCTION_TYPE, VOID)
    module.put(op.TYPE_INT, INT, 32, 0)
    module.put(op.CONSTANT, INT, ONE, 1)
    module.put(op.CONSTANT, INT, TWO, 2)
    module.put(op.TYPE_POINTER, POINTER, 7, INT)
    module.put(op.TYPE_BOOL, BOOL)
    module.put(op.CONSTANT_TRUE, BOOL, TRUE)


def kernel(module):
    """Begins the kernel's function and its entry block."""
    module.put(op.FUNCTION, VOID, KERNEL, 0, FUNCTION_TYPE)
    module.put(op.LABEL, ENTRY)


def closed(module):
    """Ends the last block and the function."""
    module.put(op.RETURN)
    module.put(op.FUNCTION_END)
