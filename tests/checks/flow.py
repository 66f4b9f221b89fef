"""Hostile graphs of blocks and of calls: their verdicts, and that time and memory grow with words.

A shape is made twice: large, for its time and memory, and small, for what spirv-val of SPIRV-Tools
says of it.
"""

import os
import subprocess
import threading
from resource import RLIMIT_AS, setrlimit

from shapes import opcodes as op
from shapes.module import ENTRY, FUNCTION_TYPE, INT, KERNEL, ONE, TRUE, VOID, Module, closed, kernel, opened, text_words

from .common import SECONDS, TESTS, Answer, Check, difference, joined

PROFILE = TESTS / "profile.json"
VALID = Answer(b"valid\n", b"", 0)
MOST_WORDS = 4_194_304
WORD = 4
# Seconds of the processor: so many times those of straight code of as many words, or so many.
TIMES = 10
LEAST_SECONDS = 2.0
# Bytes of address space: so many for each byte of the module, and so many beside.
SPACE_OF_BYTE = 40
SPACE = 64 << 20


class Graph(Module):
    """A module in the making, and how many instructions it has."""

    def __init__(self):
        super().__init__(MOST_WORDS)
        self.insts = 0

    def put(self, opcode, *operands):
        super().put(opcode, *operands)
        self.insts += 1

    def labels(self, count):
        return [self.fresh() for _ in range(count)]

    def add(self, left, right):
        """An addition of two values."""
        result = self.fresh()
        self.put(op.I_ADD, INT, result, left, right)
        return result

    def begin(self, entries=(KERNEL,)):
        """All up to the types and constants."""

        def more(module):
            for number, entry in enumerate(entries[1:]):
                module.put(op.ENTRY_POINT, 6, entry, *text_words(f"{number:07}"))

        opened(self, more)

    def kernel(self):
        kernel(self)

    def end(self):
        closed(self)


def straight(graph, count):
    """One block of additions."""
    graph.begin()
    graph.kernel()
    value = ONE
    for _ in range(count):
        value = graph.add(value, ONE)
    graph.end()


def chain(graph, count, backwards=False):
    """A chain of blocks, each of which uses the value of the one before."""
    graph.begin()
    graph.kernel()
    labels = graph.labels(count)
    values = graph.labels(count + 1)
    graph.put(op.I_ADD, INT, values[0], ONE, ONE)
    graph.put(op.BRANCH, labels[0])
    places = range(count)
    for at in reversed(places) if backwards else places:
        graph.put(op.LABEL, labels[at])
        graph.put(op.I_ADD, INT, values[at + 1], ONE if backwards else values[at], ONE)
        if at + 1 < count:
            graph.put(op.BRANCH, labels[at + 1])
        else:
            graph.put(op.RETURN)
    graph.put(op.FUNCTION_END)


def reversed_chain(graph, count):
    """The same with the blocks in the other order, but for the entry block."""
    chain(graph, count, backwards=True)


def far_uses(graph, count):
    """Values of one block, each of which is used in another one."""
    graph.begin()
    graph.kernel()
    values = [graph.add(ONE, ONE) for _ in range(count)]
    for value in values:
        label = graph.fresh()
        graph.put(op.BRANCH, label)
        graph.put(op.LABEL, label)
        graph.add(value, ONE)
    graph.end()


def loops(graph, count, depth=1_000):
    """Nested loops: rounds of so many, one in another."""
    graph.begin()
    graph.kernel()
    for _ in range(count):
        merges = []
        for _ in range(depth):
            header, body, around, merge = graph.labels(4)
            graph.put(op.BRANCH, header)
            graph.put(op.LABEL, header)
            value = graph.add(ONE, ONE)
            graph.put(op.LOOP_MERGE, merge, around, 0)
            graph.put(op.BRANCH_CONDITIONAL, TRUE, body, merge)
            graph.put(op.LABEL, body)
            merges.append((header, around, merge, value))
        for header, around, merge, value in reversed(merges):
            graph.put(op.BRANCH, around)
            graph.put(op.LABEL, around)
            graph.put(op.BRANCH, header)
            graph.put(op.LABEL, merge)
            graph.add(value, ONE)
    graph.end()


def ladder(graph, count):
    """Pairs of blocks, each of which branches to both of the next pair."""
    graph.begin()
    graph.kernel()
    value = graph.add(ONE, ONE)
    pairs = [graph.labels(2) for _ in range(count)]
    graph.put(op.BRANCH_CONDITIONAL, TRUE, *pairs[0])
    for pair, after in zip(pairs, pairs[1:]):
        for label in pair:
            graph.put(op.LABEL, label)
            graph.add(value, ONE)
            graph.put(op.BRANCH_CONDITIONAL, TRUE, *after)
    for label in pairs[-1]:
        graph.put(op.LABEL, label)
        graph.put(op.RETURN)
    graph.put(op.FUNCTION_END)


def phis(graph, count, blocks=30):
    """Blocks with a phi each, all of them with the same many predecessors."""
    graph.begin()
    graph.kernel()
    parents, targets = graph.labels(count), graph.labels(blocks)
    graph.put(op.SWITCH, ONE, parents[0], *(w for at, p in enumerate(parents[1:]) for w in (at, p)))
    cases = [word for at, label in enumerate(targets[1:]) for word in (at, label)]
    for parent in parents:
        graph.put(op.LABEL, parent)
        graph.put(op.SWITCH, ONE, targets[0], *cases)
    pairs = [word for parent in parents for word in (ONE, parent)]
    for label in targets:
        graph.put(op.LABEL, label)
        graph.put(op.PHI, INT, graph.fresh(), *pairs)
        graph.put(op.RETURN)
    graph.put(op.FUNCTION_END)


def switches(graph, count, targets=16_000):
    """Switches, each of which has one block as all of its targets."""
    graph.begin()
    graph.kernel()
    parent = ENTRY
    for _ in range(count):
        label = graph.fresh()
        graph.put(op.SWITCH, ONE, label, *(w for at in range(targets - 1) for w in (at, label)))
        graph.put(op.LABEL, label)
        graph.put(op.PHI, INT, graph.fresh(), ONE, parent)
        parent = label
    graph.end()


def functions(graph, callees, order):
    """Functions in this order, of which number k calls number callees[k], if that is one."""
    first = graph.next
    graph.next += 3 * len(callees)
    places = {}
    for number in order:
        graph.put(op.FUNCTION, VOID, first + 3 * number, 0, FUNCTION_TYPE)
        graph.put(op.LABEL, first + 3 * number + 1)
        if callees[number] is not None:
            places[number] = (graph.insts, len(graph.words))
            graph.put(op.FUNCTION_CALL, VOID, first + 3 * number + 2, first + 3 * callees[number])
        graph.end()
    return first, places


def mixed(count):
    """The numbers below so many, neither rising nor falling."""
    return [*range(0, count, 2), *range(1, count, 2)]


def kernel_that_calls(graph, function):
    graph.kernel()
    graph.put(op.FUNCTION_CALL, VOID, graph.fresh(), function)
    graph.end()


def calls(graph, count):
    """Functions in one chain of calls that goes back and forth in the module."""
    graph.begin()
    callees = [*range(1, count), None]
    first, _ = functions(graph, callees, mixed(count))
    kernel_that_calls(graph, first)


def cycle(graph, count):
    """Functions in one cycle of calls."""
    graph.begin()
    callees = [*range(1, count), 0]
    order = mixed(count)
    first, places = functions(graph, callees, order)
    kernel_that_calls(graph, first)
    inst, word = places[order[0]]
    return Answer(f"fault G1 inst {inst} word {word}\n".encode(), b"", 1)


def entries(graph, count):
    """Functions that are entry points, all but one in their midst, which the others call."""
    first = graph.next
    middle = count // 2
    named = [first + 3 * number for number in range(count) if number != middle]
    graph.begin((KERNEL, *named))
    callees = [middle] * count
    callees[middle] = None
    functions(graph, callees, range(count))
    graph.kernel()
    graph.end()


# Of each shape how many of its parts the large module has.
LARGE = {
    chain: 300_000,
    reversed_chain: 300_000,
    far_uses: 100_000,
    loops: 70,
    ladder: 150_000,
    phis: 30_000,
    switches: 125,
    calls: 300_000,
    cycle: 300_000,
    entries: 150_000,
}

# And the small one, for spirv-val: it wants blocks after those that dominate them, and lets kernels
# have cycles of calls, so two shapes are not among these.
SMALL = {
    chain: 40,
    far_uses: 40,
    loops: 1,
    ladder: 40,
    phis: 40,
    switches: 2,
    calls: 40,
    entries: 40,
}


def made(shape, count, path):
    """Writes the module of a shape: what is to be answered, and how many words it has."""
    graph = Graph()
    wanted = shape(graph, count) or VALID
    words = len(graph.words)
    graph.write(path)
    return wanted, words


def measured(program, module, folder, space):
    """`spv check` in so much address space: its answer, and its seconds of the processor."""
    out, err = folder / "out", folder / "err"
    with out.open("wb") as to_out, err.open("wb") as to_err:
        process = subprocess.Popen(
            [str(program), "check", "--grammar", str(PROFILE), str(module)],
            cwd=folder,
            stdin=subprocess.DEVNULL,
            stdout=to_out,
            stderr=to_err,
            preexec_fn=lambda: setrlimit(RLIMIT_AS, (space, space)),
        )
        late = threading.Timer(SECONDS, process.kill)
        late.start()
        _, status, used = os.wait4(process.pid, 0)
        late.cancel()
        ended_by = os.WTERMSIG(status)
        process.returncode = -ended_by if ended_by else os.WEXITSTATUS(status)
    answer = Answer(out.read_bytes(), err.read_bytes(), process.returncode)
    return answer, used.ru_utime + used.ru_stime


def space_of(words):
    """The address space that a module of so many words is read in."""
    return SPACE + SPACE_OF_BYTE * WORD * words


def compared(shape, size, program, folder):
    """A made module of a shape, the answer that is wanted, what is wrong with the one it gets, its words, and the
    seconds."""
    module = folder / "module.spv"
    wanted, words = made(shape, size, module)
    got, seconds = measured(program, module, folder, space_of(words))
    return module, wanted, None if got == wanted else difference(wanted, got), words, seconds


def large(shape):
    """The check of a large module: its answer, in bounded time and memory."""

    def check(program, folder):
        module, _, wrong, words, seconds = compared(shape, LARGE[shape], program, folder)
        if wrong:
            return wrong
        made(straight, words // 5, module)
        _, plainly = measured(program, module, folder, space_of(words))
        most = max(LEAST_SECONDS, TIMES * plainly)
        module.unlink()
        if seconds > most:
            return f"  {seconds:.2f} seconds for {words} words; straight code takes {plainly:.2f}"
        return None

    return check


def small(shape):
    """The check that spirv-val says the same of a small module."""

    def check(program, folder):
        module, wanted, wrong, _, _ = compared(shape, SMALL[shape], program, folder)
        if wrong:
            return wrong
        said, status = joined(["spirv-val", "--target-env", "spv1.6", module], folder)
        if (status == 0) != (wanted == VALID):
            return f"  wanted: {wanted}\n  spirv-val: exit {status}: {said.decode(errors='replace')}"
        return None

    return check


def checks():
    """Each shape large, and small beside spirv-val."""
    layers = frozenset({"flow", "calls"})
    found = [Check(f"flow: {shape.__name__}", layers, large(shape)) for shape in LARGE]
    tools = frozenset({"spirv-val"})
    for shape in SMALL:
        name = f"flow beside spirv-val: {shape.__name__}"
        found.append(Check(name, layers, small(shape), tools))
    return found
