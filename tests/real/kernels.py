"""Random kernels in OpenCL C, of what the profile has rules for: arithmetic on all widths and vectors, conversions,
calls of functions and of OpenCL.std, arrays, a structure, branches, loops, switches, atomics and barriers. What the
profile leaves out comes where it is asked for: images, copies that a group waits for, what groups and subgroups find
together, tests of floats, products of vectors, counts of bits, conversions that saturate."""

import random
from dataclasses import dataclass

INTEGERS = ("char", "uchar", "short", "ushort", "int", "uint", "long", "ulong")
FLOATS = ("float", "double")
WIDTHS = (1, 1, 1, 2, 3, 4, 8)
# Calls of OpenCL.std with so many operands, all of the type of the result.
CALLS_OF_INTEGERS = {"min": 2, "max": 2, "mul_hi": 2, "clz": 1, "rotate": 2, "mad_hi": 3, "clamp": 3}
CALLS_OF_FLOATS = {"fmin": 2, "pow": 2, "copysign": 2, "sin": 1, "sqrt": 1, "floor": 1, "mad": 3, "clamp": 3}
EFFECTS = (
    "barrier(CLK_LOCAL_MEM_FENCE);",
    "mem_fence(CLK_GLOBAL_MEM_FENCE);",
    "atomic_inc(counter);",
    "atomic_add(counter, (int)at);",
    "atomic_cmpxchg(counter, 1, 2);",
)
# The same of what `--opencl` takes besides.
MORE_OF_INTEGERS = {"popcount": 1, "add_sat": 2, "hadd": 2, "abs_diff": 2}
GROUPS = ("work_group", "sub_group")
GROUPED = ("reduce_add", "reduce_min", "reduce_max", "scan_inclusive_add", "scan_exclusive_max", "scan_inclusive_min")
TESTS_OF_ONE = ("isnan", "isinf", "isfinite", "isnormal", "signbit")
TESTS_OF_TWO = ("isordered", "isunordered", "islessgreater", "isequal", "isless", "isgreaterequal")
MORE_EFFECTS = (
    "work_group_barrier(CLK_GLOBAL_MEM_FENCE, memory_scope_device);",
    "if (!atomic_flag_test_and_set(flag)) atomic_flag_clear(flag);",
    "{ int old = 1; atomic_compare_exchange_weak(exact, &old, (int)at); out[old & 255] += 1; }",
    "{ event_t got = async_work_group_copy(shared, (global uint *)out, 32, 0); wait_group_events(1, &got); }",
    "write_imagef(drawn, (int2)((int)at & 7, 1), read_imagef(seen, chosen, (float2)(first, 0.5f)));",
    "write_imagef(drawn, (int2)(3, (int)at & 7), read_imagef(seen, kept, (int2)(number, 2)));",
    "out[1] += get_image_width(seen) + get_image_height(drawn) + get_image_channel_order(seen);",
    "if (work_group_all(number > 3) || work_group_any(number < 0)) out[2] += 1;",
    "if (sub_group_all(number > 5) && !sub_group_any(number < 1)) out[3] += sub_group_broadcast(number, 1);",
    "out[4] += get_sub_group_size() + get_sub_group_local_id(); sub_group_barrier(CLK_LOCAL_MEM_FENCE);",
    "prefetch(out + 8, 4);",
)
# What invocations of a subgroup do that need not all be there, which modules have from version 1.3 on.
LATE = 3
LATE_EFFECTS = (
    "{ uint4 votes = sub_group_ballot(number > 3); out[5] += sub_group_ballot_bit_count(votes)"
    " + sub_group_inverse_ballot(votes) + sub_group_ballot_bit_extract(votes, 3); }",
    "out[6] += sub_group_shuffle(number, 3) + sub_group_shuffle_up(number, 1) + sub_group_elect();",
    "out[7] += sub_group_non_uniform_reduce_and(number) + sub_group_clustered_reduce_max(number, 4);",
    "first += sub_group_non_uniform_scan_inclusive_mul(first) + sub_group_broadcast_first(first);",
    "out[8] += sub_group_non_uniform_all(number) + sub_group_non_uniform_all_equal(first);",
)
# How many expressions stand in one another, and how many statements.
DEPTH = 2
NESTED = 3


@dataclass(frozen=True)
class Type:
    """A scalar, or a vector of that."""

    scalar: str
    width: int = 1

    def __str__(self):
        return self.scalar + (str(self.width) if self.width > 1 else "")

    def is_float(self):
        return self.scalar in FLOATS


@dataclass(frozen=True)
class Variable:
    name: str
    type: Type


INT = Type("int")


class Kernel:
    """The text of a kernel file that a seed gives."""

    def __init__(self, seed, has_more=False):
        self.chance = random.Random(seed)
        self.count, self.has_more = 0, has_more
        # The least minor number of the versions that have it all.
        self.least = LATE if has_more and self.chance.random() < 0.3 else 0
        self.functions = []

    def fresh(self):
        """A name that nothing has yet."""
        self.count += 1
        return f"it{self.count}"

    def type(self):
        return Type(self.chance.choice(INTEGERS + FLOATS), self.chance.choice(WIDTHS))

    def literal(self, of):
        number = self.chance.choice(("1.5", "-0.25", "3.0")) if of.is_float() else self.chance.randrange(100)
        return f"({of})({number})"

    def leaf(self, of, known):
        """A variable of a type, or a literal of it."""
        names = [it.name for it in known if it.type == of]
        return self.chance.choice(names) if names and self.chance.random() < 0.8 else self.literal(of)

    def expression(self, of, known, depth=DEPTH):
        """An expression of a type. Scalars are cast to it, since those of few bits become an int."""
        if depth == 0:
            return self.leaf(of, known)
        forms = [self.operation, self.operation, self.call, self.conversion]
        forms += [self.choice, self.component] if of.width == 1 else [self.shuffle]
        if self.has_more:
            forms += [self.more_calls, self.saturated, self.more_calls] + ([self.scalar] if of.width == 1 else [])
        return f"({of})({self.chance.choice(forms)(of, known, depth - 1)})"

    def operation(self, of, known, depth):
        one, other = (self.expression(of, known, depth) for _ in range(2))
        if of.is_float():
            return f"{one} {self.chance.choice('+-*/')} {other}"
        sign = self.chance.choice(("+", "-", "*", "&", "|", "^", "<<", ">>", "/", "%"))
        if sign in ("<<", ">>"):
            other = f"({of})({self.chance.randrange(8)})"
        return f"{one} {sign} ({other} | ({of})(1))" if sign in ("/", "%") else f"{one} {sign} {other}"

    def call(self, of, known, depth):
        calls = CALLS_OF_FLOATS if of.is_float() else CALLS_OF_INTEGERS
        name = self.chance.choice(list(calls))
        return f"{name}({', '.join(self.expression(of, known, depth) for _ in range(calls[name]))})"

    def conversion(self, of, known, depth):
        other = Type(self.chance.choice(INTEGERS + FLOATS), of.width)
        return f"convert_{of}({self.expression(other, known, depth)})"

    def more_calls(self, of, known, depth):
        """A call of what the profile leaves out."""
        if of.is_float():
            return self.product(of, known, depth) if of.width == 1 else self.blended(of, known, depth)
        name = self.chance.choice(list(MORE_OF_INTEGERS))
        given = ", ".join(self.expression(of, known, depth) for _ in range(MORE_OF_INTEGERS[name]))
        return f"convert_{of}({name}({given}))" if name == "abs_diff" else f"{name}({given})"

    def product(self, of, known, depth):
        vector = Type(of.scalar, self.chance.choice((2, 3, 4)))
        one, other = (self.expression(vector, known, depth) for _ in range(2))
        return f"dot({one}, {other})"

    def blended(self, of, known, depth):
        """A float of vectors by a test of each component."""
        one, other = (self.expression(of, known, depth) for _ in range(2))
        return f"select({one}, {other}, {self.test(one, other)})"

    def test(self, one, other):
        """A test of floats, for each component."""
        if self.chance.random() < 0.5:
            return f"{self.chance.choice(TESTS_OF_ONE)}({one})"
        return f"{self.chance.choice(TESTS_OF_TWO)}({one}, {other})"

    def scalar(self, of, known, depth):
        """A number of a test of a whole vector."""
        vector = Type(self.chance.choice(FLOATS), self.chance.choice((1, 2, 4)))
        one, other = (self.expression(vector, known, depth) for _ in range(2))
        told = self.test(one, other)
        return f"({of})({self.chance.choice(('any', 'all'))}({told}))" if vector.width > 1 else f"({of})({told})"

    def saturated(self, of, known, depth):
        if of.is_float():
            return self.conversion(of, known, depth)
        other = Type(self.chance.choice(INTEGERS + FLOATS), of.width)
        return f"convert_{of}_sat({self.expression(other, known, depth)})"

    def grouped(self, known, _):
        """What a group finds together of a number."""
        scalar = self.chance.choice(("int", "uint", "long", "ulong", "float", "double"))
        it = Variable(self.fresh(), Type(scalar))
        call = f"{self.chance.choice(GROUPS)}_{self.chance.choice(GROUPED)}"
        line = f"{it.type} {it.name} = {call}({self.expression(it.type, known, 1)});"
        known.append(it)
        return [line]

    def more_effect(self, *_):
        return [self.chance.choice(MORE_EFFECTS + (LATE_EFFECTS if self.least else ()))]

    def choice(self, of, known, depth):
        one, other = (self.expression(of, known, depth) for _ in range(2))
        return f"{self.condition(known)} ? {one} : {other}"

    def component(self, of, known, depth):
        vector = Type(of.scalar, self.chance.choice((2, 3, 4)))
        return f"({self.expression(vector, known, depth)}).{self.chance.choice('xyzw'[: vector.width])}"

    def shuffle(self, of, known, depth):
        places = "".join(self.chance.choice("01234567"[: of.width]) for _ in range(of.width))
        return f"({self.expression(of, known, depth)}).s{places}"

    def condition(self, known):
        of = Type(self.chance.choice(INTEGERS + FLOATS))
        one, other = (self.expression(of, known, 1) for _ in range(2))
        return f"({one} {self.chance.choice(('<', '>', '==', '<=', '!='))} {other})"

    def block(self, known, nested, is_looped=False):
        """The lines of some statements between braces."""
        known, lines = list(known), ["{"]
        for _ in range(self.chance.randrange(1, 5)):
            forms = [self.definition, self.definition, self.assignment, self.output, self.effect]
            forms += [self.array, self.result]
            if self.has_more and nested == NESTED:
                forms += [self.grouped, self.more_effect]
            if nested:
                forms += [self.branch, self.loop, self.countdown, self.switch]
            if is_looped:
                forms.append(self.leave)
            lines += self.chance.choice(forms)(known, nested)
        return [*lines, "}"]

    def definition(self, known, _):
        it = Variable(self.fresh(), self.type())
        line = f"{it.type} {it.name} = {self.expression(it.type, known)};"
        known.append(it)
        return [line]

    def assignment(self, known, _):
        it = self.chance.choice(known)
        return [f"{it.name} {self.chance.choice(('=', '+=', '-='))} {self.expression(it.type, known)};"]

    def output(self, known, _):
        it = self.chance.choice(known)
        return [f"out[at & 255] += (int)({it.name}{'.x' if it.type.width > 1 else ''});"]

    def effect(self, *_):
        return [self.chance.choice(EFFECTS)]

    def array(self, known, _):
        it, name = self.chance.choice(known), self.fresh()
        return [
            f"{{ {it.type} {name}[4];",
            f"for (int n = 0; n < 4; ++n) {name}[n] = {self.expression(it.type, known, 1)};",
            f"{it.name} = {name}[(at + {self.chance.randrange(4)}) & 3]; }}",
        ]

    def result(self, known, nested):
        """What a call of a function of the file answers."""
        if not self.functions:
            return self.definition(known, nested)
        name, of, parameters = self.chance.choice(self.functions)
        it = Variable(self.fresh(), of)
        given = ", ".join(self.expression(each, known, 1) for each in parameters)
        line = f"{of} {it.name} = {name}({given}, out, counter, at);"
        known.append(it)
        return [line]

    def branch(self, known, nested):
        lines = [f"if {self.condition(known)}", *self.block(known, nested - 1)]
        return [*lines, "else", *self.block(known, nested - 1)] if self.chance.random() < 0.5 else lines

    def loop(self, known, nested):
        it = Variable(self.fresh(), INT)
        head = f"for (int {it.name} = 0; {it.name} < {self.chance.randrange(2, 9)}; ++{it.name})"
        return [head, *self.block([*known, it], nested - 1, True)]

    def countdown(self, known, nested):
        name = self.fresh()
        lines = [f"int {name} = {self.chance.randrange(9)};", f"while ({name}-- > 0)"]
        return [*lines, *self.block(known, nested - 1, True)]

    def switch(self, known, nested):
        lines = [f"switch ({self.expression(INT, known, 1)}) {{"]
        for case in sorted(self.chance.sample(range(100), self.chance.randrange(1, 5))):
            lines += [f"case {case}:", *self.block(known, nested - 1)]
            lines += ["break;"] if self.chance.random() < 0.7 else []
        return [*lines, "default:", *self.block(known, nested - 1), "}"]

    def leave(self, known, _):
        return [f"if {self.condition(known)} {self.chance.choice(('break', 'continue'))};"]

    def function(self):
        """The lines of a function, which the rest of the file may call."""
        name, of = self.fresh(), self.type()
        parameters = [Variable(self.fresh(), self.type()) for _ in range(self.chance.randrange(1, 4))]
        given = ", ".join(f"{it.type} {it.name}" for it in parameters)
        lines = [f"{of} {name}({given}, global int *out, global volatile int *counter, size_t at)", "{"]
        lines += self.block(parameters, 1)
        lines += [f"return {self.expression(of, parameters)};", "}"]
        self.functions.append((name, of, [it.type for it in parameters]))
        return lines

    def text(self):
        """The whole file."""
        lines = ["#pragma OPENCL EXTENSION cl_khr_subgroups : enable"] if self.has_more else []
        lines += ["struct whole { int one; float4 four; uchar few[5]; long last; };"]
        for _ in range(self.chance.randrange(4)):
            lines += self.function()
        space = self.chance.choice(("global", "constant"))
        more = ""
        if self.has_more:
            kept = "CLK_NORMALIZED_COORDS_FALSE | CLK_ADDRESS_CLAMP | CLK_FILTER_NEAREST"
            lines.append(f"constant sampler_t kept = {kept};")
            more = ", read_only image2d_t seen, write_only image2d_t drawn, sampler_t chosen"
            more += ", volatile global atomic_flag *flag, volatile global atomic_int *exact"
        lines += [
            f"kernel void random(global int *out, {space} const float *in, global volatile int *counter,",
            f"                   local uint *shared, float4 vector, int number{more})",
            "{",
            "size_t at = get_global_id(0), beside = get_local_id(0);",
            "shared[beside & 63] = (uint)at;",
            "float first = in[at & 255];",
            "struct whole own; own.one = number; own.four = vector; own.few[at & 3] = 7; own.last = at;",
            "struct whole other = own; number += other.one + other.few[1];",
        ]
        known = [Variable("first", Type("float")), Variable("vector", Type("float", 4)), Variable("number", INT)]
        for _ in range(2):
            lines += self.block(known, NESTED)
        return "\n".join([*lines, "out[at & 255] = number + (int)shared[(beside + 1) & 63] + (int)first;", "}", ""])
