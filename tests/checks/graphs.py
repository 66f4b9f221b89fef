"""Functions of hostile and of random blocks: what is said of them beside the second reading, which finds values by
sets, and of large ones beside what is known of how they were made.
"""

import random

from reading.verdict import grammar_in, verdict
from shapes.hostile import HOSTILE, random_function
from shapes.graphs import walk_length
from shapes.module import Module

from . import explained
from .common import TESTS, Check
from .faults import Insts

PROFILE = TESTS / "profile.json"
LAYERS = explained.LAYERS
SEED = 20_261_126
# The bytes of a small module, of which the second reading takes less than a second.
SMALL = 24_000
# How many blocks the random functions have, and of how many seeds each.
SIZES = {10: 30, 40: 20, 150: 8, 500: 2}
LARGE = (2_000, 20_000, 100_000)


def beside_reading(program, path, grammar):
    """None if the program says of a module and explains what the second reading does."""
    wanted = verdict(grammar, path.read_bytes())
    got = explained.output(program, "check", "--grammar", PROFILE, path).strip()
    return f"  {path.name}: {got}, and not {wanted}" if got != wanted else explained.difference(program, path, grammar)


def hostile(name):
    """The check of a small function of tests/shapes/hostile.py."""

    def check(program, folder):
        module, path = Module(SMALL // 4), folder / f"{name}.spv"
        HOSTILE[name](module)
        module.write(path)
        return beside_reading(program, path, grammar_in(PROFILE))

    return check


def of_blocks(count, rounds):
    """The check of random functions of so many blocks, sound ones and ones with a fault."""

    def check(program, folder):
        grammar, wrong = grammar_in(PROFILE), []
        for number in range(2 * rounds):
            seed = f"{SEED} {count} {number // 2}"
            module, path = Module(64 * count), folder / f"random-{count}-{number}.spv"
            made = random_function(module, random.Random(seed), count, has_fault=number % 2 == 1)
            module.write(path)
            is_sound = made.fault is None
            if is_sound != (verdict(grammar, path.read_bytes()) == "valid"):
                wrong.append(f"  {path.name}: tests/shapes makes what tests/reading does not see")
            found = beside_reading(program, path, grammar)
            wrong += [f"{found}\n  seed {seed!r}"] if found else []
            path.unlink()
        return "\n".join(wrong) or None

    return check


def wrong_walk(made, insts, lines):
    """What is wrong in the lines that explain the fault of a random function, or None."""
    fault, numbers = made.fault, {label: at for at, label in enumerate(made.labels)}
    defined = insts.of_result(made.values[fault.other])
    found = dict(line.split(": ", 1) for line in lines[1:])
    walk = [numbers[int(word[1:])] for word in found["walk"].split()]
    if fault.parent is None:
        number, rule = insts.of_result(made.values[fault.block]), "A1"
    else:
        # The phi stands right after the label, and the walk goes on to its block.
        number, rule = insts.of_result(made.labels[fault.block]) + 1, "A2"
        walk.pop()
    wanted = f"fault {rule} inst {number} word {insts.places[number]}"
    if lines[0] != wanted or not found["defined"].startswith(f"inst {defined}, "):
        return f"  {lines[0]}, and not {wanted}, or {found['defined']}, and not inst {defined}"
    leads = all(to in made.targets[at] and at != fault.other for at, to in zip(walk, walk[1:]))
    if not leads or walk[0] != 0 or walk[-1] != fault.goal:
        return "  the walk is none"
    length = walk_length(made.targets, fault.goal, {fault.other})
    return None if len(walk) == length else f"  a walk of {len(walk)} blocks, and not of {length}"


def large(count):
    """The check of large random functions: one that is sound, and one with a fault."""

    def check(program, folder):
        for has_fault in (False, True):
            module, path = Module(64 * count), folder / f"random-{count}.spv"
            made = random_function(module, random.Random(f"{SEED} {count}"), count, has_fault)
            module.write(path)
            lines = explained.output(program, "explain", "--grammar", PROFILE, path).split("\n")[:-1]
            wrong = wrong_walk(made, Insts(module), lines) if has_fault else None
            if wrong or (not has_fault and lines != ["valid"]):
                return wrong or f"  {lines[:1]}, and not valid"
            path.unlink()
        return None

    return check


def checks():
    """The functions of tests/shapes/hostile.py, and random ones."""
    found = [Check(f"graphs: {name}", LAYERS, hostile(name)) for name in HOSTILE]
    for count, rounds in SIZES.items():
        found.append(Check(f"graphs: {count} random blocks", LAYERS, of_blocks(count, rounds)))
    return found + [Check(f"graphs: {count} random blocks, large", LAYERS, large(count)) for count in LARGE]
