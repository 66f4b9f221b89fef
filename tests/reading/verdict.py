"""The verdict on a module's bytes."""

import json

from .decode import Broken, Grammar, instructions, words_of
from .extended import check_miscalls, opened
from .flow import check_flow
from .opencl_std import check_types_of_calls
from .order import check_ids, check_layout, check_shapes
from .profiles import Profile
from .standard import check_standard
from .types import check_types


def grammar_in(path):
    """The grammar of a file."""
    return Grammar(json.loads(path.read_text(encoding="utf-8")))


def verdict(grammar, content, has_types=True, has_flow=True, profile=Profile.OWN, has_standard=True):
    """The verdict line on a module, without its line feed, with or without the last stages, by how far it is looked
    at."""
    try:
        words = words_of(content, profile)
        insts = instructions(grammar, words)
        insts = opened(insts) if profile >= Profile.EXTENDED else insts
        check_shapes(insts, profile)
        check_layout(insts, profile)
        definitions, places, local = check_ids(insts, words[3])
        types = check_types(grammar, insts, definitions, places) if has_types else None
        if has_flow:
            check_flow(insts, local, words[1])
        if profile >= Profile.EXTENDED:
            check_miscalls(insts)
        if profile >= Profile.OPENCL and types:
            check_types_of_calls(types)
            if has_flow and has_standard:
                check_standard(types, local, words[1])
    except Broken as broken:
        return broken.line
    return "valid"
