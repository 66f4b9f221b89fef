"""Texts of JSON that make as many nodes of a tree, or as much of a table, as their octets allow.

Each shape is a list of equal parts; how many of them there are makes the size. A text is one of them alone, or the
member of a grammar file that has lists.
"""

import json

# The deepest that lists may nest, and how deep they nest within a list and within a member of the grammar file.
LEVELS = 127
WITHIN_LIST, WITHIN_MEMBER = LEVELS - 1, LEVELS - 2

# What the elements of a list are, and what stands between two of them.
ELEMENTS = {
    "numbers": "1",
    "fractions": "1.5",
    "long-numbers": "12345678901234567890",
    "lists": "[]",
    "objects": "{}",
    "texts": '""',
    "escapes": r'"\n"',
    "words": "null",
    "members": '{"":1}',
    "equal-members": '{"":1,"":1,"":1}',
    "pairs": "[1,1]",
    "lists-of-one": "[[1]]",
    "entries": '{"opname":"","opcode":0}',
    "kinds": '{"kind":"","category":"Id"}',
}

# The beginning and the end of a grammar file in which a list of very many elements stands, and these; where an element
# has a `{}`, each one has a number of its own there.
LISTED = {
    "operands": ('{"instructions":[{"opname":"A","opcode":1,"operands":[', '{"kind":"A"}', "]}]"),
    "no-needs": ('{"instructions":[{"opname":"A","opcode":1,"capabilities":[', '""', "]}]"),
    "needs": ('{"instructions":[{"opname":"A","opcode":1,"capabilities":[', '"A"', "]}]"),
    "instructions": ('{"instructions":[', '{"opname":"A","opcode":1}', "]"),
    "listed-needs": ('{"instructions":[', '{"opname":"A","opcode":1,"capabilities":["{}"]}', "]"),
    "patterns": ('{"instructions":[', '{"opname":"A","opcode":1,"operands":[{"kind":"A"}]}', "]"),
}
KINDS = ',"operand_kinds":[{"kind":"A","category":"Id"}]}'
OF_KINDS = {
    "enumerants": ('{"kind":"B","category":"ValueEnum","enumerants":[', '{"enumerant":"","value":1}', "]}"),
    "values": ('{"kind":"B","category":"ValueEnum","enumerants":[', '{"enumerant":"A","value":{}}', "]}"),
    "bits": ('{"kind":"B","category":"BitEnum","enumerants":[', '{"enumerant":"","value":"0x1"}', "]}"),
    "values-needs": (
        '{"kind":"B","category":"ValueEnum","enumerants":[{"enumerant":"","value":1,"capabilities":[',
        '"A"',
        "]}]}",
    ),
    "parameters": (
        '{"kind":"B","category":"ValueEnum","enumerants":[{"enumerant":"","value":1,"parameters":[',
        '{"kind":"A"}',
        "]}]}",
    ),
    "bases": ('{"kind":"B","category":"Composite","bases":[', '"A"', "]}"),
    "ids": (None, '{"kind":"{}","category":"Id"}', None),
    "composites": (None, '{"kind":"{}","category":"Composite","bases":["A"]}', None),
    "no-values": (None, '{"kind":"{}","category":"ValueEnum","enumerants":[]}', None),
    "small-values": (
        None,
        '{"kind":"{}","category":"ValueEnum","enumerants":[{"enumerant":"","value":63}]}',
        None,
    ),
    "large-values": (
        None,
        '{"kind":"{}","category":"ValueEnum","enumerants":[{"enumerant":"","value":64}]}',
        None,
    ),
}


def repeated(size, begin, element, end):
    """So many octets of a list of elements."""
    room, numbered = size - len(begin) - len(end), "{}" in element[1:]
    if not numbered:
        return f"{begin}{','.join([element] * max(1, room // (len(element) + 1)))}{end}"
    front, back = element.rsplit("{}", 1)
    count = max(1, room // (len(element) + 5))
    return f"{begin}{','.join(f'{front}{at}{back}' for at in range(count))}{end}"


def alone(element):
    """A list of such elements and nothing else: no object, J2."""
    return lambda size: repeated(size, "[", element, "]")


def member(element):
    """The same as the instructions of a grammar file."""
    return lambda size: repeated(size, '{"instructions":[', element, '],"operand_kinds":[]}')


def listed(begin, element, end):
    """A grammar file with a list of instructions."""
    return lambda size: repeated(size, begin, element, end + KINDS)


def of_kinds(begin, element, end):
    """A grammar file with a list of kinds, or with a list in its second kind."""
    head = '{"instructions":[],"operand_kinds":[{"kind":"A","category":"Id"},'
    if begin is None:
        return lambda size: repeated(size, head, element, "]}")
    return lambda size: repeated(size, head + begin, element, f"{end}]}}")


def nested(levels):
    """Lists within lists."""
    return "[" * levels + "]" * levels


def one_object(size):
    """An object of very many members, all with one key."""
    return repeated(size, "{", '"":1', "}")


def keys(size):
    """An object of very many members with keys of their own."""
    return json.dumps({f"{at:07}": 1 for at in range(size // 12)}, separators=(",", ":"))


# Each text by its size in octets.
TREES = {
    **{name: alone(element) for name, element in ELEMENTS.items()},
    "nested": alone(nested(WITHIN_LIST)),
    "nested-twice": alone(nested(WITHIN_LIST // 2)),
    "object": one_object,
    "keys": keys,
    **{f"instructions-{name}": member(element) for name, element in ELEMENTS.items()},
    "instructions-nested": member(nested(WITHIN_MEMBER)),
    **{f"grammar-{name}": listed(*parts) for name, parts in LISTED.items()},
    **{f"grammar-{name}": of_kinds(*parts) for name, parts in OF_KINDS.items()},
}
