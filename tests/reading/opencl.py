"""What `--opencl` adds to the profile: the shapes of its instructions, and where they stand.

The tables of order.py hold all of it, since P1 and L1 alone tell it from the profile: of a module that these let pass
without the option no other rule meets an instruction of here, or an OpExtInst outside blocks.
"""

# Opcodes, whether a block's body may have them, and the shape, as in order.py. `[M v*]` is a mask and any number of
# values behind it, or nothing; `M v*` the same with the mask always there.
SHAPES = (
    ("25", False, "R t Dim W W W W ImageFormat AccessQualifier?"),
    ("26 34-37 73 322 327", False, "R"),
    ("27", False, "R t"),
    ("38", False, "R AccessQualifier"),
    ("45", False, "T R SamplerAddressingMode W SamplerFilterMode"),
    ("74", False, "a a*"),
    ("75", False, "a (a W)*"),
    ("323", False, "T R W W W"),
    ("331", False, "f ExecutionMode+"),
    ("332 5632", False, "a Decoration+"),
    ("5633", False, "a W Decoration+"),
    ("60", True, "T R v v v"),
    ("69 100-102 104 106 107 116 118 119 154-160 204 205 400", True, "T R v"),
    ("86 103 142 148-152 161-163", True, "T R v v"),
    ("88", True, "T R v v ImageOperands v*"),
    ("95 98", True, "T R v v [ImageOperands v*]"),
    ("99", True, "v v v [ImageOperands v*]"),
    ("123", True, "T R v StorageClass"),
    ("201", True, "T R v v v v"),
    ("202 203", True, "T R v v v"),
    ("231", True, "T R v c m m v v"),
    ("259", True, "T R c v v v v v"),
    ("260", True, "c v v"),
    ("261 262", True, "T R c v"),
    ("263", True, "T R c v v"),
    ("264-271", True, "T R c GroupOperation v"),
    ("274 275 278 279", True, "T R v v v v"),
    ("276 277", True, "T R v v v v v v"),
    ("280 281", True, "v v v v"),
    ("282 300", True, "T R v"),
    ("283 284", True, "T R v v v"),
    ("285 286", True, "T R c v v v v"),
    ("287 288", True, "c v v v v"),
    ("291", True, "T R v v v v"),
    ("292", True, "T R v v v v v v f v v v v*"),
    ("293 294 325", True, "T R v f v v v"),
    ("295 296 326", True, "T R f v v v"),
    ("297 298", True, "v"),
    ("299 303", True, "T R"),
    ("301", True, "v v"),
    ("302", True, "v v v"),
    ("304", True, "T R v v v"),
    ("318", True, "T R v c m"),
    ("319 329", True, "v c m"),
    ("321 324 328", True, "T R v"),
    ("333", True, "T R c"),
    ("334-336 338-340 343 344", True, "T R c v"),
    ("337 341 345-348 365 366", True, "T R c v v"),
    ("342", True, "T R c GroupOperation v"),
    ("349-364", True, "T R c GroupOperation v v?"),
    ("401-403", True, "T R v v"),
    ("4450-4452", True, "T R v v PackedVectorFormat?"),
    ("4453-4455", True, "T R v v v PackedVectorFormat?"),
)

# What stands in a section besides, by the place of the section in order.py.
MODES, DECORATIONS, DECLARED = 5, 9, 10
MORE_IN_SECTIONS = {
    MODES: {331},
    DECORATIONS: {73, 74, 75, 332, 5632, 5633},
    DECLARED: {25, 26, 27, 34, 35, 36, 37, 38, 322, 327, 45, 323},
}

# An OpExtInst leaves these states of the layout as they are, and opens section 9 as a line does.
EXTENDED = 12
PASSED = ("between", "variables", "phis", "body")
