"""The conditions of the rows that `--opencl` adds to the tables of types, constants and operations: their words, when
each holds, and which there are of each opcode. As in conditions.py, which reads these tables beside its own; `-` is the
seat of conditions that are reported at no operand."""

from . import objects
from .forms import (
    BOOL,
    DEVICE_EVENT,
    EVENT,
    FLOAT,
    IMAGE,
    INT,
    NAMED_BARRIER,
    PIPE,
    PIPE_STORAGE,
    QUEUE,
    RESERVE_ID,
    SAMPLED_IMAGE,
    SAMPLER,
    STRUCT,
    VOID,
)
from .objects import CROSS_WORKGROUP, CUBE, OF_IMAGE, WORKGROUP
from .order import SHAPE_OF, taken

OF_FORMS = {
    "Image": ("an image type", IMAGE),
    "Sampler": ("a sampler type", SAMPLER),
    "Event": ("an event type", EVENT),
    "DeviceEvent": ("a device event type", DEVICE_EVENT),
    "ReserveId": ("a reserve id type", RESERVE_ID),
    "Queue": ("a queue type", QUEUE),
    "Pipe": ("a pipe type", PIPE),
    "PipeStorage": ("a pipe storage type", PIPE_STORAGE),
    "NamedBarrier": ("a named barrier type", NAMED_BARRIER),
}
POINTED_TO = ("Image", "Event", "DeviceEvent")
# How many values stand before those of the mask of image operands.
BEHIND_MASK = {88: 2, 95: 2, 98: 2, 99: 3}
SAMPLED = 88


def wide(row):
    """The row as objects.py looks at it."""
    return objects.Row(row.types, row.number, row.inst, taken(SHAPE_OF[row.inst.opcode], row.inst.operands))


def images(row, of):
    """The operands of an image type: of itself, of what a pointer points to, or of a sampled image type's."""
    types = row.types
    inner = types.rest(of)[0] if types.form(of) == SAMPLED_IMAGE else types.pointer(of)[1] or of
    return objects.Image(types, inner) if types.form(inner) == IMAGE else None


def of_images(holds):
    """A condition of a type that wants images: of their operands and the looked at row."""
    return lambda row, at, s, w: images(row, w) is not None and holds(wide(row), images(row, w), s)


def of_image(holds):
    """A condition of an image type: of its operands."""
    return lambda row, at, s, w: row.types.form(s) == IMAGE and holds(objects.Image(row.types, s))


def of_row(holds):
    """A condition of a type alone: of the row and the type."""
    return lambda row, at, s, w: bool(holds(wide(row), s))


def literal(holds):
    """A condition of a number that stands in the instruction."""
    return lambda row, at, s, w: holds(row.inst.operands[at][1])


def counted(scalars, holds):
    """A condition on the components of a type, and on how many there are for images."""
    return of_images(lambda it, image, s: it.is_of(scalars, s) and holds(image, it.count(s)))


def is_across(row, s, w):
    classes = sorted(row.types.pointer(it)[0] or 0 for it in (s, w))
    return classes == [WORKGROUP, CROSS_WORKGROUP]


def points_to_width(row, s, width):
    pointed = row.types.pointer(s)[1]
    return row.types.form(pointed) == INT and row.types.rest(pointed)[0] == width


def mask(row):
    """The mask of image operands."""
    return wide(row).kinds.get("ImageOperands", 0)


def has_mask(row):
    """Whether the mask has bits that the opcode takes, and as many values behind it."""
    bits = [1 << bit for bit in range(32) if mask(row) >> bit & 1]
    if any(it not in objects.IMAGE_OPERANDS for it in bits):
        return False
    found = sum(map(objects.IMAGE_OPERANDS.get, bits))
    levels = [it for it in bits if it in (objects.LOD, objects.GRAD)]
    is_sampled = row.inst.opcode == SAMPLED
    are_levels = len(levels) == 1 and objects.SAMPLE not in bits if is_sampled else objects.GRAD not in levels
    return are_levels and found == len(wide(row).ids) - BEHIND_MASK[row.inst.opcode] and has_one_sign(row)


def has_one_sign(row):
    return mask(row) & (objects.SIGN_EXTEND | objects.ZERO_EXTEND) != objects.SIGN_EXTEND | objects.ZERO_EXTEND


def has_sign(row, texel):
    extends = mask(row) & (objects.SIGN_EXTEND | objects.ZERO_EXTEND)
    return extends == 0 or has_one_sign(row) and row.types.is_of(INT, texel)


def has_sample(row, of):
    image = images(row, of)
    return image is None or bool(mask(row) & objects.SAMPLE) == (image.is_multiple == 1)


def have_types(row):
    """Whether each image operand has its type."""
    it, at = wide(row), BEHIND_MASK[row.inst.opcode]
    image = images(row, it.o)
    for bit in (1 << bit for bit in range(32) if mask(row) >> bit & 1):
        count = objects.IMAGE_OPERANDS[bit]
        ids, tags = it.ids[at : at + count], it.tags[at : at + count]
        if not it.is_image_operand(image, bit, ids, tags, it.inst.opcode == SAMPLED):
            return False
        at += count
    return True


def has_clusters(row):
    it = wide(row)
    return it.is_scan() if it.p is None else it.kinds["GroupOperation"] == 3


def is_size_of_clusters(row, s):
    return row.types.form(s) == INT and wide(row).is_constant(wide(row).ids[1])


def is_packed(row, s):
    it = wide(row)
    it.p = it.o
    return it.is_dot()


def first_of_block(row):
    """The place of the first value of a block among the values."""
    return {292: 6, 293: 1, 294: 1, 325: 1}.get(row.inst.opcode, 0)


def is_block(row):
    it = wide(row)
    signature = it.signature()
    is_taken = signature is not None and signature[1:2] == [it.tags[first_of_block(row)]]
    return is_taken and row.types.form(signature[0]) == VOID


def are_sizes(row):
    it = wide(row)
    return all(it.is_form(of, INT) or it.points_to(INT, of) for of in it.tags[9:])


def are_local(row):
    it = wide(row)
    wanted = (it.signature() or [None, None])[2:]
    return len(wanted) == len(it.tags[9:]) and all(it.is_pointer(of, WORKGROUP) for of in wanted)


def is_group(row, at):
    return objects.is_group(row.types, row.inst.operands[at][1])


def are_members(row):
    pairs = [of for _, of in row.inst.operands[1:]]
    known = zip(pairs[::2], pairs[1::2])
    return all(row.types.form(of) == STRUCT and number < len(row.types.rest(of)) for of, number in known)


# Of each condition its words, whether it holds (of the row, the number of the operand, the type that is looked at, and
# the type that is wanted), by its name.
TABLE = {
    **{
        name: (f"its type is {words}", lambda row, at, s, w, form=form: row.types.form(s) == form)
        for name, (words, form) in OF_FORMS.items()
    },
    **{
        f"To{name}": (
            f"its type is a pointer to {words}",
            lambda row, at, s, w, form=form: row.types.form(row.types.pointer(s)[1]) == form,
        )
        for name, (words, form) in OF_FORMS.items()
        if name in POINTED_TO
    },
    "Sampleable": ("its type is an image type whose images may be sampled", of_image(lambda it: it.sampled in (0, 1))),
    "Fetchable": (
        "its type is an image type whose images are sampled, and no cubes",
        of_image(lambda it: it.sampled == 1 and it.dim != CUBE),
    ),
    "Storable": (
        "its type is an image type whose images may be used without a sampler",
        of_image(lambda it: it.sampled in (0, 2)),
    ),
    "Sized": (
        "its type is an image type of 1D, 2D, 3D or cube images without several samples",
        of_image(lambda it: it.dim <= 3 and it.is_multiple == 0),
    ),
    "Leveled": ("its type is an image type of 1D, 2D, 3D or cube images", of_image(lambda it: it.dim <= 3)),
    "Flat": (
        "its type is an image type whose images have one size",
        of_image(lambda it: it.dim in (4, 5) or it.dim <= 3 and (it.is_multiple == 1 or it.sampled in (0, 2))),
    ),
    "Multisampled": (
        "its type is an image type of 2D images with several samples",
        of_image(lambda it: it.dim == 1 and it.is_multiple == 1),
    ),
    "Plain": ("its type is a data type, and not one of objects", of_row(lambda it, s: it.types.is_plain(s))),
    "Scalars": ("its type is a scalar or a vector", of_row(lambda it, s: it.is_of((INT, FLOAT, BOOL), s))),
    "Floats32": (
        "its type is a float of width 32 or a vector of them",
        of_row(lambda it, s: it.is_of((FLOAT,), s) and it.types.shape(s)[1] == 32),
    ),
    "FewInts": (
        "its type is an int or a vector of two or three ints",
        of_row(lambda it, s: it.is_of((INT,), s) and it.count(s) <= 3),
    ),
    "Ballot": ("its type is a vector of four ints of width 32", of_row(lambda it, s: it.is_ballot(s))),
    "Int8Pointer": (
        "its type is a pointer to an int of width 8",
        lambda row, at, s, w: points_to_width(row, s, 8),
    ),
    "Int32Pointer": (
        "its type is a pointer to an int of width 32",
        lambda row, at, s, w: points_to_width(row, s, 32),
    ),
    "PlainPointer": (
        "its type is a pointer to a data type that is not one of objects",
        of_row(lambda it, s: it.types.is_plain(it.pointer(s)[1])),
    ),
    "GlobalPointer": (
        "its type is a pointer of the storage class CrossWorkgroup",
        of_row(lambda it, s: it.is_pointer(s, CROSS_WORKGROUP)),
    ),
    "Size": ("its type is an int as wide as the addressing model has sizes", of_row(lambda it, s: it.is_size(s))),
    "Sizes": (
        "its type is an int as wide as the addressing model has sizes, or an array of two or three of them",
        of_row(lambda it, s: it.is_size(s) or it.is_sizes(s, (2, 3))),
    ),
    "RangeStruct": (
        "its type is a struct of an int of width 32 and three arrays of three sizes",
        of_row(lambda it, s: it.is_range_struct(s)),
    ),
    "Range": (
        "its type is a struct of an int of width 32 and three arrays of three sizes, or a pointer to one",
        of_row(lambda it, s: it.is_range(s)),
    ),
    "NumbersPointer": (
        "its type is a pointer to ints or floats",
        of_row(lambda it, s: it.is_of((INT, FLOAT), it.pointer(s)[1])),
    ),
    "SampledImage": (
        "its type is a sampled image type of images without several samples",
        lambda row, at, s, w: row.types.form(s) == SAMPLED_IMAGE and images(row, s).is_multiple == 0,
    ),
    "Four": (
        "its type is a vector of four components",
        of_row(lambda it, s: it.component(s) is not None and it.count(s) == 4),
    ),
    "ReadPipe": (
        "its type is a pipe type of the access qualifier ReadOnly",
        of_row(lambda it, s: it.is_form(s, PIPE) and it.types.rest(s) == [0]),
    ),
    "WritePipe": (
        "its type is a pipe type of the access qualifier WriteOnly",
        of_row(lambda it, s: it.is_form(s, PIPE) and it.types.rest(s) == [1]),
    ),
    "PairOf": (
        "its type is a struct of two members of the wanted one",
        lambda row, at, s, w: row.types.form(s) == STRUCT and row.types.rest(s) == [w, w],
    ),
    "Across": (
        "its type and the wanted one are pointers, one of the storage class Workgroup and one of CrossWorkgroup",
        lambda row, at, s, w: is_across(row, s, w),
    ),
    "SampledImageOf": (
        "its type is the sampled image type of the wanted one, an image type",
        lambda row, at, s, w: row.types.form(s) == SAMPLED_IMAGE and row.types.rest(s) == [w],
    ),
    "Matches": (
        "its type is another than the wanted one, and matches it",
        lambda row, at, s, w: s != w and objects.matches(row.types, s, w),
    ),
    "TexelPointer": (
        "its type is a pointer of the storage class Image to the sampled type of the images",
        of_images(lambda it, image, s: it.pointer(s) == [OF_IMAGE, image.sampled_type]),
    ),
    "Place": (
        "its type has an int for each coordinate of the images",
        counted((INT,), lambda image, count: count == image.places),
    ),
    "IntCoordinate": (
        "its type has an int for each coordinate of the images, or more",
        counted((INT,), lambda image, count: count >= image.places),
    ),
    "Coordinate": (
        "its type has an int or a float for each coordinate of the images, or more",
        counted((INT, FLOAT), lambda image, count: count >= image.places),
    ),
    "Extent": (
        "its type has an int for each number of the size of the images",
        counted((INT,), lambda image, count: count == image.extent),
    ),
    "Texel": (
        "its type has the components of the texels of the images",
        of_images(lambda it, image, s: it.is_texel(image, s)),
    ),
    "SampledType": (
        "the sampled type is void, an int or a float",
        lambda row, at, s, w: row.types.form(s) in (VOID, INT, FLOAT),
    ),
    "Depth": ("the depth is 0, 1 or 2", literal(lambda it: it <= 2)),
    "Arrayed": ("Arrayed is 0 or 1", literal(lambda it: it <= 1)),
    "SampleCount": ("MS is 0 or 1", literal(lambda it: it <= 1)),
    "SampledUse": ("Sampled is 0, 1 or 2", literal(lambda it: it <= 2)),
    "SampledImages": (
        "it is an image type of another dimension than Buffer and SubpassData",
        of_image(lambda it: it.dim not in (5, 6)),
    ),
    "Nullable": ("its type is a data type that has a null value", lambda row, at, s, w: s in row.types.nullable),
    "Normalized": ("it is 0 or 1, as coordinates are not normalized or are", literal(lambda it: it <= 1)),
    "Scan": (
        "the group operation is Reduce, InclusiveScan or ExclusiveScan",
        lambda row, at, s, w: wide(row).is_scan(),
    ),
    "Cluster": (
        "there is a size of clusters if and only if the group operation is ClusteredReduce",
        lambda row, at, s, w: has_clusters(row),
    ),
    "ClusterSize": (
        "the size of the clusters is a constant of int type",
        lambda row, at, s, w: is_size_of_clusters(row, s),
    ),
    "Constant": ("it is a constant", lambda row, at, s, w: wide(row).is_constant(row.inst.operands[at][1])),
    "Packed": (
        "its type is an int of width 32 with a packed vector format, and else a vector of ints no wider than the "
        "result",
        lambda row, at, s, w: is_packed(row, s),
    ),
    "ImageMask": (
        "the image operands are such as the opcode takes, and there are as many as the mask asks for",
        lambda row, at, s, w: has_mask(row),
    ),
    "ImageSample": (
        "Sample is among the image operands if and only if the images have several samples",
        lambda row, at, s, w: has_sample(row, s),
    ),
    "ImageSign": (
        "SignExtend and ZeroExtend are for texels of ints",
        lambda row, at, s, w: has_sign(row, s),
    ),
    "ImageOperands": (
        "each image operand has the type that the mask asks for",
        lambda row, at, s, w: have_types(row),
    ),
    "Extended": (
        "outside blocks the instruction gives void, and its set is one of debug information or non-semantic",
        lambda row, at, s, w: objects.is_extended(wide(row)),
    ),
    "ModeIds": (
        "the operands after the mode are constants of int type, one or more",
        lambda row, at, s, w: objects.takes_ints(wide(row)),
    ),
    "DecorationIds": (
        "the operands after the decoration are constants or variables outside functions, one or more",
        lambda row, at, s, w: objects.takes_ids(wide(row)),
    ),
    "Texts": (
        "the operands after the decoration are texts, one or more",
        lambda row, at, s, w: objects.takes_texts(wide(row)),
    ),
    "Group": ("the first operand is an OpDecorationGroup", lambda row, at, s, w: is_group(row, 0)),
    "NoMoreGroups": (
        "no operand after the first is an OpDecorationGroup",
        lambda row, at, s, w: not any(is_group(row, it) for it in range(1, len(row.inst.operands))),
    ),
    "Members": (
        "each id is that of a struct type, and the literal below it the number of a member",
        lambda row, at, s, w: are_members(row),
    ),
    "Block": (
        "the function returns void, and its first parameter has the type of the first value of the block",
        lambda row, at, s, w: is_block(row),
    ),
    "LocalSizes": (
        "each value after the block is an int or a pointer to an int",
        lambda row, at, s, w: are_sizes(row),
    ),
    "Locals": (
        "the function has a parameter more for each of these values and no other, each a pointer of the storage class "
        "Workgroup",
        lambda row, at, s, w: are_local(row),
    ),
}
WORDS = {words: name for name, (words, _) in TABLE.items()}
HOLDS = {name: holds for name, (_, holds) in TABLE.items()}
RELATIONS = (
    *("PairOf", "Across", "SampledImageOf", "TexelPointer", "Place", "IntCoordinate", "Coordinate"),
    *("Extent", "Texel", "Matches"),
)

PIPED = "q=Int32 s=Int32"
OF_GROUP = "o=Int32 p=Same:r"
RULES = (
    ("12", "2=Extended"),
    ("25", "1=SampledType 3=Depth 4=Arrayed 5=SampleCount 6=SampledUse"),
    ("27", "1=SampledImages"),
    ("45", "r=Sampler 3=Normalized"),
    ("323", "r=PipeStorage"),
    ("46", "r=Nullable"),
    ("60", "o=ToImage r=TexelPointer:o p=Place:o q=Int"),
    ("69", "o=GenericPointer r=Int32"),
    ("74", "0=Group -=NoMoreGroups"),
    ("75", "0=Group -=Members"),
    ("86", "o=Sampleable p=Sampler r=SampledImageOf:o"),
    ("88", "o=SampledImage p=Coordinate:o r=Four,Texel:o,ImageSign 4=ImageMask,ImageOperands -=ImageMask"),
    ("95", "o=Fetchable,ImageSample p=IntCoordinate:o r=Four,Texel:o,ImageSign 4=ImageMask,ImageOperands"),
    ("98", "o=Storable,ImageSample p=IntCoordinate:o r=Texel:o,ImageSign 4=ImageMask,ImageOperands"),
    ("99", "o=Storable,ImageSample p=IntCoordinate:o q=Texel:o,ImageSign 3=ImageMask,ImageOperands"),
    ("100", "o=SampledImageOf:r"),
    ("101 102", "o=Image r=Int"),
    ("103", "o=Sized p=Int r=Extent:o"),
    ("104", "o=Flat r=Extent:o"),
    ("106", "o=Leveled r=Int"),
    ("107", "o=Multisampled r=Int"),
    ("116", "r=Floats32 o=Same:r"),
    ("118 119 205", "o=Ints,SameCount:r r=Ints,SameCount:o"),
    ("123", "o=GenericPointer,SamePointee:r r=NamedPointer,SamePointee:o 3=StorageClass"),
    ("142", "r=Floats,VectorOf:p o=Same:r p=ComponentOf:r"),
    ("148", "o=Floats,VectorOf:r p=Same:o r=ComponentOf:o"),
    ("149-152", "o=Ints p=Same:o r=PairOf:o"),
    ("154 155", "r=Bool o=VectorOf:r"),
    ("156-160", "o=Floats,SameCount:r r=Bools,SameCount:o"),
    ("161-163", "o=Floats,SameCount:r p=Same:o r=Bools,SameCount:o"),
    ("169", "r=Plain"),
    ("201", "r=Ints o=Same:r p=Same:r q=Int s=Int"),
    ("202 203", "r=Ints o=Same:r p=Int q=Int"),
    ("204", "r=Ints o=Same:r"),
    ("231", "r=Int s=Int32 t=Same:r u=Same:r +=Int32 o=Pointer,PointsTo:r"),
    ("259", "o=Int32 p=NumbersPointer q=SamePointee:p,Across:p s=Size t=Size u=Same:r r=Event"),
    ("260", "o=Int32 p=Int32 q=ToEvent"),
    ("261 262 334 335", f"r=Bool {OF_GROUP}"),
    ("263", f"r=Scalars q=FewInts {OF_GROUP}"),
    ("264 267 268 270 271", f"r=Ints 3=Scan {OF_GROUP}"),
    ("265 266 269", f"r=Floats 3=Scan {OF_GROUP}"),
    ("274", f"o=ReadPipe p=GenericPointer {PIPED} r=Int32"),
    ("275", f"o=WritePipe p=GenericPointer {PIPED} r=Int32"),
    ("276", "o=ReadPipe p=ReserveId q=Int32 s=GenericPointer t=Int32 u=Int32 r=Int32"),
    ("277", "o=WritePipe p=ReserveId q=Int32 s=GenericPointer t=Int32 u=Int32 r=Int32"),
    ("278", f"o=ReadPipe p=Int32 {PIPED} r=ReserveId"),
    ("279", f"o=WritePipe p=Int32 {PIPED} r=ReserveId"),
    ("280", f"o=ReadPipe p=ReserveId {PIPED}"),
    ("281", f"o=WritePipe p=ReserveId {PIPED}"),
    ("282", "o=ReserveId r=Bool"),
    ("283 284", "o=Pipe p=Int32 q=Int32 r=Int32"),
    ("285", f"o=Int32 p=ReadPipe {PIPED} t=Int32 r=ReserveId"),
    ("286", f"o=Int32 p=WritePipe {PIPED} t=Int32 r=ReserveId"),
    ("287", "o=Int32 p=ReadPipe q=ReserveId s=Int32 t=Int32"),
    ("288", "o=Int32 p=WritePipe q=ReserveId s=Int32 t=Int32"),
    ("291", "o=Queue p=Int32 q=ToDeviceEvent s=ToDeviceEvent r=Int32"),
    ("292", "o=Queue p=Int32 q=Range s=Int32 t=ToDeviceEvent u=ToDeviceEvent r=Int32 -=LocalSizes"),
    ("292", "8=Block,Locals v=Int8Pointer w=Int32 x=Int32"),
    ("293 294", "o=Range 3=Block p=Int8Pointer q=Int32 s=Int32 r=Int32"),
    ("325", "o=Int32 3=Block p=Int8Pointer q=Int32 s=Int32 r=Int32"),
    ("295 296 326", "2=Block o=Int8Pointer p=Int32 q=Int32 r=Int32"),
    ("297 298", "o=DeviceEvent"),
    ("299", "r=DeviceEvent"),
    ("300", "o=DeviceEvent r=Bool"),
    ("301", "o=DeviceEvent p=Int32"),
    ("302", "o=DeviceEvent p=Int32 q=GlobalPointer"),
    ("303", "r=Queue"),
    ("304", "r=RangeStruct o=Sizes p=Same:o q=Same:o"),
    ("318", "o=Int32Pointer p=Int32 q=Int32 r=Bool"),
    ("319", "o=Int32Pointer p=Int32 q=Int32"),
    ("321", "o=PlainPointer r=Int32"),
    ("324", "o=PipeStorage r=Pipe"),
    ("328", "o=Int32 r=NamedBarrier"),
    ("329", "o=NamedBarrier p=Int32 q=Int32"),
    ("331", "-=ModeIds"),
    ("332", "-=DecorationIds"),
    ("333", "o=Int32 r=Bool"),
    ("336", "o=Int32 p=Scalars r=Bool"),
    ("337 345-348 365", f"r=Scalars q=Int {OF_GROUP}"),
    ("338", f"r=Scalars {OF_GROUP}"),
    ("339", "o=Int32 p=Bool r=Ballot"),
    ("340", "o=Int32 p=Ballot r=Bool"),
    ("341", "o=Int32 p=Ballot q=Int r=Bool"),
    ("342", "o=Int32 3=Scan p=Ballot r=Int"),
    ("343 344", "o=Int32 p=Ballot r=Int"),
    ("349 351 353 354 356 357 359-361", f"r=Ints 3=Cluster q=ClusterSize {OF_GROUP}"),
    ("350 352 355 358", f"r=Floats 3=Cluster q=ClusterSize {OF_GROUP}"),
    ("362-364", f"r=Bools 3=Cluster q=ClusterSize {OF_GROUP}"),
    ("366", f"r=Scalars q=Int,Constant {OF_GROUP}"),
    ("400", "o=Matches:r"),
    ("401 402", "o=Pointer p=Same:o r=Bool"),
    ("403", "o=Pointer p=Same:o r=Int"),
    ("4450-4452", "r=Int p=Same:o o=Packed"),
    ("4453-4455", "r=Int p=Same:o o=Packed q=Same:r"),
    ("5632 5633", "-=Texts"),
)
